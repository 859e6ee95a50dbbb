#include "median.h"

void qsort(void *at, size_t count, size_t size, int (*order)(const void *, const void *));

static int by_size(const void *a, const void *b);

double median(double *times, size_t count)
{
    qsort(times, count, sizeof times[0], by_size);
    return times[count / 2];
}

static int by_size(const void *a, const void *b)
{
    const double *x = a, *y = b;
    return (*x > *y) - (*x < *y);
}
