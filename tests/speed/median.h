/*
 * median.h: the middle one of many times.
 */
#ifndef MEDIAN_H
#define MEDIAN_H

#include <stddef.h>

/* Sorts the times. */
double median(double *times, size_t count);

#endif
