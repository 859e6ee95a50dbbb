/*
 * Times two whole programs on the same files, in turn, and prints medians and their ratio.
 *
 *   programs RUNS OURS C EMPTY FILE..
 *
 * A program is run with a file as its standard input, and what it prints thrown away. What counts is
 * the processor's time, its own and the system's for it, since that of the clock has other programs'
 * time in it. EMPTY is an empty file: what a program takes on it is its start, and each other figure
 * is given whole and without it.
 */
#include "median.h"

int printf(const char *format, ...);
int atoi(const char *digits);
int open(const char *path, int flags, ...);
int dup2(int from, int to);
int fork(void);
int execv(const char *path, char *const words[]);
_Noreturn void _exit(int status);
struct time {
    long seconds, microseconds;
};
struct usage {
    struct time own, system;
    long others[14];
};
int wait4(int child, int *status, int options, struct usage *usage);

enum { READ_ONLY = 0, WRITE_ONLY = 1 };
enum { RUNS_MOST = 1001, FILES_MOST = 8 };

_Noreturn static void become(char *program, const char *file)
{
    char *words[] = {program, 0};
    const int from = open(file, READ_ONLY), to = open("/dev/null", WRITE_ONLY);
    if (from < 0 || to < 0 || dup2(from, 0) < 0 || dup2(to, 1) < 0)
        _exit(126);
    execv(program, words);
    _exit(127);
}

static double microseconds(struct time time)
{
    return (double)time.seconds * 1e6 + (double)time.microseconds;
}

/* What a program takes on a file; below 0 where it ends with another status than 0. */
static double run(char *program, const char *file)
{
    struct usage usage;
    int child, status = 1;
    child = fork();
    if (child == 0)
        become(program, file);
    if (child < 0 || wait4(child, &status, 0, &usage) != child || status != 0)
        return -1;
    return microseconds(usage.own) + microseconds(usage.system);
}

static double took[FILES_MOST][2][RUNS_MOST];

/* The programs and the files alternate, so that whatever else the machine does falls on all alike;
 * each program is as often the first as the second. 0 where a run fails. */
static int run_all(int runs, char *const programs[2], char *const files[], int count)
{
    int i, file, turn;
    for (i = 0; i < runs; i++)
        for (file = 0; file < count; file++)
            for (turn = 0; turn < 2; turn++) {
                const int which = (turn + i) % 2;
                if ((took[file][which][i] = run(programs[which], files[file])) < 0)
                    return 0;
            }
    return 1;
}

static const char *last_part(const char *path)
{
    const char *part = path;
    for (; *path != 0; path++)
        if (*path == '/')
            part = path + 1;
    return part;
}

static void print(const char *name, double of_ours, double of_c)
{
    printf("%-42s %10.0f %10.0f %7.2f\n", name, of_ours, of_c, of_ours / of_c);
}

static void print_all(int runs, char *const files[], int count)
{
    double start[2];
    printf("%-42s %10s %10s %7s\n", "microseconds", "ours", "C", "ratio");
    for (int file = 0; file < count; file++) {
        const double of_ours = median(took[file][0], (size_t)runs);
        const double of_c = median(took[file][1], (size_t)runs);
        print(last_part(files[file]), of_ours, of_c);
        if (file == 0) {
            start[0] = of_ours;
            start[1] = of_c;
        } else {
            print("  without the start", of_ours - start[0], of_c - start[1]);
        }
    }
}

int main(int count, char **given)
{
    int runs;
    if (count < 5 || count > 4 + FILES_MOST)
        return 2;
    if ((runs = atoi(given[1])) < 1 || runs > RUNS_MOST)
        return 2;
    if (!run_all(runs, given + 2, given + 4, count - 4))
        return 1;
    print_all(runs, given + 4, count - 4);
    return 0;
}
