/*
 * Times the archive of vote and engine.c side by side, and prints both times and their ratio.
 *
 * First every input goes through both: numbers, indexes and records must be equal, or nothing is
 * timed.
 * Then samples of the two alternate, so that whatever else the machine does falls on both alike,
 * and the medians are taken. A sample is the processor's time for many calls on end; each call of a
 * tick puts the record back first, which is in the figures of both.
 * Status 1 where the two differ; no time is ever a failure.
 *
 * For tests/speed/count: the word `names` prints the rows, and the words ROW ENGINE TIMES, ENGINE
 * being `ours` or `C`, make that many calls and print nothing.
 */
#include "engine.h"
#include "inputs.h"
#include "median.h"
#include "vote.h"

int printf(const char *format, ...);
int atoi(const char *digits);
int memcmp(const void *a, const void *b, size_t length);
struct time {
    long seconds, nanoseconds;
};
int clock_gettime(int clock, struct time *now);

enum { PROCESSOR_TIME = 2, SAMPLES = 401, ROUNDS = 16, SAMPLE_NANOSECONDS = 100000 };

/* The functions of vote.h, of the archive or of engine.c. */
struct engine {
    uint32_t (*start)(uint8_t *record, size_t record_len, uint32_t n, uint32_t own,
                      uint32_t proposal);
    uint32_t (*tick)(uint8_t *record, size_t record_len, const uint8_t *ballots,
                     size_t ballots_len, uint32_t coin, size_t *index);
    uint32_t (*ballot)(const uint8_t *record, size_t record_len, uint8_t *ballot,
                       size_t ballot_len);
};

static const struct engine ours = { vote_start, vote_tick, vote_ballot };
static const struct engine quick = { quick_start, quick_tick, quick_ballot };

/* What is measured: `times` calls by an engine. */
typedef void work(const struct engine *engine, const void *with, long times);

/* The answers stay in memory, so that no call can be left out. */
static volatile uint32_t answer;

static double now(void);
static void measure(const char *name, work *work, const void *with);
struct row;
static void measure_growth(const struct row *of_sizes);

/* ---- Ticks */

static int same_tick(const struct input *input)
{
    uint8_t a[RECORD_BYTES], b[RECORD_BYTES];
    size_t index_of_ours = (size_t)-1, index_of_quick = (size_t)-1;
    uint32_t by_ours, by_quick;
    __builtin_memcpy(a, input->record, sizeof a);
    __builtin_memcpy(b, input->record, sizeof b);
    by_ours = vote_tick(a, sizeof a, input->list, input->length, input->coin, &index_of_ours);
    by_quick = quick_tick(b, sizeof b, input->list, input->length, input->coin, &index_of_quick);
    if (by_ours == input->number && by_quick == input->number && index_of_ours == input->index
        && index_of_quick == input->index && memcmp(a, b, sizeof a) == 0)
        return 1;
    printf("%s: ours gives %u and index %zu, the C %u and %zu, expected %u and %zu; records %s\n",
           input->name, by_ours, index_of_ours, by_quick, index_of_quick, input->number,
           input->index, memcmp(a, b, sizeof a) == 0 ? "equal" : "differ");
    return 0;
}

static void tick(const struct engine *engine, const void *with, long times)
{
    const struct input *input = with;
    uint8_t record[RECORD_BYTES];
    size_t index;
    while (times-- > 0) {
        __builtin_memcpy(record, input->record, sizeof record);
        answer = engine->tick(record, sizeof record, input->list, input->length, input->coin,
                              &index);
    }
}

/* ---- Start and ballot */

static void start(const struct engine *engine, const void *with, long times)
{
    uint8_t record[RECORD_BYTES];
    (void)with;
    while (times-- > 0)
        answer = engine->start(record, sizeof record, HEADS, 7, 1);
}

static void ballot(const struct engine *engine, const void *with, long times)
{
    const struct input *input = with;
    uint8_t five[BALLOT_BYTES];
    while (times-- > 0)
        answer = engine->ballot(input->record, sizeof input->record, five, sizeof five);
}

static int same_start_and_ballot(const struct input *input)
{
    uint8_t a[RECORD_BYTES] = { 0 }, b[RECORD_BYTES] = { 0 }, c[BALLOT_BYTES], d[BALLOT_BYTES];
    return vote_start(a, sizeof a, HEADS, 7, 1) == quick_start(b, sizeof b, HEADS, 7, 1)
        && memcmp(a, b, sizeof a) == 0
        && vote_ballot(input->record, sizeof input->record, c, sizeof c)
            == quick_ballot(input->record, sizeof input->record, d, sizeof d)
        && memcmp(c, d, sizeof c) == 0;
}

/* ---- Whole rounds: all n ballots formed, then all n heads ticked with all of them */

static uint8_t heads[HEADS][RECORD_BYTES];

/* A coin for a head and a round; some mixing, so that heads draw differently. */
static uint32_t coin_of(uint32_t round, uint32_t head)
{
    return (round * 2654435761u + head * 40503u) >> 13 & 1;
}

static void rounds(const struct engine *engine, uint32_t n)
{
    uint8_t list[HEADS * BALLOT_BYTES];
    uint32_t round, head;
    size_t index;
    for (head = 0; head < n; head++)
        answer = engine->start(heads[head], RECORD_BYTES, n, head, head % 2);
    for (round = 0; round < ROUNDS; round++) {
        for (head = 0; head < n; head++)
            answer = engine->ballot(heads[head], RECORD_BYTES, list + head * BALLOT_BYTES,
                                    BALLOT_BYTES);
        for (head = 0; head < n; head++)
            answer = engine->tick(heads[head], RECORD_BYTES, list, n * BALLOT_BYTES,
                                  coin_of(round, head), &index);
    }
}

static void vote(const struct engine *engine, const void *with, long times)
{
    const uint32_t *n = with;
    while (times-- > 0)
        rounds(engine, *n);
}

static int same_rounds(uint32_t n)
{
    uint8_t after[HEADS][RECORD_BYTES];
    rounds(&ours, n);
    __builtin_memcpy(after, heads, sizeof after);
    rounds(&quick, n);
    if (memcmp(after, heads, sizeof after) == 0 && heads[0][3] == ROUNDS + 1)
        return 1;
    printf("rounds of %u heads: the records differ, or a tick was refused\n", n);
    return 0;
}

/* ---- All of it */

static int all_same(size_t count)
{
    size_t i;
    int same = same_start_and_ballot(&inputs[0]);
    if (!same)
        printf("start or ballot differ\n");
    for (i = 0; i < count; i++)
        same &= same_tick(&inputs[i]);
    return same & same_rounds(8) & same_rounds(16) & same_rounds(32);
}

/* What is measured, in the order that it is printed in. */
struct row {
    const char *name;
    work *work;
    const void *with;
};

static const uint32_t sizes[3] = { 8, 16, 32 };
static struct row rows[INPUTS_MOST + 5];

static size_t make_rows(size_t count)
{
    static const char *const names[3] = { "16 rounds of 8 heads", "16 rounds of 16 heads",
                                          "16 rounds of 32 heads" };
    size_t i, made = 0;
    for (i = 0; i < count; i++)
        rows[made++] = (struct row){ inputs[i].name, tick, &inputs[i] };
    rows[made++] = (struct row){ "start", start, NULL };
    rows[made++] = (struct row){ "ballot", ballot, &inputs[0] };
    for (i = 0; i < 3; i++)
        rows[made++] = (struct row){ names[i], vote, &sizes[i] };
    return made;
}

int main(int argc, char **argv)
{
    const size_t count = make_inputs(), made = make_rows(count);
    size_t i;
    if (argc == 4) {
        const struct row *row = &rows[atoi(argv[1])];
        row->work(argv[2][0] == 'o' ? &ours : &quick, row->with, atoi(argv[3]));
        return 0;
    }
    if (argc == 2) {
        for (i = 0; i < made; i++)
            printf("%s\n", rows[i].name);
        return 0;
    }
    if (!all_same(count))
        return 1;
    printf("%-42s %10s %10s %7s\n", "nanoseconds", "ours", "C", "ratio");
    for (i = 0; i + 3 < made; i++)
        measure(rows[i].name, rows[i].work, rows[i].with);
    measure_growth(rows + made - 3);
    return 0;
}

/* ---- Times */

static double now(void)
{
    struct time time = { 0, 0 };
    clock_gettime(PROCESSOR_TIME, &time);
    return (double)time.seconds * 1e9 + (double)time.nanoseconds;
}

static double sample(work *work, const struct engine *engine, const void *with, long times)
{
    const double began = now();
    work(engine, with, times);
    return (now() - began) / (double)times;
}

/* How many calls make a sample of the wanted length. */
static long times_for(work *work, const void *with)
{
    long times = 1;
    while (times < 1000000 && sample(work, &ours, with, times) * (double)times < SAMPLE_NANOSECONDS)
        times *= 2;
    return times;
}

static void print(const char *name, double of_ours, double of_quick)
{
    printf("%-42s %10.1f %10.1f %7.2f\n", name, of_ours, of_quick, of_ours / of_quick);
}

static void measure(const char *name, work *work, const void *with)
{
    static double of_ours[SAMPLES], of_quick[SAMPLES];
    const long times = times_for(work, with);
    size_t i;
    for (i = 0; i < SAMPLES; i++) {
        of_ours[i] = sample(work, &ours, with, times);
        of_quick[i] = sample(work, &quick, with, times);
    }
    print(name, median(of_ours, SAMPLES), median(of_quick, SAMPLES));
}

/* The three sizes alternate too, since their times are divided by each other. */
static void measure_growth(const struct row *of_sizes)
{
    static double of_ours[3][SAMPLES], of_quick[3][SAMPLES];
    double a[3], b[3];
    size_t i, size;
    for (i = 0; i < SAMPLES; i++)
        for (size = 0; size < 3; size++) {
            of_ours[size][i] = sample(vote, &ours, of_sizes[size].with, 1);
            of_quick[size][i] = sample(vote, &quick, of_sizes[size].with, 1);
        }
    for (size = 0; size < 3; size++) {
        a[size] = median(of_ours[size], SAMPLES);
        b[size] = median(of_quick[size], SAMPLES);
        print(of_sizes[size].name, a[size], b[size]);
    }
    printf("%-42s %10.1f %10.1f\n", "growth from 8 to 16 heads, times", a[1] / a[0], b[1] / b[0]);
    printf("%-42s %10.1f %10.1f\n", "growth from 16 to 32 heads, times", a[2] / a[1], b[2] / b[1]);
}
