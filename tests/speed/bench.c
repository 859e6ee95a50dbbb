/*
 * The program "bench" in plain C, to measure the proved one against: a run file on standard input,
 * the report on standard output. Written from document 01 alone. Nothing is proved of it.
 */
#include "engine.h"

long read(int file, void *to, size_t length);
long write(int file, const void *from, size_t length);

/* One byte more than the largest file is read: a longer one has its fault there or before. */
enum { FILE_MOST = 41001, HEADS_MOST = 32, ROUNDS_MOST = 256, TEXT_MOST = 4096 };

/* A file that is being read. `number` is its first refusal, at `place`. */
struct file {
    const uint8_t *bytes;
    size_t length, at, place;
    uint32_t number;
};

/* What the four sections say; the three bodies stand in the file. */
struct run {
    uint32_t n, need, rounds;
    const uint8_t *proposals, *rows, *coins;
};

struct text {
    char bytes[TEXT_MOST];
    size_t length;
};

static uint8_t input[FILE_MOST + 1];
static struct quick_head heads[HEADS_MOST];
static struct text report;

/* ---- Reading */

static int refuse(struct file *file, uint32_t number, size_t place)
{
    file->number = number;
    file->place = place;
    return 0;
}

/* A count between two bounds. */
static int read_count(struct file *file, uint32_t least, uint32_t most, uint32_t *count)
{
    if (file->length - file->at < 2)
        return refuse(file, 12, file->length);
    *count = (uint32_t)file->bytes[file->at] << 8 | file->bytes[file->at + 1];
    if (*count < least || *count > most)
        return refuse(file, 13, file->at);
    file->at += 2;
    return 1;
}

static const uint8_t *read_body(struct file *file, size_t length)
{
    const uint8_t *body = file->bytes + file->at;
    if (file->length - file->at < length) {
        refuse(file, 12, file->length);
        return NULL;
    }
    file->at += length;
    return body;
}

/* A body of bytes that are 0 or 1. */
static const uint8_t *read_bits(struct file *file, size_t length)
{
    const uint8_t *body = read_body(file, length);
    size_t i;
    for (i = 0; body != NULL && i < length; i++)
        if (body[i] > 1) {
            refuse(file, 14, (size_t)(body - file->bytes) + i);
            return NULL;
        }
    return body;
}

static uint32_t row_at(const uint8_t *at)
{
    return (uint32_t)at[0] << 24 | (uint32_t)at[1] << 16 | (uint32_t)at[2] << 8 | at[3];
}

static uint32_t all_of(uint32_t n)
{
    return (uint32_t)(((uint64_t)1 << n) - 1);
}

static const uint8_t *read_rows(struct file *file, uint32_t n, uint32_t rounds)
{
    const size_t count = (size_t)n * rounds;
    const uint8_t *body = read_body(file, 4 * count);
    size_t i;
    for (i = 0; body != NULL && i < count; i++)
        if (row_at(body + 4 * i) & ~all_of(n)) {
            refuse(file, 14, (size_t)(body - file->bytes) + 4 * i);
            return NULL;
        }
    return body;
}

static int read_need(struct file *file, struct run *run)
{
    uint32_t count;
    const uint8_t *body;
    if (!read_count(file, 1, 1, &count) || (body = read_body(file, 1)) == NULL)
        return 0;
    run->need = body[0];
    if (2 * run->need <= run->n || run->need > run->n)
        return refuse(file, 14, file->at - 1);
    return 1;
}

static int read_run(struct file *file, struct run *run)
{
    uint32_t count;
    if (!read_count(file, 2, HEADS_MOST, &run->n)
        || (run->proposals = read_bits(file, run->n)) == NULL || !read_need(file, run)
        || !read_count(file, 0, ROUNDS_MOST, &run->rounds)
        || (run->rows = read_rows(file, run->n, run->rounds)) == NULL)
        return 0;
    if (!read_count(file, run->n * run->rounds, run->n * run->rounds, &count)
        || (run->coins = read_bits(file, count)) == NULL)
        return 0;
    return file->at == file->length ? 1 : refuse(file, 15, file->at);
}

/* ---- Running */

/* Puts the ballots that are not lost into the list, in sender order. How many bytes they have. */
static size_t not_lost(uint32_t n, uint32_t row, const uint8_t *all, uint8_t *list)
{
    uint32_t here = ~row & all_of(n);
    uint8_t *to = list;
    for (; here != 0; here &= here - 1, to += BALLOT_BYTES)
        __builtin_memcpy(to, all + (uint32_t)__builtin_ctz(here) * BALLOT_BYTES, BALLOT_BYTES);
    return (size_t)(to - list);
}

/* One round. How many ballots were lost in it. */
static uint32_t run_round(uint32_t n, const uint8_t *rows, const uint8_t *coins)
{
    uint8_t all[HEADS_MOST * BALLOT_BYTES], list[HEADS_MOST * BALLOT_BYTES];
    uint32_t lost = 0, i;
    for (i = 0; i < n; i++)
        quick_write_ballot(&heads[i], all + i * BALLOT_BYTES);
    for (i = 0; i < n; i++) {
        const uint32_t row = row_at(rows + 4 * i);
        lost += (uint32_t)__builtin_popcount(row);
        if (row == 0)
            quick_tick_head(&heads[i], all, n * BALLOT_BYTES, coins[i]);
        else
            quick_tick_head(&heads[i], list, not_lost(n, row, all, list), coins[i]);
    }
    return lost;
}

static uint32_t bound_of(const struct run *run)
{
    return (run->n + 1) / 2 * (run->n - run->need) + run->need - 2;
}

/* All rounds. How many were good. */
static uint32_t run_rounds(const struct run *run)
{
    uint32_t good = 0, round, i;
    for (i = 0; i < run->n; i++)
        quick_start_head(&heads[i], run->n, i, run->proposals[i]);
    for (round = 0; round < run->rounds; round++)
        good += run_round(run->n, run->rows + 4 * (size_t)round * run->n,
                          run->coins + (size_t)round * run->n) <= bound_of(run);
    return good;
}

/* ---- Printing */

static void put(const char *words)
{
    while (*words != 0)
        report.bytes[report.length++] = *words++;
}

static void put_number(const char *words, size_t number)
{
    char digits[20];
    size_t count = 0;
    put(words);
    do
        digits[count++] = (char)('0' + number % 10);
    while ((number /= 10) != 0);
    while (count != 0)
        report.bytes[report.length++] = digits[--count];
}

static void put_head(const struct quick_head *head)
{
    static const char *values[3] = { "0", "1", "blank" }, *decisions[3] = { "0", "1", "none" };
    put_number("head ", head->own);
    put_number(" phase ", head->phase);
    put(" value ");
    put(values[head->value]);
    put(head->status == DECIDED ? " status decided" : " status undecided");
    put(" decision ");
    put(decisions[head->decision]);
    put("\n");
}

static void put_run(const struct run *run, uint32_t good)
{
    uint32_t decided = 0, i;
    put_number("heads ", run->n);
    put_number(" need ", run->need);
    put_number(" bound ", bound_of(run));
    put("\n");
    for (i = 0; i < run->n; i++) {
        put_head(&heads[i]);
        decided += heads[i].decision != NONE; /* W2: "heads whose decision is written" */
    }
    put_number("rounds ", run->rounds);
    put_number(" good ", good);
    put_number(" decided ", decided);
    put("\n");
}

static size_t read_all(uint8_t *to, size_t length)
{
    size_t done = 0;
    while (done < length) {
        const long part = read(0, to + done, length - done);
        if (part <= 0)
            break;
        done += (size_t)part;
    }
    return done;
}

int main(void)
{
    struct file file = { input, read_all(input, sizeof input), 0, 0, 0 };
    struct run run;
    if (read_run(&file, &run)) {
        put_run(&run, run_rounds(&run));
    } else {
        put_number("refused ", file.number);
        put_number(" at ", file.place);
        put("\n");
    }
    return write(1, report.bytes, report.length) == (long)report.length ? 0 : 1;
}
