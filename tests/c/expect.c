/*
 * A call, what must come of it, and the words of a failure. They go out unbuffered: a crash later
 * loses no line.
 */
#include "entries.h"

/* A call, for the words of a failure. */
struct call {
    const char *what, *entry;
    const struct lent *record, *other; /* other: the list, the buffer, or NULL */
    uint32_t numbers[3];
    size_t count;
};

static unsigned long checks, failures;

static uint32_t ticked(uint32_t coin);
static void expect_number(const struct call *call, uint32_t given, uint32_t expected);
static void expect_index(const struct call *call, size_t expected);
static void expect_room(const struct call *call, const struct lent *lent, const uint8_t *written);
static int told(const struct call *call);
static void print_lent(const struct lent *lent);

/* An accepted start writes phase 1, value = proposal, undecided, no decision, nothing heard. */
void expect_start(const char *what, uint32_t n, uint32_t own, uint32_t proposal, uint32_t number)
{
    const struct call call = {
        what, "vote_start, n own proposal:", &record, NULL, {n, own, proposal}, 3};
    const struct head begun = {n, own, 1, proposal, U, NONE, 0, 0, 0};
    expect_number(&call, vote_start(record.at, record.length, n, own, proposal), number);
    expect_room(&call, &record, number == 0 ? image(&begun) : NULL);
}

void expect_tick(const char *what, uint32_t coin, uint32_t number, size_t index,
                 const uint8_t *after)
{
    const struct call call = {what, "vote_tick, coin:", &record, &list, {coin}, 1};
    expect_number(&call, ticked(coin), number);
    expect_index(&call, index);
    expect_room(&call, &record, number == 0 ? after : NULL);
    expect_room(&call, &list, NULL);
}

/* At a refusal every byte of the buffer is zero. */
void expect_ballot(const char *what, uint32_t number, const uint8_t *written)
{
    static const uint8_t zeros[LENT_MOST];
    const struct call call = {what, "vote_ballot", &record, &buffer, {0}, 0};
    expect_number(&call, vote_ballot(record.at, record.length, buffer.at, buffer.length), number);
    expect_room(&call, &record, NULL);
    expect_room(&call, &buffer, number == 0 ? written : zeros);
}

void expect_not_3(const char *what)
{
    const struct call call = {what, "vote_tick, coin:", &record, &list, {0}, 1};
    const uint32_t given = ticked(0);
    checks++;
    if (given == 3 && told(&call))
        dprintf(1, "    gave 3, expected another number\n");
    expect_index(&call, 0);
    expect_room(&call, &record, given == 0 ? record.at : NULL);
    expect_room(&call, &list, NULL);
}

int finish(void)
{
    dprintf(1, "c entries: %lu checks, %lu failed\n", checks, failures);
    return failures != 0;
}

static uint32_t ticked(uint32_t coin)
{
    lend_index();
    return vote_tick(record.at, record.length, list.at, list.length, coin, &index_room[1]);
}

static void expect_number(const struct call *call, uint32_t given, uint32_t expected)
{
    checks++;
    if (given != expected && told(call))
        dprintf(1, "    gave %u, expected %u\n", given, expected);
}

/* The index, and the guards around it as they were. */
static void expect_index(const struct call *call, size_t expected)
{
    const int kept = index_room[0] == INDEX_GUARD && index_room[2] == INDEX_GUARD;
    checks++;
    if ((kept && index_room[1] == expected) || !told(call))
        return;
    dprintf(1, "    the index is %zu, expected %zu; the words around it are %s\n", index_room[1],
            expected, kept ? "as they were" : "changed");
}

/* The whole room: `written`, or the old bytes where it is NULL, between the guards as they were. */
static void expect_room(const struct call *call, const struct lent *lent, const uint8_t *written)
{
    const size_t end = GUARD + lent->length;
    uint8_t expected[ROOM];
    size_t i = 0;
    checks++;
    memcpy(expected, lent->before, ROOM);
    if (written != NULL)
        memcpy(expected + GUARD, written, lent->length);
    if (memcmp(lent->room, expected, ROOM) == 0)
        return;
    while (lent->room[i] == expected[i])
        i++;
    if (!told(call))
        return;
    if (i < GUARD)
        dprintf(1, "    guard byte, %u before the %s", (unsigned)(GUARD - i), lent->name);
    else if (i >= end)
        dprintf(1, "    guard byte, %u after the %s", (unsigned)(i + 1 - end), lent->name);
    else
        dprintf(1, "    byte %u of the %s", (unsigned)(i - GUARD), lent->name);
    dprintf(1, " is %02x, expected %02x\n", lent->room[i], expected[i]);
}

/* Counts a failure and prints its call. A broken engine fails thousands: the first 20 are told. */
static int told(const struct call *call)
{
    size_t i;
    if (++failures > 20)
        return 0;
    dprintf(1, "failed: %s: %s", call->what, call->entry);
    for (i = 0; i < call->count; i++)
        dprintf(1, " %u", call->numbers[i]);
    dprintf(1, "\n");
    print_lent(call->record);
    if (call->other != NULL)
        print_lent(call->other);
    return 1;
}

/* The bytes as they were lent, the first 40 of them. */
static void print_lent(const struct lent *lent)
{
    size_t i;
    dprintf(1, "    %s, %u bytes:", lent->name, (unsigned)lent->length);
    for (i = 0; i < lent->length && i < 40; i++)
        dprintf(1, " %02x", lent->before[GUARD + i]);
    dprintf(1, i < lent->length ? " ..\n" : "\n");
}
