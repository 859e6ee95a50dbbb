/*
 * Calls the three entries of vote.h as a program at the other end of two pipes asks.
 *
 * Standard input has frames: a length of 4 bytes, then that many bytes of calls, one after the
 * other. A frame is read as a whole before it is answered. Numbers have their low byte first.
 *
 *   call     entry (0 start, 1 tick, 2 ballot), null, two lengths, three numbers (4 bytes each),
 *            the bytes of the record, the bytes of the list or the buffer
 *   answer   what the entry gave back (4 bytes), what stands in the index (8 bytes), 1 if the bytes
 *            around the lent ones are as they were, else 0; the bytes of the record, the bytes of
 *            the list or the buffer
 *
 * Start takes n, own number and proposal; tick the coin; ballot none of the three. Before a call the
 * index has the second number as its low half and the third as its high one; tick alone is lent it.
 * Null 1: what has the length 0 is lent as NULL.
 * Every answer stands on standard output, in order. Status 0 at the end of the input.
 */
#include <string.h>

#include "vote.h"

long read(int file, void *to, size_t length);
long write(int file, const void *from, size_t length);

/* The guard is odd, so that lent bytes begin at an odd address. */
enum { GUARD = 17, LENT_MOST = 70000, FRAME_MOST = 1 << 22 };
enum { FRONT = 2 + 4 + 4 + 3 * 4, ANSWER_FRONT = 4 + 8 + 1 };
enum { START, TICK, BALLOT };
#define INDEX_GUARD ((size_t)0xA5A5A5A5A5A5A5A5)

struct lent {
    uint8_t *at; /* what is passed: the middle of the room, or NULL */
    size_t length;
    uint8_t room[GUARD + LENT_MOST + GUARD];
};

static struct lent record, other;
static uint8_t guard[GUARD];
static size_t index_room[3]; /* the index is the middle one, aligned as vote.h asks */

/* An answer is shorter than its call, so that the answers have room. */
static uint8_t calls[FRAME_MOST], answers[FRAME_MOST];

static size_t read_frame(void);
static size_t answer(size_t length);
static uint32_t number_at(const uint8_t *bytes);
static uint32_t give(uint8_t entry, const uint8_t *numbers);
static void lend(struct lent *to, const uint8_t *bytes, size_t length, uint8_t null);
static void lend_index(const uint8_t *halves);
static int around_kept(const struct lent *lent);
static uint8_t *put_front(uint8_t *to, uint32_t given);
static uint8_t *put(uint8_t *to, const struct lent *lent);
static size_t read_all(uint8_t *to, size_t length);
static int write_all(const uint8_t *from, size_t length);

int main(void)
{
    size_t length;
    memset(guard, 0xA5, sizeof guard);
    while ((length = read_frame()) != 0) {
        const size_t answered = answer(length);
        if (answered == 0 || !write_all(answers, answered))
            return 1;
    }
    return 0;
}

/* The length of the next frame; 0 at the end, or where the frame is cut or too long. */
static size_t read_frame(void)
{
    uint8_t front[4];
    size_t length;
    if (read_all(front, sizeof front) != sizeof front)
        return 0;
    length = number_at(front);
    return length <= FRAME_MOST && read_all(calls, length) == length ? length : 0;
}

/* Answers the calls of a frame. The number of bytes in `answers`; 0 where a call is cut. */
static size_t answer(size_t length)
{
    const uint8_t *from = calls, *end = calls + length;
    uint8_t *to = answers;
    while (from != end) {
        size_t record_length, other_length;
        if (end - from < FRONT)
            return 0;
        record_length = number_at(from + 2);
        other_length = number_at(from + 6);
        if (record_length > LENT_MOST || other_length > LENT_MOST
            || (size_t)(end - from) < FRONT + record_length + other_length)
            return 0;
        lend(&record, from + FRONT, record_length, from[1]);
        lend(&other, from + FRONT + record_length, other_length, from[1]);
        lend_index(from + 14);
        to = put_front(to, give(from[0], from + 10));
        to = put(put(to, &record), &other);
        from += FRONT + record_length + other_length;
    }
    return (size_t)(to - answers);
}

static uint32_t number_at(const uint8_t *bytes)
{
    uint32_t number;
    memcpy(&number, bytes, sizeof number);
    return number;
}

static uint32_t give(uint8_t entry, const uint8_t *numbers)
{
    const uint32_t first = number_at(numbers);
    if (entry == START)
        return vote_start(record.at, record.length, first, number_at(numbers + 4),
                          number_at(numbers + 8));
    if (entry == TICK)
        return vote_tick(record.at, record.length, other.at, other.length, first,
                         &index_room[1]);
    return vote_ballot(record.at, record.length, other.at, other.length);
}

/* ---- What is lent */

static void lend(struct lent *to, const uint8_t *bytes, size_t length, uint8_t null)
{
    to->at = null && length == 0 ? NULL : to->room + GUARD;
    to->length = length;
    memcpy(to->room, guard, GUARD);
    memcpy(to->room + GUARD, bytes, length);
    memcpy(to->room + GUARD + length, guard, GUARD);
}

static void lend_index(const uint8_t *halves)
{
    index_room[0] = index_room[2] = INDEX_GUARD;
    index_room[1] = (size_t)number_at(halves + 4) << 32 | number_at(halves);
}

static int around_kept(const struct lent *lent)
{
    return memcmp(lent->room, guard, GUARD) == 0
        && memcmp(lent->room + GUARD + lent->length, guard, GUARD) == 0;
}

/* What stands in an answer before the lent bytes. */
static uint8_t *put_front(uint8_t *to, uint32_t given)
{
    const uint64_t index = index_room[1];
    memcpy(to, &given, sizeof given);
    memcpy(to + 4, &index, sizeof index);
    to[12] = around_kept(&record) && around_kept(&other) && index_room[0] == INDEX_GUARD
          && index_room[2] == INDEX_GUARD;
    return to + ANSWER_FRONT;
}

static uint8_t *put(uint8_t *to, const struct lent *lent)
{
    memcpy(to, lent->room + GUARD, lent->length);
    return to + lent->length;
}

/* ---- The pipes: one read or write may do a part */

static size_t read_all(uint8_t *to, size_t length)
{
    size_t done = 0;
    while (done < length) {
        const long part = read(0, to + done, length - done);
        if (part <= 0)
            break;
        done += (size_t)part;
    }
    return done;
}

static int write_all(const uint8_t *from, size_t length)
{
    size_t done = 0;
    while (done < length) {
        const long part = write(1, from + done, length - done);
        if (part <= 0)
            return 0;
        done += (size_t)part;
    }
    return 1;
}
