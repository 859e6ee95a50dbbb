/*
 * One head's firmware around the vote engine: start, send, receive, tick.
 *
 * The functions at the end stand for the head's own drivers. Here they tell a short story of head 0
 * of 3, so that the program runs anywhere; firmware puts its own in their place and keeps the rest.
 * tests/c/run compiles this file, runs it and compares what it prints with firmware.out.
 */
#include <stdio.h>
#include <string.h>

#include "vote.h"

enum { HEADS = 3, OWN = 0 };

/* The vote stands in these 20 bytes, and nowhere else. */
static uint8_t record[VOTE_RECORD_BYTES];

static uint32_t one_tick(void);
static uint32_t tick(const uint8_t *ballots, size_t length, size_t *index);
static size_t drop(uint8_t *ballots, size_t length, size_t index, uint32_t number);
static uint32_t tick_one_by_one(const uint8_t *ballots, size_t length);
static void show(uint32_t number, size_t index, size_t ballots);

static uint32_t recovered_bit(void);
static int radio_is_on(void);
static void radio_send(const uint8_t *ballot);
static size_t radio_receive(uint8_t *to, size_t most);
static uint32_t random_bit(void);
static void take_samples(uint32_t alignment);

int main(void)
{
    int taken = 0;

    if (vote_start(record, sizeof record, HEADS, OWN, recovered_bit()) != VOTE_ACCEPTED)
        return 1;

    /* A head that has decided goes on: the others may need its ballots. */
    while (radio_is_on()) {
        if (one_tick() == VOTE_NOT_SOUND)
            return 1; /* something else wrote on the record */
        if (record[VOTE_AT_DECISION] != VOTE_NONE && !taken) {
            take_samples(record[VOTE_AT_DECISION]);
            taken = 1;
        }
    }
    return taken ? 0 : 1;
}

/* Sends this head's ballot, and ticks it with that ballot and those that the radio brings. */
static uint32_t one_tick(void)
{
    uint8_t list[VOTE_BALLOTS_BYTES_MOST];
    size_t used = VOTE_BALLOT_BYTES, index;
    uint32_t number;

    /* The own ballot comes first in the list: a head hears itself only if it is there. */
    number = vote_ballot(record, sizeof record, list, VOTE_BALLOT_BYTES);
    if (number != VOTE_ACCEPTED)
        return number;
    radio_send(list);

    /* One bad ballot has the whole list refused, and the record is as it was. A neighbour that goes
       on sending it would keep this head from hearing anybody. So it is dropped, and the others are
       handed in again. */
    used += radio_receive(list + used, sizeof list - used);
    number = tick(list, used, &index);
    while (number >= VOTE_BALLOT_RULE && number <= VOTE_BALLOTS_DIFFER) {
        used = drop(list, used, index, number);
        number = tick(list, used, &index);
    }
    return number < VOTE_LENGTH ? number : tick_one_by_one(list, used);
}

static uint32_t tick(const uint8_t *ballots, size_t length, size_t *index)
{
    const uint32_t number = vote_tick(record, sizeof record, ballots, length, random_bit(), index);
    show(number, *index, length / VOTE_BALLOT_BYTES);
    return number;
}

/* Takes the ballot at the index out of the list, and gives the length of what is left. At 8 another
   ballot of its sender and phase may be the wrong one, so all of them go: the vote bears a ballot
   that is lost, but not one that was never sent. The own ballot stays: at 6, 7 and 8 it is never
   the one, nor of the same sender and phase as the one of an 8 (proved: docs/promises). */
static size_t drop(uint8_t *ballots, size_t length, size_t index, uint32_t number)
{
    uint8_t bad[VOTE_BALLOT_BYTES];
    size_t at, left = 0;

    memcpy(bad, ballots + index * VOTE_BALLOT_BYTES, sizeof bad);
    for (at = 0; at < length; at += VOTE_BALLOT_BYTES) {
        const uint8_t *ballot = ballots + at;
        const int alike = ballot[VOTE_BALLOT_AT_SENDER] == bad[VOTE_BALLOT_AT_SENDER]
            && memcmp(ballot + VOTE_BALLOT_AT_PHASE, bad + VOTE_BALLOT_AT_PHASE, 2) == 0;
        if (at == index * VOTE_BALLOT_BYTES || (number == VOTE_BALLOTS_DIFFER && alike))
            continue;
        memmove(ballots + left, ballot, VOTE_BALLOT_BYTES);
        left += VOTE_BALLOT_BYTES;
    }
    return left;
}

/* 5, 9, 10 and 11 name no ballot. The ballots are handed over one at a time, the own one first, and
   only those that are refused alone are dropped. */
static uint32_t tick_one_by_one(const uint8_t *ballots, size_t length)
{
    uint32_t number = VOTE_ACCEPTED;
    size_t at, index;

    for (at = 0; at + VOTE_BALLOT_BYTES <= length; at += VOTE_BALLOT_BYTES) {
        number = tick(ballots + at, VOTE_BALLOT_BYTES, &index);
        if (number == VOTE_NOT_SOUND)
            return number;
    }
    return number;
}

static void show(uint32_t number, size_t index, size_t ballots)
{
    printf("tick, ballots %u: number %u index %u, phase %u value %u status %u decision %u\n",
           (unsigned)ballots, (unsigned)number, (unsigned)index,
           record[VOTE_AT_PHASE] * 256u + record[VOTE_AT_PHASE + 1], record[VOTE_AT_VALUE] + 0u,
           record[VOTE_AT_STATUS] + 0u, record[VOTE_AT_DECISION] + 0u);
}

/* ---- The drivers, told as a story */

/* What the radio brings before each tick. */
static const struct {
    size_t count;
    uint8_t ballots[2][VOTE_BALLOT_BYTES];
} air[] = {
    {0, {{0}}},                              /* all is lost */
    {1, {{1, 1, 0, 0, 1}}},                  /* head 1 at phase 1, value 1 */
    {2, {{2, 3, 0, 0, 1}, {1, 1, 0, 0, 2}}}, /* damaged: no value is 3; and head 1 at phase 2 */
    {2, {{2, 1, 1, 0, 3}, {2, 0, 1, 0, 3}}}, /* head 2 at phase 3, twice: one is damaged */
    {2, {{2, 0, 1, 0, 5}, {1, 1, 1, 0, 3}}}, /* of another vote, decided 0; and head 1 at phase 3 */
};

static size_t ticks; /* how many have been */

static uint32_t recovered_bit(void)
{
    return 1;
}

static int radio_is_on(void)
{
    return ticks < sizeof air / sizeof air[0];
}

static void radio_send(const uint8_t *ballot)
{
    printf("send %02X %02X %02X %02X %02X\n", ballot[0] + 0u, ballot[1] + 0u, ballot[2] + 0u,
           ballot[3] + 0u, ballot[4] + 0u);
}

/* Whole ballots, and no more than there is room for. */
static size_t radio_receive(uint8_t *to, size_t most)
{
    const uint8_t *from = air[ticks].ballots[0];
    size_t i, length = air[ticks].count * VOTE_BALLOT_BYTES;
    ticks++;
    if (length > most)
        length = most - most % VOTE_BALLOT_BYTES;
    for (i = 0; i < length; i++)
        to[i] = from[i];
    return length;
}

/* Firmware asks a source of chance; the story needs none. */
static uint32_t random_bit(void)
{
    return 0;
}

static void take_samples(uint32_t alignment)
{
    printf("the demodulator takes its samples by bit %u\n", (unsigned)alignment);
}
