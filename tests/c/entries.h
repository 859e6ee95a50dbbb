/*
 * entries.h: what the tests of the three entries share; each file says what it tests.
 */
#ifndef ENTRIES_H
#define ENTRIES_H

#include <stdio.h>
#include <string.h>

#include "vote.h"

#define COUNT(table) (sizeof(table) / sizeof((table)[0]))

/* As document 01 writes them. */
enum { U = VOTE_UNDECIDED, D = VOTE_DECIDED, BLANK = VOTE_BLANK, NONE = VOTE_NONE };

/* As the document writes one: (sender, phase, value, u or d). */
struct ballot {
    uint8_t sender;
    uint16_t phase;
    uint8_t value, status;
};

struct head {
    uint8_t n, own;
    uint16_t phase;
    uint8_t value, status, decision;
    uint32_t zeros, ones, blanks;
};

/* ---- The tests */

void every_start(void);
void refused_starts(void);
void record_lengths(void);
void buffer_lengths(void);
void list_lengths(void);
void sixty_four_ballots(void);
void null_with_length_zero(void);
void numbers_are_not_cut(void);
void bytes_as_documented(void);
void every_byte_of_a_record(void);
void first_offending_ballots(void);
void numbers_without_index(void);

/* ---- expect.c: calls an entry with what is lent, and compares number, index and rooms */

void expect_start(const char *what, uint32_t n, uint32_t own, uint32_t proposal, uint32_t number);

/* `after` NULL, or any refusal: the record is as it came. */
void expect_tick(const char *what, uint32_t coin, uint32_t number, size_t index,
                 const uint8_t *after);

/* An empty list for a sound head that holds enough: it may step or be refused, but not by 3. */
void expect_not_3(const char *what);

void expect_ballot(const char *what, uint32_t number, const uint8_t *written);

/* Prints the number of checks. The status of the program. */
int finish(void);

/* ---- lent.c: what the next call is lent */

/* The guard is 16 bytes and one more, so that lent bytes begin at an odd address. */
enum { GUARD = 17, LENT_MOST = 325, ROOM = GUARD + LENT_MOST + GUARD };

struct lent {
    const char *name;
    uint8_t *at; /* what is passed: the middle of the room, or NULL */
    size_t length;
    uint8_t room[ROOM];
    uint8_t before[ROOM]; /* the room as it was lent */
};

extern struct lent record, list, buffer;

/* The index is the middle one, between two guards and aligned as the header asks. */
extern size_t index_room[3];
#define INDEX_GUARD ((size_t)0xA0A1A2A3A4A5A6A7)

/* For each tick anew. FF bytes stand in it, or at every third tick a number. */
void lend_index(void);

/* `bytes` NULL: the lent bytes are of the room's pattern, none of them zero. */
void lend(struct lent *to, const uint8_t *bytes, size_t length);
void lend_null(struct lent *to);
void lend_head(const struct head *h);
void lend_ballots(const struct ballot *ballots, size_t count);

/* Changes one byte of what is lent. */
void relend_byte(struct lent *lent, size_t place, uint8_t byte);

/* The record of a head. The next call writes over it. */
const uint8_t *image(const struct head *h);
void write_ballot(uint8_t *to, const struct ballot *b);

/* ---- rules.c: the rules of document 01, on bytes */

/* Of a record of 20 bytes. */
int sound(const uint8_t *bytes);
int obeys_rules(uint32_t phase, uint32_t value, uint32_t status);
uint32_t set_at(const uint8_t *bytes);
uint32_t size_of_set(uint32_t set);

#endif
