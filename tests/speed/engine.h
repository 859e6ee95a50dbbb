/*
 * engine.h: the engine of one head in plain C, written for speed, to measure the proved one by.
 *
 * It is written from document 01 and has the interface of vote.h under other names. Nothing
 * is proved of it. The firmware has no use for it.
 */
#ifndef QUICK_ENGINE_H
#define QUICK_ENGINE_H

#include <stddef.h>
#include <stdint.h>

enum { RECORD_BYTES = 20, BALLOT_BYTES = 5, BALLOTS_BYTES_MOST = 320 };
enum { ZERO, ONE, BLANK };
enum { UNDECIDED, DECIDED };
enum { NONE = 2 };

/* A head by value, in document 01's words. */
struct quick_head {
    uint32_t n, own, phase, value, status, decision;
    uint32_t zeros, ones, blanks; /* heard at the present phase; lowest bit for head 0 */
};

/* On records of 20 bytes, as vote.h says. */
uint32_t quick_start(uint8_t *record, size_t record_len, uint32_t n, uint32_t own,
                     uint32_t proposal);
uint32_t quick_tick(uint8_t *record, size_t record_len, const uint8_t *ballots, size_t ballots_len,
                    uint32_t coin, size_t *index);
uint32_t quick_ballot(const uint8_t *record, size_t record_len, uint8_t *ballot, size_t ballot_len);

/* The same by value, for the bench. A refused tick leaves the head as it came. No index: no tick of
 * a run is refused. */
uint32_t quick_start_head(struct quick_head *head, uint32_t n, uint32_t own, uint32_t proposal);
uint32_t quick_tick_head(struct quick_head *head, const uint8_t *ballots, size_t ballots_len,
                         uint32_t coin);
void quick_write_ballot(const struct quick_head *head, uint8_t *ballot);

#endif
