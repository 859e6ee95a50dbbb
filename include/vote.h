/*
 * vote.h: the vote engine of one head, called from C.
 *
 * A head is held as a record of 20 bytes, which belongs to the caller. Start writes one, a tick
 * takes it one tick further, and a ballot is what the head sends in its present state. The engine
 * keeps nothing between calls and asks for no memory. "Document 01" is the build specification.
 *
 *
 * The record: 20 bytes
 *
 *   byte   0         n, the number of heads: 2 to 32
 *   byte   1         own number: below n
 *   bytes  2 and 3   phase, high byte first: 1 to 65,535
 *   byte   4         value: 0, 1, or 2 for blank
 *   byte   5         status: 0 undecided, 1 decided
 *   byte   6         decision: 0, 1, or 2 for none
 *   byte   7         zero
 *   bytes  8 to 11   the set of the heads heard at the present phase with 0
 *   bytes 12 to 15   the set of the heads heard at the present phase with 1
 *   bytes 16 to 19   the set of the heads heard at the present phase with blank
 *
 * A set is 4 bytes, high byte first, lowest bit for head 0: head 0 is the bit 01 of the set's last
 * byte, head 31 the bit 80 of its first. A record is stored and sent as it is. It is the same 20
 * bytes on every machine: no padding, no byte order of a machine's own, no pointer.
 *
 * The head in a record is sound when all of this holds:
 *
 *   the record has 20 bytes, and every byte is one of the codes above
 *   n is 2 to 32
 *   own number below n
 *   its phase, value and status obey the ballot rules below
 *   decided means that the decision is there and equals the value
 *   a decision means phase 3 or more
 *   the three sets are disjoint, with members below n
 *   at an odd phase none is heard blank
 *   at an even phase 0 and 1 are not both heard
 *   its own number, if heard, stands under its own value
 *
 *
 * The ballot: 5 bytes
 *
 *   byte   0         sender: below n
 *   byte   1         value: 0, 1, or 2 for blank
 *   byte   2         status: 0 undecided, 1 decided
 *   bytes  3 and 4   phase, high byte first: 1 to 65,535
 *
 * Sender 1, phase 300, value 1, decided: 01 01 01 01 2C. The ballot rules:
 *
 *   sender below n; phase 0 never stands
 *   phase 1           value 0 or 1, undecided
 *   phase 2           any value, undecided
 *   odd phase from 3  value 0 or 1, either status
 *   even phase from 4 any value, either status; blank only when undecided
 *
 *
 * What a caller owes. No proof of the engine can see these five:
 *
 *   A pointer to bytes is valid for its length: that many bytes can be read there and, where the
 *     pointer is not const, written. `index` points to a size_t that can be written.
 *   `index` is aligned as a size_t: a variable of that type is.
 *   The buffers of one call do not overlap, and *index overlaps none of them.
 *   NULL is passed only with length 0, and never as `index`.
 *   Nothing else reads or writes the record or *index during a call, or writes another buffer of
 *     the call: no other thread and no interrupt handler. A handler that ticks a record while the
 *     main program is inside a call with that record breaks this. Calls with different records may
 *     run at once, each with an index of its own, in threads and in handlers: the engine has no
 *     memory of its own.
 *
 * Everything else may be anything: every length, every byte and every number has its answer.
 * Pointers to bytes need no alignment.
 */
#ifndef VOTE_H
#define VOTE_H

#include <stddef.h>
#include <stdint.h>

#ifdef __cplusplus
extern "C" {
#endif

#define VOTE_RECORD_BYTES 20
#define VOTE_BALLOT_BYTES 5
#define VOTE_HEADS_MOST 32
#define VOTE_BALLOTS_MOST 64 /* in the list of one tick */
#define VOTE_BALLOTS_BYTES_MOST (VOTE_BALLOTS_MOST * VOTE_BALLOT_BYTES)

/* Where things stand in a record. A phase has two bytes and a set four, high byte first. */
enum vote_record_place {
    VOTE_AT_HEADS = 0,
    VOTE_AT_OWN = 1,
    VOTE_AT_PHASE = 2,
    VOTE_AT_VALUE = 4,
    VOTE_AT_STATUS = 5,
    VOTE_AT_DECISION = 6,
    VOTE_AT_HEARD_0 = 8,
    VOTE_AT_HEARD_1 = 12,
    VOTE_AT_HEARD_BLANK = 16
};

/* Where things stand in a ballot. */
enum vote_ballot_place {
    VOTE_BALLOT_AT_SENDER = 0,
    VOTE_BALLOT_AT_VALUE = 1,
    VOTE_BALLOT_AT_STATUS = 2,
    VOTE_BALLOT_AT_PHASE = 3
};

/* The codes. A value and a decision of 0 or 1 is that bit. */
#define VOTE_BLANK 2     /* of a value */
#define VOTE_NONE 2      /* of a decision */
#define VOTE_UNDECIDED 0 /* of a status */
#define VOTE_DECIDED 1   /* of a status */

/*
 * The numbers that the three functions give back, with document 01's words. Where several apply,
 * the lowest is given. Bad input is refused by its number, not by its place: a list whose first
 * ballot is a 7 and whose last is a 6 gives 6. At 6, 7 and 8 a tick also gives the index of a
 * ballot: the number is chosen first, and the index is that of this number.
 */
enum vote_number {
    VOTE_ACCEPTED = 0,       /* accepted */
    VOTE_HEADS_OR_OWN = 1,   /* start: n not 2 to 32; start: own number not below n */
    VOTE_PROPOSAL = 2,       /* start: proposal above 1 */
    VOTE_NOT_SOUND = 3,      /* head not sound; at a start from C, record not 20 bytes */
    VOTE_COIN = 4,           /* coin above 1, even if not needed */
    VOTE_LENGTH = 5,         /* list length not a multiple of 5, or over 320 bytes;
                                one ballot written: not five bytes */
    VOTE_BALLOT_RULE = 6,    /* a ballot breaks a ballot rule */
    VOTE_OWN_BALLOT = 7,     /* a ballot under the head's own number has a higher phase, or the
                                same phase and another value or status */
    VOTE_BALLOTS_DIFFER = 8, /* two ballots of one sender and phase differ; or one at the present
                                phase differs in value from what that sender is held under */
    VOTE_BOTH_HEARD = 9,     /* after step 2, phase even and both 0 and 1 heard */
    VOTE_LAST_PHASE = 10,    /* step 3 would need phase 65,536 */
    VOTE_DECISION = 11       /* the end would be decided with a blank, or with a value unlike the
                                decision already written */
};

/*
 * Start: the head number `own` of `n` proposes 0 or 1.
 *
 * Gives 0, 1, 2 or 3. Tested in this order: 1; 2; then 3, a record_len other than 20.
 * Accepted: the record holds the head at phase 1, value = proposal, undecided, no decision, nothing
 *   heard. What stood in the record before is not read.
 * Refused: the record is unchanged to the byte, whatever its length.
 */
uint32_t vote_start(uint8_t *record, size_t record_len, uint32_t n, uint32_t own,
                    uint32_t proposal);

/*
 * Tick: `ballots` is a list of 0 to 64 ballots, one after the other, in any order. `coin` is a
 * fresh random bit, 0 or 1. It is handed to every tick, needed or not. `index` is where the tick
 * writes which ballot was bad.
 *
 * Gives 0, or one of 3 to 11. Tested in number order: 3, 4, 5, 6, 7, 8, 9, 10, 11.
 * Accepted: the record holds the head after the tick. With nothing new in the list that can be the
 *   same 20 bytes. An empty list is a list.
 * Refused: the record is unchanged to the byte, whatever its length. The tick did not happen.
 * The list is never changed.
 *
 * *index is written at every call, accepted or refused, and what stood there is not read. It counts
 * ballots, not bytes, from 0, in the list as it was handed in:
 *
 *   6      the first ballot that breaks a ballot rule
 *   7      the first ballot under the head's own number that has a higher phase, or the same phase
 *          and another value or status
 *   8      the first ballot that differs from an earlier one of its sender and phase or, at the
 *          present phase, in value from what its sender is held under
 *   else   0, accepted or refused, also for a record of another length
 *
 * The number is chosen first: with a 7 at index 0 and a 6 at index 5, the tick gives 6 and *index
 * is 5. At 8 the index names the later of the two that differ, and never what it differs from. It
 * does not say which of them is wrong: that may be the earlier ballot, or what is held.
 */
uint32_t vote_tick(uint8_t *record, size_t record_len, const uint8_t *ballots, size_t ballots_len,
                   uint32_t coin, size_t *index);

/*
 * Ballot: writes what the head sends in its present state, its phase, value and status under its
 * own number.
 *
 * Gives 0, 3 or 5. Tested in this order: 3, head not sound; then 5, a ballot_len other than 5.
 * Accepted: the 5 bytes are the ballot.
 * Refused: all ballot_len bytes are zero, whatever that length is. (No ballot is five zeros.)
 * The record is never changed.
 */
uint32_t vote_ballot(const uint8_t *record, size_t record_len, uint8_t *ballot, size_t ballot_len);

#ifdef __cplusplus
}
#endif

#endif
