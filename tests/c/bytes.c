/*
 * Records and ballots as bytes.
 */
#include "entries.h"

static void bytes_of_sets(void);
static void top_bit(void);

void bytes_as_documented(void)
{
    static const uint8_t sends[20] = {3, 1, 0x01, 0x2C, 1, 1, 1}; /* the others zero */
    static const uint8_t ballot[] = {0x01, 0x01, 0x01, 0x01, 0x2C};
    lend(&record, sends, sizeof sends);
    lend(&buffer, NULL, VOTE_BALLOT_BYTES);
    expect_ballot("sender 1, phase 300, value 1, decided", 0, ballot);
    bytes_of_sets();
    top_bit();
}

/* Heads 0, 8, 9 and 23, and the bytes of the sets in which they stand. */
static void bytes_of_sets(void)
{
    static const uint8_t before[20] = {24, 9, 0, 1, 0, 0, 2};
    static const uint8_t ballots[] = {0, 0, 0, 0, 1, 8, 1, 0, 0, 1, 23, 1, 0, 0, 1, 9, 0, 0, 0, 1};
    static const uint8_t after[20] = {24, 9, 0, 1, 0, 0, 2, 0, 0, 0, 0x02, 0x01, 0, 0x80, 0x01, 0};
    lend(&record, before, sizeof before);
    lend(&list, ballots, sizeof ballots);
    expect_tick("sets as bytes", 0, 0, 0, after);
}

/* Head 31 of 32, in each of the three sets, as sender and as the head itself. */
static void top_bit(void)
{
    uint8_t before[20] = {32, 0, 0, 2, 1, 0, 2};
    uint8_t after[VOTE_RECORD_BYTES];
    uint8_t value;
    for (value = 0; value <= BLANK; value++) {
        const uint8_t ballot[] = {31, value, 0, 0, 2};
        before[VOTE_AT_OWN] = 0;
        memcpy(after, before, sizeof after);
        after[VOTE_AT_HEARD_0 + 4 * value] = 0x80;
        lend(&record, before, sizeof before);
        lend(&list, ballot, sizeof ballot);
        expect_tick("sender 31 of 32", 0, 0, 0, after);
        before[VOTE_AT_OWN] = after[VOTE_AT_OWN] = 31;
        before[VOTE_AT_VALUE] = after[VOTE_AT_VALUE] = value;
        lend(&record, before, sizeof before);
        expect_tick("own number 31 of 32", 0, 0, 0, after);
    }
    lend(&record, after, sizeof after); /* 31 is held under blank */
    relend_byte(&record, VOTE_AT_HEADS, 31);
    expect_tick("own number 31 of 31", 0, 3, 0, NULL);
    relend_byte(&record, VOTE_AT_OWN, 30);
    expect_tick("head 31 held among 31", 0, 3, 0, NULL);
}
