/*
 * Every byte of a sound record, with every value: each single flipped bit is among them.
 */
#include "entries.h"

static void expect_soundness(const uint8_t *bytes);

void every_byte_of_a_record(void)
{
    static const struct head heads[] = {
        {3, 0, 1, 1, U, NONE, 0x2, 0x1, 0},
        {2, 1, 2, BLANK, U, NONE, 0, 0x1, 0x2},
        {5, 2, 4, 0, D, 0, 0x14, 0, 0x2},
        {5, 4, 3, 1, D, 1, 0x2, 0x10, 0},
        {31, 30, 3, 0, U, 1, 0, 0x3FFFFFFF, 0},
        {32, 7, 258, BLANK, U, NONE, 0, 0x40000000, 0x80},
        {32, 31, 65535, 0, U, 1, 0x80000001, 0x00010000, 0},
        {17, 0, 513, 1, U, NONE, 0x2, 0x00010001, 0},
    };
    uint8_t bytes[VOTE_RECORD_BYTES];
    size_t i, place;
    unsigned byte;
    for (i = 0; i < COUNT(heads); i++)
        for (place = 0; place < VOTE_RECORD_BYTES; place++)
            for (byte = 0; byte < 256; byte++) {
                memcpy(bytes, image(&heads[i]), sizeof bytes);
                bytes[place] = byte;
                expect_soundness(bytes);
            }
}

/* An empty list leaves a sound head as it is, unless it holds enough for a step. */
static void expect_soundness(const uint8_t *bytes)
{
    const uint8_t ballot[] = {bytes[VOTE_AT_OWN], bytes[VOTE_AT_VALUE], bytes[VOTE_AT_STATUS],
                              bytes[VOTE_AT_PHASE], bytes[VOTE_AT_PHASE + 1]};
    const uint32_t heard = set_at(bytes + VOTE_AT_HEARD_0) | set_at(bytes + VOTE_AT_HEARD_1)
                         | set_at(bytes + VOTE_AT_HEARD_BLANK);
    const int is_sound = sound(bytes);
    lend(&record, bytes, VOTE_RECORD_BYTES);
    lend(&buffer, NULL, VOTE_BALLOT_BYTES);
    expect_ballot("one byte of a record", is_sound ? 0 : 3, ballot);
    lend_ballots(NULL, 0);
    if (!is_sound) {
        expect_tick("one byte of a record", 0, 3, 0, NULL);
    } else if (2 * size_of_set(heard) <= bytes[VOTE_AT_HEADS]) {
        expect_tick("one byte of a record", 0, 0, 0, NULL);
    } else {
        expect_not_3("one byte of a record");
    }
}
