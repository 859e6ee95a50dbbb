/*
 * Records, buffers and lists of every length, and NULL with length 0.
 */
#include "entries.h"

static const struct head at_start = {4, 0, 1, 1, U, NONE, 0, 0, 0};
static const struct head with_sets = {5, 2, 300, 1, D, 1, 0, 0x14, 0x2};
static const struct ballot one_heard = {1, 1, 1, U};

/* A record of another length than 20 is unsound, though its bytes are those of a sound one. */
void record_lengths(void)
{
    uint8_t bytes[41] = {0};
    size_t length, room;
    memcpy(bytes, image(&with_sets), VOTE_RECORD_BYTES);
    for (length = 0; length <= 40; length++) {
        if (length == VOTE_RECORD_BYTES)
            continue;
        lend(&record, bytes, length);
        expect_start("another length of the record", 3, 0, 1, 3);
        lend_ballots(NULL, 0);
        expect_tick("another length of the record", 0, 3, 0, NULL);
        lend_ballots(&one_heard, 1);
        expect_tick("another length of the record", 0, 3, 0, NULL);
        for (room = 0; room <= 21; room++) {
            lend(&buffer, NULL, room);
            expect_ballot("another length of the record", 3, NULL);
        }
    }
}

/* 5 for a sound head, 3 for an unsound one, and zeros in all of the buffer. */
void buffer_lengths(void)
{
    static const uint8_t ballot[] = {2, 1, 1, 300 / 256, 300 % 256};
    struct head unsound = with_sets;
    size_t length;
    unsound.n = 1;
    for (length = 0; length <= 40; length++) {
        lend_head(&with_sets);
        lend(&buffer, NULL, length);
        if (length == VOTE_BALLOT_BYTES)
            expect_ballot("a buffer of 5", 0, ballot);
        else
            expect_ballot("another length of the buffer", 5, NULL);
        lend_head(&unsound);
        lend(&buffer, NULL, length);
        expect_ballot("an unsound head", 3, NULL);
    }
}

/* A list of 0 to 325 bytes, all of them bytes of good ballots. */
void list_lengths(void)
{
    uint8_t bytes[LENT_MOST];
    struct head heard = at_start;
    size_t i, length;
    heard.ones = 0x2;
    for (i = 0; i < LENT_MOST; i += VOTE_BALLOT_BYTES)
        write_ballot(bytes + i, &one_heard);
    for (length = 0; length <= LENT_MOST; length++) {
        int taken = length % VOTE_BALLOT_BYTES == 0 && length <= VOTE_BALLOTS_BYTES_MOST;
        lend_head(&at_start);
        lend(&list, bytes, length);
        expect_tick("a list's length", 0, taken ? 0 : 5, 0, length == 0 ? NULL : image(&heard));
    }
    bytes[VOTE_BALLOTS_BYTES_MOST - 1] = 0; /* the last ballot's phase */
    lend_head(&at_start);
    lend(&list, bytes, VOTE_BALLOTS_BYTES_MOST);
    expect_tick("the last of 64 ballots is bad", 0, 6, VOTE_BALLOTS_MOST - 1, NULL);
}

/* 32 heads at phases 1 and 2 in one list: the last one is looked at too. */
void sixty_four_ballots(void)
{
    const struct head before = {32, 5, 1, 0, U, NONE, 0, 0, 0};
    const struct head after = {32, 5, 3, 1, D, 1, 0, 0, 0};
    struct ballot ballots[VOTE_BALLOTS_MOST];
    uint8_t s;
    for (s = 0; s < VOTE_HEADS_MOST; s++) {
        const struct ballot at_1 = {s, 1, 0, U}, at_2 = {s, 2, 1, U};
        ballots[s] = at_1;
        ballots[VOTE_HEADS_MOST + s] = s == 5 ? at_1 : at_2; /* the head itself is not ahead */
    }
    lend_head(&before);
    lend_ballots(ballots, VOTE_BALLOTS_MOST);
    expect_tick("64 ballots of two phases", 0, 0, 0, image(&after));
    ballots[VOTE_BALLOTS_MOST - 1].value = 0;
    lend_head(&before);
    lend_ballots(ballots, VOTE_BALLOTS_MOST);
    expect_tick("the last of 64 ballots with 0 at an even phase", 0, 9, 0, NULL);
}

/* ---- NULL with length 0 */

static void null_lists(void);
static void null_records(void);
static void null_buffers(void);

void null_with_length_zero(void)
{
    null_lists();
    null_records();
    null_buffers();
}

static void null_lists(void)
{
    const struct head enough = {3, 0, 1, 1, U, NONE, 0, 0x6, 0};
    const struct head stepped = {3, 0, 2, 1, U, NONE, 0, 0, 0};
    lend_null(&list);
    lend_head(&at_start);
    expect_tick("NULL list", 0, 0, 0, NULL);
    expect_tick("NULL list, coin 2", 2, 4, 0, NULL);
    lend_head(&enough);
    expect_tick("NULL list, enough held", 0, 0, 0, image(&stepped));
    lend(&record, NULL, VOTE_RECORD_BYTES);
    expect_tick("NULL list, unsound head", 0, 3, 0, NULL);
}

static void null_records(void)
{
    lend_null(&record);
    expect_start("NULL record", 1, 0, 1, 1);
    expect_start("NULL record", 3, 3, 2, 1);
    expect_start("NULL record", 3, 0, 2, 2);
    expect_start("NULL record", 3, 0, 1, 3);
    lend_ballots(&one_heard, 1);
    expect_tick("NULL record", 0, 3, 0, NULL);
    lend_null(&list);
    expect_tick("NULL record and list", 2, 3, 0, NULL);
    lend(&buffer, NULL, VOTE_BALLOT_BYTES);
    expect_ballot("NULL record", 3, NULL);
    lend_null(&buffer);
    expect_ballot("NULL record and buffer", 3, NULL);
}

static void null_buffers(void)
{
    struct head unsound = at_start;
    unsound.phase = 0;
    lend_null(&buffer);
    lend_head(&at_start);
    expect_ballot("NULL buffer", 5, NULL);
    lend_head(&unsound);
    expect_ballot("NULL buffer, unsound head", 3, NULL);
}
