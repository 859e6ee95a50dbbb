/*
 * The index that a tick writes: at 6, 7 and 8 that of the first offending ballot, else 0.
 */
#include "entries.h"

enum { BALLOTS = 4 };

/* A refused list with its index, and that of the list turned round. */
struct refused {
    const char *what;
    uint32_t number;
    size_t index, turned, count;
    struct ballot ballots[BALLOTS];
};

/* Head 0 of 5 is at phase 3 with value 1, and holds head 3 under 0. */
static const struct head before = {5, 0, 3, 1, U, NONE, 0x8, 0, 0};

static const struct refused lists[] = {
    {"one ballot breaks a rule", 6, 1, 2, 4,
     {{1, 3, 1, U}, {2, 3, BLANK, U}, {4, 3, 0, U}, {4, 2, 1, U}}},
    {"two ballots break rules", 6, 1, 0, 4,
     {{1, 3, 1, U}, {5, 3, 1, U}, {4, 3, 0, U}, {2, 1, 1, D}}},
    {"a 7, an 8 and a 6", 6, 2, 0, 3, {{0, 4, 1, U}, {3, 3, 1, U}, {1, 0, 1, U}}},
    {"two own ballots that fit, and two that do not", 7, 2, 0, 4,
     {{0, 1, 0, U}, {0, 3, 1, U}, {0, 3, 0, U}, {0, 5, 1, D}}},
    {"an 8 and a 7", 7, 2, 0, 3, {{3, 3, 1, U}, {1, 3, 1, U}, {0, 3, 1, D}}},
    {"a pair inside a pair", 8, 2, 2, 4,
     {{1, 3, 1, U}, {2, 3, 1, U}, {2, 3, 0, U}, {1, 3, 0, U}}},
    {"a pair with another status", 8, 3, 3, 4,
     {{1, 3, 1, U}, {2, 3, 1, U}, {4, 3, 1, U}, {1, 3, 1, D}}},
    {"an equal repeat, and another value", 8, 2, 1, 3,
     {{1, 3, 1, U}, {1, 3, 1, U}, {1, 3, 0, U}}},
    {"pairs of a lower and a higher phase", 8, 2, 2, 4,
     {{1, 2, 0, U}, {2, 5, 1, U}, {1, 2, BLANK, U}, {2, 5, 0, U}}},
    {"pairs of a lower phase and of this", 8, 1, 1, 4,
     {{1, 2, 0, U}, {1, 2, BLANK, U}, {2, 3, 1, U}, {2, 3, 0, U}}},
    {"the value that is held, and another", 8, 2, 0, 3,
     {{1, 3, 1, U}, {3, 3, 0, D}, {3, 3, 1, U}}},
    {"another value than is held, at a lower phase and at this", 8, 1, 0, 2,
     {{3, 1, 1, U}, {3, 3, 1, U}}},
};

static void expect_in_all_orders(const struct refused *refused);
static void a_bad_one_at_every_place(void);
static void fill(struct ballot ballots[VOTE_BALLOTS_MOST]);

void first_offending_ballots(void)
{
    size_t i;
    for (i = 0; i < COUNT(lists); i++)
        expect_in_all_orders(&lists[i]);
    a_bad_one_at_every_place();
}

/* As it stands, turned round, the whole list twice, and each ballot twice. */
static void expect_in_all_orders(const struct refused *refused)
{
    struct ballot turned[BALLOTS], whole_twice[2 * BALLOTS], each_twice[2 * BALLOTS];
    const size_t count = refused->count;
    size_t i;
    for (i = 0; i < count; i++) {
        turned[count - 1 - i] = refused->ballots[i];
        whole_twice[i] = whole_twice[count + i] = refused->ballots[i];
        each_twice[2 * i] = each_twice[2 * i + 1] = refused->ballots[i];
    }
    lend_head(&before);
    lend_ballots(refused->ballots, count);
    expect_tick(refused->what, 0, refused->number, refused->index, NULL);
    lend_ballots(turned, count);
    expect_tick(refused->what, 0, refused->number, refused->turned, NULL);
    lend_ballots(whole_twice, 2 * count);
    expect_tick(refused->what, 0, refused->number, refused->index, NULL);
    lend_ballots(each_twice, 2 * count);
    expect_tick(refused->what, 0, refused->number, 2 * refused->index, NULL);
}

static void a_bad_one_at_every_place(void)
{
    static const struct {
        uint32_t number;
        size_t first;
        struct ballot ballot;
    } bad[] = {
        {6, 0, {1, 3, BLANK, U}},
        {7, 0, {0, 3, 0, U}},
        {8, 0, {3, 3, 1, U}}, /* unlike what is held */
        {8, 1, {4, 1, 1, U}}, /* unlike the ballot at 0 */
    };
    struct ballot ballots[VOTE_BALLOTS_MOST];
    size_t i, place;
    lend_head(&before);
    for (i = 0; i < COUNT(bad); i++)
        for (place = bad[i].first; place < VOTE_BALLOTS_MOST; place++) {
            fill(ballots);
            ballots[place] = bad[i].ballot;
            lend_ballots(ballots, VOTE_BALLOTS_MOST);
            expect_tick("a bad one of 64", 0, bad[i].number, place, NULL);
        }
}

/* Good ballots: one of a lower phase, then all others of the present one. */
static void fill(struct ballot ballots[VOTE_BALLOTS_MOST])
{
    const struct ballot lower = {4, 1, 0, U};
    size_t i;
    for (i = 0; i < VOTE_BALLOTS_MOST; i++) {
        const struct ballot present = {1 + i % 4, 3, i % 4 == 2 ? 0 : 1, U};
        ballots[i] = i == 0 ? lower : present;
    }
}

/* ---- Other numbers: 0, whatever ballots the list has */

static void numbers_before_6(void);
static void numbers_after_8(void);

void numbers_without_index(void)
{
    numbers_before_6();
    numbers_after_8();
}

/* The second ballot breaks a rule. */
static void numbers_before_6(void)
{
    static const uint8_t bytes[] = {1, 1, 0, 0, 3, 2, BLANK, 0, 0, 3, 1};
    struct head unsound = before;
    unsound.phase = 0;
    lend(&list, bytes, 2 * VOTE_BALLOT_BYTES);
    lend_head(&unsound);
    expect_tick("3, and a list with a 6", 0, 3, 0, NULL);
    lend(&record, image(&before), VOTE_RECORD_BYTES - 1);
    expect_tick("3 by its length, and a list with a 6", 0, 3, 0, NULL);
    lend_head(&before);
    expect_tick("4, and a list with a 6", 2, 4, 0, NULL);
    lend(&list, bytes, sizeof bytes);
    expect_tick("5, and a list with a 6", 0, 5, 0, NULL);
}

static void numbers_after_8(void)
{
    const struct head decided = {5, 0, 3, 1, D, 1, 0, 0, 0};
    const struct head heard = {5, 0, 3, 1, U, NONE, 0x8, 0x2, 0};
    const struct ballot good[] = {{4, 2, BLANK, U}, {1, 3, 1, U}};
    const struct ballot both[] = {{1, 4, 0, U}, {2, 4, 1, U}};
    const struct ballot last[] = {{1, 65535, 1, U}, {2, 65535, 1, U}, {3, 65535, 1, U}};
    const struct ballot against[] = {{1, 3, 1, U}, {2, 5, 0, D}};
    lend_head(&before);
    lend_ballots(both, COUNT(both));
    expect_tick("9 by the second ballot", 0, 9, 0, NULL);
    lend_ballots(last, COUNT(last));
    expect_tick("10 by the third ballot", 0, 10, 0, NULL);
    lend_head(&decided);
    lend_ballots(against, COUNT(against));
    expect_tick("11 by the second ballot", 0, 11, 0, NULL);
    lend_head(&before);
    lend_ballots(good, COUNT(good));
    expect_tick("accepted", 0, 0, 0, image(&heard));
}
