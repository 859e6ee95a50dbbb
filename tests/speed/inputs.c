/*
 * Most lists are such as the radio brings: different senders at the present phase, in number order;
 * to reach 64 ballots each comes twice, or late ballots or ballots from ahead stand beside them. Two
 * come from a vote with losses, and some are made to take long.
 */
#include "inputs.h"

struct input inputs[INPUTS_MOST];
static size_t made;

/* What a sender says at a phase: 1 from two of three, else 0, or blank at an even phase. */
static uint8_t said_by(uint32_t sender, uint32_t phase)
{
    return sender % 3 != 0 ? ONE : phase % 2 == 1 ? ZERO : BLANK;
}

/* The next input: head 0 at the phase, undecided, nothing heard. */
static struct input *begin(const char *name, uint32_t number, uint32_t phase)
{
    struct input *input = &inputs[made++];
    const uint8_t front[8] = { HEADS, 0, (uint8_t)(phase >> 8), (uint8_t)phase, said_by(0, phase),
                               UNDECIDED, NONE, 0 };
    size_t i;
    input->name = name;
    input->number = number;
    for (i = 0; i < sizeof front; i++)
        input->record[i] = front[i];
    return input;
}

static void add(struct input *input, uint32_t sender, uint8_t value, uint8_t status, uint32_t phase)
{
    uint8_t *to = input->list + input->length;
    to[0] = (uint8_t)sender;
    to[1] = value;
    to[2] = status;
    to[3] = (uint8_t)(phase >> 8);
    to[4] = (uint8_t)phase;
    input->length += BALLOT_BYTES;
}

/* Ballots of the senders from `first` to before `end`. */
static void add_senders(struct input *input, uint32_t first, uint32_t end, uint32_t phase)
{
    uint32_t sender;
    for (sender = first; sender < end; sender++)
        add(input, sender, said_by(sender, phase), UNDECIDED, phase);
}

/* 63 ballots: all senders, then all but one again. The caller adds the last. */
static void add_all_but_last(struct input *input, uint32_t phase)
{
    add_senders(input, 0, HEADS, phase);
    add_senders(input, 0, HEADS - 1, phase);
}

static void make_accepted(void)
{
    struct input *input;
    uint32_t phase;
    begin("0 ballots", 0, 1);
    add_senders(begin("8 ballots", 0, 1), 0, 8, 1);
    add_senders(begin("32 ballots", 0, 1), 0, HEADS, 1);
    add_senders(begin("32 ballots, even phase", 0, 4), 0, HEADS, 4);
    input = begin("64 ballots, each twice", 0, 1);
    add_all_but_last(input, 1);
    add_senders(input, HEADS - 1, HEADS, 1);
    input = begin("64 ballots, even phase, each twice", 0, 4);
    add_all_but_last(input, 4);
    add_senders(input, HEADS - 1, HEADS, 4);
    input = begin("64 ballots, half of them late", 0, 4);
    add_senders(input, 0, HEADS, 3);
    add_senders(input, 0, HEADS, 4);
    input = begin("62 ballots from two phases ahead", 0, 3);
    add_senders(input, 1, HEADS, 4);
    add_senders(input, 1, HEADS, 5);
    input = begin("64 ballots of one sender, 64 phases", 0, 3);
    for (phase = 3; phase < 67; phase++)
        add(input, 1, ONE, UNDECIDED, phase);
}

/* 32 ballots, all decided for 1, to a head that has decided 1 too. */
static void make_decided(void)
{
    struct input *input = begin("32 ballots, all decided", 0, 301);
    uint32_t sender;
    input->record[4] = input->record[6] = ONE;
    input->record[5] = DECIDED;
    for (sender = 0; sender < HEADS; sender++)
        add(input, sender, ONE, DECIDED, 301);
}

/* Each refusal of a tick, found as late as it can be. */
static void make_refused(void)
{
    struct input *input = begin("refused 3, 64 ballots", 3, 1);
    add_all_but_last(input, 1);
    add_senders(input, HEADS - 1, HEADS, 1);
    input->record[19] = 1; /* heard blank at an odd phase */
    input = begin("refused 6, the last of 64", 6, 1);
    input->index = 63;
    add_all_but_last(input, 1);
    add(input, HEADS - 1, ONE, UNDECIDED, 0);
    input = begin("refused 7, the last of 64", 7, 1);
    input->index = 63;
    add_all_but_last(input, 1);
    add(input, 0, ONE, UNDECIDED, 2);
    input = begin("refused 8, the last of 64", 8, 1);
    input->index = 63;
    add_all_but_last(input, 1);
    add(input, HEADS - 1, ZERO, UNDECIDED, 1);
    input = begin("refused 9, 32 ballots", 9, 4);
    add_senders(input, 0, HEADS - 1, 4);
    add(input, HEADS - 1, ZERO, UNDECIDED, 4);
    input = begin("refused 10, 32 ballots", 10, 65535);
    add_senders(input, 0, HEADS, 65535);
    input = begin("refused 11, 32 ballots", 11, 4);
    input->record[6] = ZERO;
    add_senders(input, 0, HEADS, 4);
}

/* Two lists of a vote of 32 heads that the adversary of tests/independent made with seed 1: the
 * ninth vote, ticks 13 and 15, counted from 0. They came as they stand here, repeats and all. */
static const uint8_t ahead_record[RECORD_BYTES] = { 32, 25, 0, 1, 1, 0, 2, 0, 0, 0, 0, 0, 0, 0, 0, 0, 0, 0, 0, 0 };
static const uint8_t ahead_list[] = {
    24, 1, 0, 0, 1, 16, 1, 0, 0, 1, 21, 0, 0, 0, 1, 4, 2, 0, 0, 2, 17, 2, 0, 0, 2,
    27, 0, 0, 0, 1, 19, 0, 0, 0, 1, 1, 2, 0, 0, 2, 23, 1, 0, 0, 1, 25, 1, 0, 0, 1, 5, 1, 0, 0, 1,
    29, 1, 0, 0, 2, 11, 1, 0, 0, 2, 30, 0, 0, 0, 1, 13, 1, 0, 0, 2, 8, 1, 0, 0, 1, 0, 0, 0, 0, 1,
    7, 1, 0, 0, 1, 2, 1, 0, 0, 1, 3, 1, 0, 0, 1, 22, 2, 0, 0, 2, 12, 1, 0, 0, 1, 26, 2, 0, 0, 2,
    18, 2, 0, 0, 2, 9, 0, 0, 0, 1,
};
static const uint8_t repeats_record[RECORD_BYTES] = { 32, 4, 0, 2, 2, 0, 2, 0, 0, 0, 0, 0, 0, 0, 0, 0, 0, 0, 0, 0 };
static const uint8_t repeats_list[] = {
    5, 2, 0, 0, 2, 22, 2, 0, 0, 2, 20, 0, 0, 0, 1, 21, 0, 0, 0, 1, 20, 0, 0, 0, 1,
    20, 0, 0, 0, 1, 24, 1, 0, 0, 1, 15, 2, 0, 0, 2, 26, 2, 0, 0, 2, 9, 0, 0, 0, 1,
    23, 1, 0, 0, 1, 27, 0, 0, 0, 1, 7, 1, 0, 0, 1, 27, 0, 0, 0, 1, 25, 2, 0, 0, 2, 6, 0, 0, 0, 1,
    25, 2, 0, 0, 2, 12, 1, 0, 0, 1, 13, 1, 0, 0, 2, 17, 2, 0, 0, 2, 20, 0, 0, 0, 1,
    10, 0, 0, 0, 1, 21, 0, 0, 0, 1, 10, 0, 0, 0, 1, 31, 0, 0, 0, 1, 24, 1, 0, 0, 1,
    1, 2, 0, 0, 2, 14, 1, 0, 0, 2, 29, 1, 0, 0, 2, 12, 1, 0, 0, 1, 11, 1, 0, 0, 2,
    26, 2, 0, 0, 2, 30, 0, 0, 0, 1, 29, 1, 0, 0, 2, 2, 1, 0, 0, 1, 19, 0, 0, 0, 1,
    28, 2, 0, 0, 2, 6, 0, 0, 0, 1, 31, 0, 0, 0, 1, 13, 1, 0, 0, 2, 10, 0, 0, 0, 1,
    10, 0, 0, 0, 1, 25, 2, 0, 0, 2, 27, 0, 0, 0, 1, 2, 1, 0, 0, 1, 26, 2, 0, 0, 2,
    23, 1, 0, 0, 1, 1, 2, 0, 0, 2,
};

static void take(const char *name, const uint8_t *record, const uint8_t *list, size_t length)
{
    struct input *input = begin(name, 0, 1);
    __builtin_memcpy(input->record, record, RECORD_BYTES);
    __builtin_memcpy(input->list, list, length);
    input->length = length;
    input->coin = 1;
}

static void make_lossy(void)
{
    take("lossy: 25 ballots, 9 from ahead", ahead_record, ahead_list, sizeof ahead_list);
    take("lossy: 48 ballots, 29 late, repeats", repeats_record, repeats_list, sizeof repeats_list);
}

/* Lists that take a look longest. */
static void make_hostile(void)
{
    struct input *input = begin("64 ballots of one sender, falling", 0, 99);
    uint32_t phase, sender;
    for (phase = 98; phase > 34; phase--)
        add(input, 1, ONE, UNDECIDED, phase);
    input = begin("64 ballots, two late phases", 0, 6);
    add_senders(input, 0, HEADS, 3);
    add_senders(input, 0, HEADS, 4);
    input = begin("64 ballots, present and late in turn", 0, 4);
    for (sender = 0; sender < HEADS; sender++) {
        add_senders(input, sender, sender + 1, 4);
        add_senders(input, sender, sender + 1, 3);
    }
    input = begin("refused 8, the second of 64", 8, 1);
    input->index = 1;
    add_senders(input, 1, 2, 1);
    add(input, 1, ZERO, UNDECIDED, 1);
    add_senders(input, 0, HEADS, 1);
    add_senders(input, 2, HEADS, 1);
}

size_t make_inputs(void)
{
    made = 0;
    make_accepted();
    make_decided();
    make_refused();
    make_lossy();
    make_hostile();
    return made;
}
