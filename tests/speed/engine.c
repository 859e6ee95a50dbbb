/*
 * The engine of one head, for speed: the list is read once, and what it says at the head's phase is
 * gathered in sets of heads, one bit a head. Odd phases, at which no blank stands, have a loop of
 * their own. Ballots of other phases go through a table. At 6, 7 and 8 the list is searched once
 * more, for the index.
 */
#include "engine.h"

/* Kept out of the loops over the list, so that what they gather stays in registers. */
#define APART __attribute__((noinline))

#define EACH_WAY(a, b, c) (((a) & (b)) | ((a) & (c)) | ((b) & (c)))

/* The codes that a phase allows: bit 2 * value + status. */
enum {
    ALLOWED_FIRST = 0x05,
    ALLOWED_SECOND = 0x15,
    ALLOWED_ODD = 0x0F,
    ALLOWED_EVEN = 0x1F
};

/* Twice the most ballots, so that a free slot is near. */
enum { SLOTS = 128 };

/* What the list says at the head's phase, in sets of senders. A set of two halves has value or
 * status 0 below and 1 above. */
struct said {
    uint64_t values, statuses;
    uint32_t blanks;
};

/* The ballots of other phases than the head's: a table by sender and phase, cleared when the first
 * one comes, and the highest phase with what is said at it. A slot has one more than an index. */
struct others {
    uint8_t slot[SLOTS];
    uint32_t used, own_ahead, differ;
    uint32_t phase, leader, leader_value, leader_status;
    uint32_t zeros, ones, blanks;
};

static uint32_t allowed_at(uint32_t phase);
static int stands(const struct quick_head *head, const uint8_t *ballot);
static int sound(const struct quick_head *head);
static int read_odd(const struct quick_head *head, const uint8_t *list, size_t count,
                    struct said *said, struct others *others);
static int read_even(const struct quick_head *head, const uint8_t *list, size_t count,
                     struct said *said, struct others *others);
APART static int look_up(const struct quick_head *head, const uint8_t *list, size_t i,
                         struct others *others);
static uint32_t low_first(const uint8_t *at);
static uint32_t present_of(const struct quick_head *head);
static void follow(const uint8_t *ballot, uint32_t phase, struct others *others);
static uint32_t hear(struct quick_head *head, const struct said *said, const struct others *others);
static uint32_t finish(struct quick_head *head, uint32_t coin);
static void step(struct quick_head *head, uint32_t coin);
static size_t first_breaking(const struct quick_head *head, const uint8_t *list);
static size_t first_otherwise(const struct quick_head *head, const uint8_t *list);
static size_t first_differing(const struct quick_head *head, const uint8_t *list);

/* ---- The tick */

uint32_t quick_tick_head(struct quick_head *head, const uint8_t *ballots, size_t ballots_len,
                         uint32_t coin)
{
    struct quick_head after = *head;
    uint32_t number;
    if (!sound(head))
        return 3;
    if (coin > 1)
        return 4;
    if (ballots_len > BALLOTS_BYTES_MOST || ballots_len % BALLOT_BYTES != 0)
        return 5;
    if (ballots_len != 0) {
        const size_t count = ballots_len / BALLOT_BYTES;
        struct said said = { 0, 0, 0 };
        struct others others;
        others.used = others.phase = others.own_ahead = others.differ = 0;
        if (head->phase % 2 == 1 ? !read_odd(head, ballots, count, &said, &others)
                                 : !read_even(head, ballots, count, &said, &others))
            return 6;
        number = hear(&after, &said, &others);
        if (number != 0)
            return number;
    }
    number = finish(&after, coin);
    if (number == 0)
        *head = after;
    return number;
}

/* The two readers give 0 where a ballot breaks a ballot rule: that number comes before all that the
 * rest can find. `code` is a ballot's value and status, low byte first, where its phase is the
 * head's; else it has a higher bit set too. */
static int read_odd(const struct quick_head *head, const uint8_t *list, size_t count,
                    struct said *said, struct others *others)
{
    const uint32_t n = head->n, present = present_of(head);
    const uint32_t never = head->phase == 1 ? ~1u : ~0x101u;
    uint64_t values = 0, statuses = 0;
    size_t i;
    for (i = 0; i < count; i++) {
        const uint8_t *ballot = list + i * BALLOT_BYTES;
        const uint32_t sender = ballot[0], code = low_first(ballot + 1) ^ present;
        if (code > 0xFFFF) {
            if (!look_up(head, list, i, others))
                return 0;
            continue;
        }
        if (sender >= n || (code & never) != 0)
            return 0;
        values |= (uint64_t)1 << (sender | (code & 1) << 5);
        statuses |= (uint64_t)1 << (sender | (code >> 8) << 5);
    }
    *said = (struct said){ values, statuses, 0 };
    return 1;
}

static int read_even(const struct quick_head *head, const uint8_t *list, size_t count,
                     struct said *said, struct others *others)
{
    const uint32_t n = head->n, present = present_of(head);
    const uint32_t never = head->phase == 2 ? ~3u : ~0x103u;
    uint64_t values = 0, statuses = 0;
    uint32_t blanks = 0, broken = 0;
    size_t i;
    for (i = 0; i < count; i++) {
        const uint8_t *ballot = list + i * BALLOT_BYTES;
        const uint32_t sender = ballot[0], code = low_first(ballot + 1) ^ present;
        const uint32_t blank = code >> 1 & 1;
        if (code > 0xFFFF) {
            if (!look_up(head, list, i, others))
                return 0;
            continue;
        }
        if (sender >= n || (code & never) != 0)
            return 0;
        broken |= code >> 1 & (code | code >> 8); /* a blank with another bit: 3, or decided */
        values |= (uint64_t)(1 ^ blank) << (sender | (code & 1) << 5);
        statuses |= (uint64_t)1 << (sender | (code >> 8) << 5);
        blanks |= blank << sender;
    }
    *said = (struct said){ values, statuses, blanks };
    return (broken & 1) == 0;
}

/* A ballot of another phase: against the one of its sender and phase, then towards the highest. */
APART static int look_up(const struct quick_head *head, const uint8_t *list, size_t i,
                         struct others *others)
{
    const uint8_t *ballot = list + i * BALLOT_BYTES;
    const uint32_t sender = ballot[0], state = low_first(ballot + 1);
    const uint32_t phase = (uint32_t)ballot[3] << 8 | ballot[4];
    uint32_t at = (sender * 37 + phase * 5) % SLOTS;
    if (!stands(head, ballot))
        return 0;
    if (!others->used) {
        others->used = 1;
        __builtin_memset(others->slot, 0, sizeof others->slot);
    }
    for (; others->slot[at] != 0; at = (at + 1) % SLOTS) {
        const uint8_t *earlier = list + (others->slot[at] - 1) * BALLOT_BYTES;
        const uint32_t unlike = low_first(earlier + 1) ^ state;
        if (earlier[0] == sender && unlike <= 0xFFFF) {
            others->differ |= unlike;
            return 1;
        }
    }
    others->slot[at] = (uint8_t)(i + 1);
    if (phase > head->phase) {
        others->own_ahead |= sender == head->own;
        follow(ballot, phase, others);
    }
    return 1;
}

/* The four bytes after the sender, as one number: equal phases give equal upper halves. */
static uint32_t low_first(const uint8_t *at)
{
    uint32_t word;
    __builtin_memcpy(&word, at, sizeof word);
    return word;
}

/* The head's phase as it stands in these, with zeros for value and status. */
static uint32_t present_of(const struct quick_head *head)
{
    return (head->phase >> 8) << 16 | (head->phase & 0xFF) << 24;
}

/* Step 2: the highest phase, its sets, and the state that its lowest sender gives. */
static void follow(const uint8_t *ballot, uint32_t phase, struct others *others)
{
    const uint32_t bit = (uint32_t)1 << ballot[0];
    if (phase < others->phase)
        return;
    if (phase > others->phase) {
        others->phase = phase;
        others->leader = 32;
        others->zeros = others->ones = others->blanks = 0;
    }
    if (ballot[0] < others->leader) {
        others->leader = ballot[0];
        others->leader_value = ballot[1];
        others->leader_status = ballot[2];
    }
    if (ballot[1] == ZERO)
        others->zeros |= bit;
    else if (ballot[1] == ONE)
        others->ones |= bit;
    else
        others->blanks |= bit;
}

/* Numbers 7 and 8, and steps 1 and 2. At the head's phase a sender that says two things stands in
 * two sets. */
static uint32_t hear(struct quick_head *head, const struct said *said, const struct others *others)
{
    const uint32_t zeros = (uint32_t)said->values, ones = (uint32_t)(said->values >> 32);
    const uint32_t undecided = (uint32_t)said->statuses, decided = (uint32_t)(said->statuses >> 32);
    const uint32_t other_value = head->value == ZERO ? ones | said->blanks
        : head->value == ONE                         ? zeros | said->blanks
                                                     : zeros | ones;
    const uint32_t other = other_value | (head->status == DECIDED ? undecided : decided);
    if (others->own_ahead | (other >> head->own & 1))
        return 7;
    head->zeros |= zeros;
    head->ones |= ones;
    head->blanks |= said->blanks;
    if (others->differ | EACH_WAY(head->zeros, head->ones, head->blanks) | (undecided & decided))
        return 8;
    if (others->phase > head->phase) {
        head->phase = others->phase;
        head->value = others->leader_value;
        head->status = others->leader_status;
        head->zeros = others->zeros;
        head->ones = others->ones;
        head->blanks = others->blanks;
    }
    return 0;
}

/* Numbers 9 to 11, and steps 3 and 4. */
static uint32_t finish(struct quick_head *head, uint32_t coin)
{
    const uint32_t all = head->zeros | head->ones | head->blanks;
    if (head->phase % 2 == 0 && head->zeros != 0 && head->ones != 0)
        return 9;
    if (2 * (uint32_t)__builtin_popcount(all) > head->n) {
        if (head->phase == 65535)
            return 10;
        step(head, coin);
    }
    if (head->status == DECIDED) {
        if (head->value == BLANK || (head->decision != NONE && head->decision != head->value))
            return 11;
        head->decision = head->value;
    }
    return 0;
}

static void step(struct quick_head *head, uint32_t coin)
{
    const int most_zero = 2 * (uint32_t)__builtin_popcount(head->zeros) > head->n;
    const int most_one = 2 * (uint32_t)__builtin_popcount(head->ones) > head->n;
    if (head->phase % 2 == 1) {
        head->value = most_zero ? ZERO : most_one ? ONE : BLANK;
    } else {
        if (most_zero || most_one)
            head->status = DECIDED;
        head->value = head->zeros != 0 ? ZERO : head->ones != 0 ? ONE : coin;
    }
    head->phase++;
    head->zeros = head->ones = head->blanks = 0;
}

/* ---- The index of a refusal: a search apart, so that an accepted list does not pay for it */

/* The number was given, so that there is such a ballot. */
APART static size_t first_offending(const struct quick_head *head, const uint8_t *list,
                                    uint32_t number)
{
    return number == 6 ? first_breaking(head, list)
        : number == 7  ? first_otherwise(head, list)
                       : first_differing(head, list);
}

static size_t first_breaking(const struct quick_head *head, const uint8_t *list)
{
    const uint32_t n = head->n, present = present_of(head), allowed = allowed_at(head->phase);
    size_t i;
    for (i = 0;; i++) {
        const uint8_t *ballot = list + i * BALLOT_BYTES;
        const uint32_t code = low_first(ballot + 1) ^ present;
        if (code > 0xFFFF) {
            if (!stands(head, ballot))
                return i;
            continue;
        }
        if (ballot[0] >= n || (code & ~0x103u) != 0
            || !(allowed >> (2 * (code & 3) + (code >> 8)) & 1))
            return i;
    }
}

static size_t first_otherwise(const struct quick_head *head, const uint8_t *list)
{
    size_t i;
    for (i = 0;; i++) {
        const uint8_t *ballot = list + i * BALLOT_BYTES;
        const uint32_t phase = (uint32_t)ballot[3] << 8 | ballot[4];
        if (ballot[0] != head->own || phase < head->phase)
            continue;
        if (phase > head->phase || ballot[1] != head->value || ballot[2] != head->status)
            return i;
    }
}

/* At the head's phase a ballot is compared with its sender's first, and that with what is held. The
 * others go through the table once more. */
static size_t first_differing(const struct quick_head *head, const uint8_t *list)
{
    const uint32_t all = head->zeros | head->ones | head->blanks, present = present_of(head);
    const uint32_t unlike[3] = { all & ~head->zeros, all & ~head->ones, all & ~head->blanks };
    uint32_t first[32] = { 0 }; /* the phase is in it, so that 0 is none */
    struct others others;
    size_t i;
    others.used = others.phase = others.own_ahead = others.differ = 0;
    for (i = 0;; i++) {
        const uint8_t *ballot = list + i * BALLOT_BYTES;
        const uint32_t sender = ballot[0], state = low_first(ballot + 1);
        if ((state ^ present) > 0xFFFF) {
            look_up(head, list, i, &others);
            if (others.differ != 0)
                return i;
            continue;
        }
        if (first[sender] == 0 ? unlike[ballot[1]] >> sender & 1 : first[sender] != state)
            return i;
        first[sender] = state;
    }
}

/* ---- Rules */

static uint32_t allowed_at(uint32_t phase)
{
    if (phase > 2)
        return phase % 2 == 1 ? ALLOWED_ODD : ALLOWED_EVEN;
    return phase == 1 ? ALLOWED_FIRST : phase == 2 ? ALLOWED_SECOND : 0;
}

static int stands(const struct quick_head *head, const uint8_t *ballot)
{
    const uint32_t phase = (uint32_t)ballot[3] << 8 | ballot[4];
    return ballot[0] < head->n && ballot[1] <= BLANK && ballot[2] <= DECIDED
        && (allowed_at(phase) >> (2 * ballot[1] + ballot[2]) & 1);
}

/* The codes of value, status and decision are in range: a record is tested before it is read. */
static int sound(const struct quick_head *head)
{
    const uint32_t zeros = head->zeros, ones = head->ones, blanks = head->blanks;
    const uint32_t all = zeros | ones | blanks;
    uint32_t own, under;
    if (head->n < 2 || head->n > 32 || head->own >= head->n)
        return 0;
    if (!(allowed_at(head->phase) >> (2 * head->value + head->status) & 1))
        return 0;
    if (head->status == DECIDED && head->decision != head->value)
        return 0;
    if (head->decision != NONE && head->phase < 3)
        return 0;
    if (EACH_WAY(zeros, ones, blanks) != 0 || (uint64_t)all >> head->n != 0)
        return 0;
    if (head->phase % 2 == 1 ? blanks != 0 : zeros != 0 && ones != 0)
        return 0;
    own = (uint32_t)1 << head->own;
    under = head->value == ZERO ? zeros : head->value == ONE ? ones : blanks;
    return (all & ~under & own) == 0;
}

uint32_t quick_start_head(struct quick_head *head, uint32_t n, uint32_t own, uint32_t proposal)
{
    if (n < 2 || n > 32 || own >= n)
        return 1;
    if (proposal > 1)
        return 2;
    *head = (struct quick_head){ n, own, 1, proposal, UNDECIDED, NONE, 0, 0, 0 };
    return 0;
}

void quick_write_ballot(const struct quick_head *head, uint8_t *ballot)
{
    ballot[0] = (uint8_t)head->own;
    ballot[1] = (uint8_t)head->value;
    ballot[2] = (uint8_t)head->status;
    ballot[3] = (uint8_t)(head->phase >> 8);
    ballot[4] = (uint8_t)head->phase;
}

/* ---- Records */

static uint32_t word_at(const uint8_t *at)
{
    return __builtin_bswap32(low_first(at));
}

static void put_word(uint8_t *at, uint32_t word)
{
    word = __builtin_bswap32(word);
    __builtin_memcpy(at, &word, sizeof word);
}

/* 0 where the record has another length or a byte outside the codes. */
static int load(struct quick_head *head, const uint8_t *record, size_t record_len)
{
    if (record_len != RECORD_BYTES)
        return 0;
    if (record[4] > BLANK || record[5] > DECIDED || record[6] > NONE || record[7] != 0)
        return 0;
    *head = (struct quick_head){
        record[0], record[1], (uint32_t)record[2] << 8 | record[3], record[4], record[5],
        record[6], word_at(record + 8), word_at(record + 12), word_at(record + 16),
    };
    return 1;
}

static void store(uint8_t *record, const struct quick_head *head)
{
    record[0] = (uint8_t)head->n;
    record[1] = (uint8_t)head->own;
    record[2] = (uint8_t)(head->phase >> 8);
    record[3] = (uint8_t)head->phase;
    record[4] = (uint8_t)head->value;
    record[5] = (uint8_t)head->status;
    record[6] = (uint8_t)head->decision;
    record[7] = 0;
    put_word(record + 8, head->zeros);
    put_word(record + 12, head->ones);
    put_word(record + 16, head->blanks);
}

uint32_t quick_start(uint8_t *record, size_t record_len, uint32_t n, uint32_t own,
                     uint32_t proposal)
{
    struct quick_head head;
    const uint32_t number = quick_start_head(&head, n, own, proposal);
    if (number != 0)
        return number;
    if (record_len != RECORD_BYTES)
        return 3;
    store(record, &head);
    return 0;
}

uint32_t quick_tick(uint8_t *record, size_t record_len, const uint8_t *ballots, size_t ballots_len,
                    uint32_t coin, size_t *index)
{
    struct quick_head head;
    uint32_t number;
    *index = 0;
    if (!load(&head, record, record_len))
        return 3;
    number = quick_tick_head(&head, ballots, ballots_len, coin);
    if (number == 0)
        store(record, &head);
    else if (number >= 6 && number <= 8)
        *index = first_offending(&head, ballots, number);
    return number;
}

uint32_t quick_ballot(const uint8_t *record, size_t record_len, uint8_t *ballot, size_t ballot_len)
{
    struct quick_head head;
    uint32_t number = 0;
    size_t i;
    if (!load(&head, record, record_len) || !sound(&head))
        number = 3;
    else if (ballot_len != BALLOT_BYTES)
        number = 5;
    if (number == 0)
        quick_write_ballot(&head, ballot);
    else
        for (i = 0; i < ballot_len; i++)
            ballot[i] = 0;
    return number;
}
