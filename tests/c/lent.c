/*
 * What a call is lent.
 */
#include "entries.h"

static void write_phase(uint8_t *to, uint16_t phase);
static void write_set(uint8_t *to, uint32_t set);

struct lent record = {.name = "record"};
struct lent list = {.name = "ballots"};
struct lent buffer = {.name = "buffer"};
size_t index_room[3];

void lend(struct lent *to, const uint8_t *bytes, size_t length)
{
    uint8_t kept[LENT_MOST];
    size_t i;
    if (bytes != NULL)
        memcpy(kept, bytes, length); /* they may stand in this room */
    for (i = 0; i < ROOM; i++)
        to->room[i] = 0xA0 + i % 13;
    if (bytes != NULL)
        memcpy(to->room + GUARD, kept, length);
    memcpy(to->before, to->room, ROOM);
    to->at = to->room + GUARD;
    to->length = length;
}

void lend_null(struct lent *to)
{
    lend(to, NULL, 0);
    to->at = NULL;
}

void relend_byte(struct lent *lent, size_t place, uint8_t byte)
{
    lent->before[GUARD + place] = lent->room[GUARD + place] = byte;
}

void lend_index(void)
{
    static size_t ticks;
    ticks++;
    index_room[0] = index_room[2] = INDEX_GUARD;
    index_room[1] = ticks % 3 == 0 ? ticks % VOTE_BALLOTS_MOST : (size_t)-1;
}

void lend_head(const struct head *h)
{
    lend(&record, image(h), VOTE_RECORD_BYTES);
}

void lend_ballots(const struct ballot *ballots, size_t count)
{
    uint8_t bytes[VOTE_BALLOTS_BYTES_MOST];
    size_t i;
    for (i = 0; i < count; i++)
        write_ballot(bytes + i * VOTE_BALLOT_BYTES, &ballots[i]);
    lend(&list, bytes, count * VOTE_BALLOT_BYTES);
}

const uint8_t *image(const struct head *h)
{
    static uint8_t bytes[VOTE_RECORD_BYTES];
    memset(bytes, 0, sizeof bytes);
    bytes[VOTE_AT_HEADS] = h->n;
    bytes[VOTE_AT_OWN] = h->own;
    write_phase(bytes + VOTE_AT_PHASE, h->phase);
    bytes[VOTE_AT_VALUE] = h->value;
    bytes[VOTE_AT_STATUS] = h->status;
    bytes[VOTE_AT_DECISION] = h->decision;
    write_set(bytes + VOTE_AT_HEARD_0, h->zeros);
    write_set(bytes + VOTE_AT_HEARD_1, h->ones);
    write_set(bytes + VOTE_AT_HEARD_BLANK, h->blanks);
    return bytes;
}

void write_ballot(uint8_t *to, const struct ballot *b)
{
    to[VOTE_BALLOT_AT_SENDER] = b->sender;
    to[VOTE_BALLOT_AT_VALUE] = b->value;
    to[VOTE_BALLOT_AT_STATUS] = b->status;
    write_phase(to + VOTE_BALLOT_AT_PHASE, b->phase);
}

static void write_phase(uint8_t *to, uint16_t phase)
{
    to[0] = phase / 256;
    to[1] = phase % 256;
}

static void write_set(uint8_t *to, uint32_t set)
{
    size_t i;
    for (i = 0; i < 4; i++)
        to[i] = (uint8_t)(set >> (24 - 8 * i));
}
