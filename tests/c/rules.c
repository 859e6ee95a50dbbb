/*
 * The rules of document 01 for ballots and heads, on bytes.
 */
#include "entries.h"

/* Document 01: "A head is sound when", clause by clause, after the codes of the bytes. */
int sound(const uint8_t *bytes)
{
    const uint32_t n = bytes[VOTE_AT_HEADS], own = bytes[VOTE_AT_OWN];
    const uint32_t phase = bytes[VOTE_AT_PHASE] * 256u + bytes[VOTE_AT_PHASE + 1];
    const uint32_t value = bytes[VOTE_AT_VALUE], status = bytes[VOTE_AT_STATUS];
    const uint32_t decision = bytes[VOTE_AT_DECISION];
    const uint32_t sets[] = {set_at(bytes + VOTE_AT_HEARD_0), set_at(bytes + VOTE_AT_HEARD_1),
                             set_at(bytes + VOTE_AT_HEARD_BLANK)};
    const uint32_t heard = sets[0] | sets[1] | sets[2];
    if (value > BLANK || status > D || decision > NONE || bytes[7] != 0)
        return 0;
    return n >= 2 && n <= VOTE_HEADS_MOST
        && own < n
        && obeys_rules(phase, value, status)
        && (status == U || (decision != NONE && decision == value))
        && (decision == NONE || phase >= 3)
        && size_of_set(sets[0]) + size_of_set(sets[1]) + size_of_set(sets[2]) == size_of_set(heard)
        && (n == 32 || heard >> n == 0)
        && (phase % 2 == 0 || sets[2] == 0)
        && (phase % 2 == 1 || sets[0] == 0 || sets[1] == 0)
        && (!(heard >> own & 1) || (sets[value] >> own & 1));
}

/* The ballot rules by phase, without the sender's. */
int obeys_rules(uint32_t phase, uint32_t value, uint32_t status)
{
    if (phase == 0 || value > BLANK || status > D)
        return 0;
    if (phase == 1)
        return value != BLANK && status == U;
    if (phase == 2)
        return status == U;
    if (phase % 2 == 1)
        return value != BLANK;
    return value != BLANK || status == U;
}

uint32_t set_at(const uint8_t *bytes)
{
    return (uint32_t)bytes[0] << 24 | (uint32_t)bytes[1] << 16 | (uint32_t)bytes[2] << 8 | bytes[3];
}

uint32_t size_of_set(uint32_t set)
{
    uint32_t size = 0;
    for (; set != 0; set >>= 1)
        size += set & 1;
    return size;
}
