/*
 * Starts, accepted and refused.
 */
#include "entries.h"

void every_start(void)
{
    uint32_t n, own, proposal;
    for (n = 2; n <= VOTE_HEADS_MOST; n++)
        for (own = 0; own < n; own++)
            for (proposal = 0; proposal <= 1; proposal++) {
                lend(&record, NULL, VOTE_RECORD_BYTES);
                expect_start("every start", n, own, proposal, 0);
                lend(&record, record.at, VOTE_RECORD_BYTES);
                expect_start("over a started record", n, own, proposal, 0);
            }
}

/* With a record of the right length and of a wrong one: 3 is the last that is tested. */
void refused_starts(void)
{
    static const uint32_t calls[][4] = {
        /* n, own, proposal, number */
        {0, 0, 0, 1},    {1, 0, 1, 1},     {33, 0, 0, 1},    {34, 33, 1, 1},  {255, 0, 0, 1},
        {2, 2, 0, 1},    {3, 3, 1, 1},     {3, 4, 0, 1},     {32, 32, 1, 1},  {31, 31, 0, 1},
        {3, 255, 0, 1},  {1, 0, 2, 1},     {33, 0, 255, 1},  {3, 3, 2, 1},    {0, 0, 2, 1},
        {3, 0, 2, 2},    {2, 1, 3, 2},     {32, 31, 255, 2}, {5, 4, 2, 2},
    };
    size_t i;
    for (i = 0; i < COUNT(calls); i++) {
        const uint32_t *c = calls[i];
        lend(&record, NULL, VOTE_RECORD_BYTES);
        expect_start("a refused start", c[0], c[1], c[2], c[3]);
        lend(&record, NULL, VOTE_RECORD_BYTES - 1);
        expect_start("a refused start, record of 19", c[0], c[1], c[2], c[3]);
        lend(&record, NULL, VOTE_RECORD_BYTES + 1);
        expect_start("a refused start, record of 21", c[0], c[1], c[2], c[3]);
    }
}
