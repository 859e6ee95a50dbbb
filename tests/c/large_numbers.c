/*
 * Numbers that 8 or 16 bits cannot hold.
 */
#include "entries.h"

void numbers_are_not_cut(void)
{
    static const uint32_t large[] = {256,        257,        258,        259,       65536,
                                     65537,      65538,      0x1000000,  0x1000001, 0x80000000,
                                     0x80000001, 0x80000002, 0xFFFFFF00, 0xFFFFFFFF};
    const struct head before = {3, 0, 2, BLANK, U, NONE, 0, 0, 0x2};
    const struct ballot steps[] = {{2, 2, BLANK, U}};
    size_t i;
    for (i = 0; i < COUNT(large); i++) {
        lend(&record, NULL, VOTE_RECORD_BYTES);
        expect_start("a large n", large[i], 0, 1, 1);
        expect_start("a large own number", 3, large[i], 1, 1);
        expect_start("a large proposal", 3, 0, large[i], 2);
        expect_start("all three large", large[i], large[i], large[i], 1);
        lend_head(&before);
        lend_ballots(NULL, 0);
        expect_tick("a large coin, not needed", large[i], 4, 0, NULL);
        lend_ballots(steps, 1);
        expect_tick("a large coin, needed", large[i], 4, 0, NULL);
    }
}
