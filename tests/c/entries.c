/*
 * The three entries of vote.h, called as firmware calls them. Here is what only C shows: lengths,
 * NULL, numbers that a narrower type would cut, the bytes of records and ballots, the index in a
 * size_t of the caller's, and the names that the header gives them. What the engine answers is
 * compared elsewhere, by tests/vectors and by tests/independent, the latter through the same
 * archive.
 *
 * Every buffer is lent from the middle of a room of known bytes. After a call the whole room is
 * compared: the lent bytes with what they must be, the bytes around them with what they were. So is
 * the index, after every tick.
 * The expected answers are written by hand from document 01 and request W1; nothing here steps a
 * head.
 * Failures are printed, and a last line with the number of checks. One failure makes status 1.
 */
#include "entries.h"

/* Document 01's numbers, sizes, places and codes. */
typedef char the_numbers[VOTE_ACCEPTED == 0 && VOTE_HEADS_OR_OWN == 1 && VOTE_PROPOSAL == 2
                         && VOTE_NOT_SOUND == 3 && VOTE_COIN == 4 && VOTE_LENGTH == 5
                         && VOTE_BALLOT_RULE == 6 && VOTE_OWN_BALLOT == 7
                         && VOTE_BALLOTS_DIFFER == 8 && VOTE_BOTH_HEARD == 9
                         && VOTE_LAST_PHASE == 10 && VOTE_DECISION == 11 ? 1 : -1];
typedef char the_sizes[VOTE_RECORD_BYTES == 20 && VOTE_BALLOT_BYTES == 5 && VOTE_HEADS_MOST == 32
                       && VOTE_BALLOTS_MOST == 64 && VOTE_BALLOTS_BYTES_MOST == 320 ? 1 : -1];
typedef char the_places[VOTE_AT_HEADS == 0 && VOTE_AT_OWN == 1 && VOTE_AT_PHASE == 2
                        && VOTE_AT_VALUE == 4 && VOTE_AT_STATUS == 5 && VOTE_AT_DECISION == 6
                        && VOTE_AT_HEARD_0 == 8 && VOTE_AT_HEARD_1 == 12
                        && VOTE_AT_HEARD_BLANK == 16
                        && VOTE_BALLOT_AT_SENDER == 0 && VOTE_BALLOT_AT_VALUE == 1
                        && VOTE_BALLOT_AT_STATUS == 2 && VOTE_BALLOT_AT_PHASE == 3 ? 1 : -1];
typedef char the_codes[VOTE_BLANK == 2 && VOTE_NONE == 2 && VOTE_UNDECIDED == 0
                       && VOTE_DECIDED == 1 ? 1 : -1];

int main(void)
{
    every_start();
    refused_starts();
    record_lengths();
    buffer_lengths();
    list_lengths();
    sixty_four_ballots();
    null_with_length_zero();
    numbers_are_not_cut();
    bytes_as_documented();
    every_byte_of_a_record();
    first_offending_ballots();
    numbers_without_index();
    return finish();
}
