/*
 * inputs.h: the ticks that are measured, each a record, a list and a coin, all with 32 heads.
 */
#ifndef INPUTS_H
#define INPUTS_H

#include "engine.h"

enum { INPUTS_MOST = 32, HEADS = 32 };

struct input {
    const char *name;
    uint32_t number; /* that the tick must give */
    size_t index;    /* and the index with it */
    uint8_t record[RECORD_BYTES];
    uint8_t list[BALLOTS_BYTES_MOST];
    size_t length;
    uint32_t coin;
};

extern struct input inputs[INPUTS_MOST];

/* Fills `inputs`. How many there are. */
size_t make_inputs(void);

#endif
