/* The sizes of a full paper and of a list of turns, and the seeded numbers that such papers are made of. */
#ifndef PAPER_H
#define PAPER_H

#include "engine.h"

enum {
    FIELD_HEAD = 3,
    INSTRUCTION_BYTES = 9,
    PAPER_BYTES = ENGINE_JOBS * (FIELD_HEAD + ENGINE_INSTRUCTIONS * INSTRUCTION_BYTES),
    MOST_TURNS = 4000
};

/* A number below `limit`, from a counter whose bits are mixed (splitmix64). */
static inline unsigned draw(uint64_t *random, unsigned limit)
{
    uint64_t mixed = *random += UINT64_C(0x9e3779b97f4a7c15);
    mixed = (mixed ^ mixed >> 30) * UINT64_C(0xbf58476d1ce4e5b9);
    mixed = (mixed ^ mixed >> 27) * UINT64_C(0x94d049bb133111eb);
    mixed ^= mixed >> 31;
    return (unsigned)((mixed >> 32) * limit >> 32);
}

#endif
