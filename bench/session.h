/* Seeded sessions with contended blocks, for measuring both engines on the same bytes. */
#ifndef SESSION_H
#define SESSION_H

#include "paper.h"

struct session {
    uint64_t start[ENGINE_CELLS];
    uint8_t paper[PAPER_BYTES];
    size_t length;
    uint8_t tickets[MOST_TURNS];
    size_t turns;
};

/* So many jobs of so many instructions, a multiple of 8; the same seed gives the same session. */
void make_session(struct session *session, unsigned jobs, unsigned instructions, uint64_t seed);

#endif
