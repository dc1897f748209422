/* What is lent to the library: an area filled with a pattern, guarded on both sides, and a copy to compare it with. */
#ifndef CALLS_LENT_H
#define CALLS_LENT_H

#include <stddef.h>
#include <stdint.h>

struct lent {
    uint8_t *room; /* the guard before, the bytes that are lent, the guard behind */
    uint8_t *copy;
    size_t size;   /* of what is lent */
};

/* Makes an area of so many bytes, all filled with the pattern, and answers where it begins. */
void *lend(struct lent *area, size_t size);

/* Keeps what stands in an area, to be compared with. */
void keep(struct lent *area);

/* Ends the program with `changed` and status 1 if the area is not as it was kept; or, the second, its guards. */
void must_be_kept(const struct lent *area);
void must_be_within(const struct lent *area);

#endif
