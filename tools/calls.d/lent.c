#include "lent.h"

#include <stdio.h>
#include <stdlib.h>
#include <string.h>

/* Far enough for a table's next cells, and a multiple of every alignment. */
enum { GUARD = 64 };

static uint8_t *more_room(uint8_t *room, size_t size)
{
    uint8_t *more = realloc(room, size);
    if (more == NULL) {
        fprintf(stderr, "tools/calls: no memory for %zu bytes\n", size);
        exit(2);
    }
    return more;
}

void *lend(struct lent *area, size_t size)
{
    size_t whole = GUARD + size + GUARD;
    area->room = more_room(area->room, whole);
    area->copy = more_room(area->copy, whole);
    area->size = size;
    for (size_t byte = 0; byte < whole; byte++) {
        area->room[byte] = (uint8_t)(0xa5 ^ byte);
    }
    return area->room + GUARD;
}

void keep(struct lent *area)
{
    memcpy(area->copy, area->room, GUARD + area->size + GUARD);
}

static void must_equal(const struct lent *area, size_t from, size_t bytes)
{
    if (memcmp(area->room + from, area->copy + from, bytes) != 0) {
        puts("changed");
        exit(1);
    }
}

void must_be_kept(const struct lent *area)
{
    must_equal(area, 0, GUARD + area->size + GUARD);
}

void must_be_within(const struct lent *area)
{
    must_equal(area, 0, GUARD);
    must_equal(area, GUARD + area->size, GUARD);
}
