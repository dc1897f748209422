/* Counts what the proved engine copies by memcpy, on one session with a full block.

   The memcpy below stands in for the one that the library calls. This file is compiled with
   -fno-builtin, so that it is not taken for the real one. Copies of up to 128 bytes are made
   without a call, and are not counted. */
#include "garvolish.h"
#include "session.h"

#include <stdio.h>
#include <string.h>

enum { SEED = 20 };

/* A whole copy moves the block, by itself or in an answer. */
struct copies {
    unsigned long whole;
    unsigned long bytes;
};

static struct copies counted;

/* What the calls refused, put together: nothing, or the counts mean nothing. */
static uint32_t refused;

void *memcpy(void *to, const void *from, size_t length)
{
    counted.whole += length >= GARVOLISH_BLOCK_SIZE;
    counted.bytes += length;
    return memmove(to, from, length);
}

/* What was copied since the last call. */
static struct copies take_count(void)
{
    struct copies copies = counted;
    counted.whole = counted.bytes = 0;
    return copies;
}

static void report(const char *call, struct copies copies, size_t calls)
{
    printf("%-44s %16.1f %16.0f\n", call, (double)copies.whole / (double)calls,
           (double)copies.bytes / (double)calls);
}

static struct copies count_opening(struct garvolish_block *block, const struct session *session)
{
    take_count();
    refused |= garvolish_open(block, session->start, ENGINE_CELLS, session->paper, session->length);
    return take_count();
}

/* A session that is opened again starts afresh. */
static bool count_session(const struct session *session)
{
    static struct garvolish_block block;
    static uint8_t words[MOST_TURNS];
    uint64_t table[ENGINE_CELLS];
    report("an opening", count_opening(&block, session), 1);
    for (size_t index = 0; index < session->turns; index++)
        refused |= !garvolish_is_word(garvolish_turn(&block, session->tickets[index]));
    report("a turn", take_count(), session->turns);
    count_opening(&block, session);
    refused |= garvolish_take_turns(&block, session->tickets, 0, words, 0);
    struct copies empty = take_count();
    report("an empty list", empty, 1);
    refused |= garvolish_take_turns(&block, session->tickets, session->turns, words, session->turns);
    struct copies list = take_count();
    list.whole -= empty.whole;
    list.bytes -= empty.bytes;
    report("a turn of a list, less an empty list", list, session->turns);
    uint32_t answer = garvolish_settled(&block, table, ENGINE_CELLS);
    report("a settled table, all jobs final", take_count(), 1);
    return refused == 0 && garvolish_finals(answer) == ENGINE_JOBS;
}

int main(void)
{
    static struct session session;
    make_session(&session, ENGINE_JOBS, ENGINE_INSTRUCTIONS, SEED);
    printf("What the proved engine copies, on a session of %u jobs of %u instructions.\n\n",
           ENGINE_JOBS, ENGINE_INSTRUCTIONS);
    printf("%-44s %16s %16s\n", "", "copies of block", "bytes copied");
    if (count_session(&session))
        return 0;
    fputs("copies: a call was refused, or the block is not done\n", stderr);
    return 1;
}
