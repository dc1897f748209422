/* A plain engine: it runs document 01's turns in place, on the caller's block in work. */
#ifndef ENGINE_H
#define ENGINE_H

#include <stdbool.h>
#include <stddef.h>
#include <stdint.h>

enum {
    ENGINE_CELLS = 256,
    ENGINE_JOBS = 16,
    ENGINE_INSTRUCTIONS = 64,
    ENGINE_STACK = 16,
    ENGINE_READS = 8,
    ENGINE_WRITES = 8,
    ENGINE_NO_MARK = 255
};

enum engine_code {
    ENGINE_STOP,
    ENGINE_ABANDON,
    ENGINE_PUSH,
    ENGINE_POP,
    ENGINE_DUP,
    ENGINE_SWAP,
    ENGINE_ADD,
    ENGINE_SUB,
    ENGINE_LESS,
    ENGINE_EQUAL,
    ENGINE_READ,
    ENGINE_WRITE,
    ENGINE_JUMP,
    ENGINE_JUMPZERO
};

/* What a turn answers: the rules in the order they are tried, then refusals by their numbers. */
enum engine_word {
    ENGINE_IDLE,
    ENGINE_BACK,
    ENGINE_STEP,
    ENGINE_END,
    ENGINE_FINAL,
    ENGINE_WAIT,
    ENGINE_NO_TICKET = 14,
    ENGINE_STUCK = 20
};

struct engine_stack {
    uint64_t entry[ENGINE_STACK];
};

/* Where a job stood before a listed read. */
struct engine_checkpoint {
    struct engine_stack stack;
    uint8_t place;
    uint8_t height;
    uint8_t journal_length;
    uint8_t reads;
};

/* Eight cells share a word, the first entry's lowest, so that one comparison looks at all. */
struct engine_job {
    uint64_t journal_cells;
    uint64_t versions; /* top bit of an entry's byte: that journal entry is public */
    uint64_t read_cells;
    uint8_t sources[ENGINE_READS];
    uint8_t size;
    uint8_t place;
    uint8_t height;
    uint8_t journal_length;
    uint8_t reads;
    uint8_t mark; /* the earliest marked read, or ENGINE_NO_MARK */
    uint8_t ended;
    uint64_t journal_values[ENGINE_WRITES];
    uint64_t read_values[ENGINE_READS];
    struct engine_stack stack;
    uint8_t code[ENGINE_INSTRUCTIONS];
    uint8_t argument[ENGINE_INSTRUCTIONS]; /* the operand, but for PUSH: all others fit a byte */
    uint64_t pushed[ENGINE_INSTRUCTIONS];  /* the operand of a PUSH */
    struct engine_checkpoint checkpoints[ENGINE_READS];
};

struct engine_block {
    uint64_t executed; /* instructions executed since the opening, STOP and ABANDON too */
    uint8_t jobs;
    uint8_t final_jobs;    /* f: the final jobs are those with tickets 1 to f */
    uint8_t back_to_start; /* not 0: a marked job goes back to its first instruction */
    uint64_t start[ENGINE_CELLS];
    struct engine_job job[ENGINE_JOBS];
};

/* Opens a paper that the checker accepts; back_to_start is 0 until the caller sets it. */
void engine_open(struct engine_block *block, const uint64_t start[ENGINE_CELLS],
                 const uint8_t *paper, size_t length);

/* Whether all sizes of the block fit: the test for refusal 20. */
bool engine_fits(const struct engine_block *block);

/* One turn for a ticket: 14, then the sizes, then the rules. */
enum engine_word engine_turn(struct engine_block *block, unsigned ticket);

/* The same for a block whose sizes are known to fit. */
enum engine_word engine_turn_unchecked(struct engine_block *block, unsigned ticket);

/* Writes the settled table and answers f; or answers 20, which is no f, and writes nothing. */
unsigned engine_settled(const struct engine_block *block, uint64_t table[ENGINE_CELLS]);

#endif
