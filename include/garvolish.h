/* Garvolish: the proved engine of the storage box, for callers in C.
 *
 * Link libgarvolish.a, which is x86-64 code: tools/archive builds it, and tools/install puts it and this header in place.
 * Every function is proved to do what its comment says, for all bytes behind its pointers: no block, table, paper or
 * ticket has to be checked before a call. A pointer must point to what its type says and to as many elements as the length
 * beside it; the areas of one call must not overlap where one of them is written.
 *
 * Half a megabyte of stack is enough for any call. The library has no heap and no globals, keeps no pointer after a call,
 * and calls nothing but memcpy, memmove and memset. So calls on different blocks may run at once, in any threads. On one
 * block there may be one call at a time; several of garvolish_settled, which only reads it, may run at once.
 *
 * What a statement leaves open (docs/EXCEPTIONS.md has each case, and why no answer depends on it):
 * - padding: the bytes between two fields, which belong to none;
 * - after a turn that changed the block, entries past a count: of a stack past its height, of a journal, versions and reads
 *   past their size, checkpoints past the listed reads, and what belongs to a job past the block's count.
 * An opened block is fixed in every part, 0 past every count; no turn changes an instruction, or a final job's status.
 * Two blocks that stand for the same may differ in what is open: compare them by their parts, not by their bytes.
 */
#ifndef GARVOLISH_H
#define GARVOLISH_H

#include <stddef.h>
#include <stdint.h>

/* The version of this header, as the file VERSION has it. */
#define GARVOLISH_VERSION_MAJOR 0
#define GARVOLISH_VERSION_MINOR 13
#define GARVOLISH_VERSION_PATCH 0
#define GARVOLISH_VERSION_STRING "0.13.0"
#define GARVOLISH_VERSION (GARVOLISH_VERSION_MAJOR * 65536 + GARVOLISH_VERSION_MINOR * 256 + GARVOLISH_VERSION_PATCH)

/* The number of the block's layout. Whoever changes the layout raises it here, in the name of the archive's function, and
 * in bindings/rust/src/raw.rs. */
#define GARVOLISH_LAYOUT 1

/* An answer that must be looked at, and a need that neither the compiler nor the linker may drop; empty where the compiler
 * has no word for it. */
#ifdef __GNUC__
#define GARVOLISH_MUST_USE __attribute__((warn_unused_result))
#define GARVOLISH_KEPT __attribute__((used))
#else
#define GARVOLISH_MUST_USE
#define GARVOLISH_KEPT
#endif
#ifdef __has_attribute
#if __has_attribute(retain)
#undef GARVOLISH_KEPT
#define GARVOLISH_KEPT __attribute__((used, retain))
#endif
#endif

#ifdef __cplusplus
extern "C" {
#endif

enum {
    GARVOLISH_JOBS = 16,
    GARVOLISH_CELLS = 256,
    GARVOLISH_INSTRUCTIONS = 64,
    GARVOLISH_STACK = 16,
    GARVOLISH_FEW = 8,      /* reads and writes of one job */
    GARVOLISH_UNMARKED = 255
};

/* The instructions, by their codes; docs/MANUAL.md, section 3, says what each does. */
enum garvolish_code {
    GARVOLISH_STOP = 0,
    GARVOLISH_ABANDON = 1,
    GARVOLISH_PUSH = 2,
    GARVOLISH_POP = 3,
    GARVOLISH_DUP = 4,
    GARVOLISH_SWAP = 5,
    GARVOLISH_ADD = 6,
    GARVOLISH_SUB = 7,
    GARVOLISH_LESS = 8,
    GARVOLISH_EQUAL = 9,
    GARVOLISH_READ = 10,
    GARVOLISH_WRITE = 11,
    GARVOLISH_JUMP = 12,
    GARVOLISH_JUMPZERO = 13
};

/* What a turn did. A turn that is refused answers GARVOLISH_TICKET or GARVOLISH_MISFIT instead. */
enum garvolish_word {
    GARVOLISH_IDLE = 0,
    GARVOLISH_BACK = 1,
    GARVOLISH_STEP = 2,
    GARVOLISH_END = 3,
    GARVOLISH_FINAL = 4,
    GARVOLISH_WAIT = 5
};

/* The byte that garvolish_take_turns writes for a turn that was refused. */
enum { GARVOLISH_REFUSED_TURN = 6 };

/* The name of a word, which is the answer of garvolish_turn or a byte of garvolish_take_turns; "none" for a refused turn. */
static inline const char *garvolish_word_name(uint32_t word)
{
    switch (word) {
    case GARVOLISH_IDLE: return "idle";
    case GARVOLISH_BACK: return "back";
    case GARVOLISH_STEP: return "step";
    case GARVOLISH_END: return "end";
    case GARVOLISH_FINAL: return "final";
    case GARVOLISH_WAIT: return "wait";
    default: return "none";
    }
}

/* Document 01's refusals, by their numbers. */
enum garvolish_refusal {
    GARVOLISH_HEAD = 1,
    GARVOLISH_TAG = 2,
    GARVOLISH_MANY_JOBS = 3,
    GARVOLISH_LENGTH = 4,
    GARVOLISH_CODE = 5,
    GARVOLISH_OPERAND = 6,
    GARVOLISH_LEADS_ON = 7,
    GARVOLISH_NOT_LED = 8,
    GARVOLISH_ENTRIES = 9,
    GARVOLISH_HEIGHTS = 10,
    GARVOLISH_TOO_MANY = 11,
    GARVOLISH_TABLE = 12,
    GARVOLISH_TICKET = 14,
    GARVOLISH_BYTES = 15,
    GARVOLISH_MISFIT = 20
};

/* What a refusal means, by its number. */
static inline const char *garvolish_meaning(unsigned number)
{
    switch (number) {
    case GARVOLISH_HEAD: return "fewer than 3 bytes left for a head, or contents run past the end";
    case GARVOLISH_TAG: return "tag is not 0x10";
    case GARVOLISH_MANY_JOBS: return "a seventeenth job";
    case GARVOLISH_LENGTH: return "length 0, over 576, or not a multiple of 9";
    case GARVOLISH_CODE: return "code above 13";
    case GARVOLISH_OPERAND: return "operand outside its column";
    case GARVOLISH_LEADS_ON: return "the last instruction would lead on";
    case GARVOLISH_NOT_LED: return "no earlier place leads here";
    case GARVOLISH_ENTRIES: return "too few entries, or more than 16 left";
    case GARVOLISH_HEIGHTS: return "two heights meet here";
    case GARVOLISH_TOO_MANY: return "ninth READ or ninth WRITE";
    case GARVOLISH_TABLE: return "a table that has not 256 cells";
    case GARVOLISH_TICKET: return "a ticket that is none of the block's";
    case GARVOLISH_BYTES: return "not as many bytes lent as there are tickets";
    case GARVOLISH_MISFIT: return "a block whose sizes do not fit, or a turn that needs what is not there";
    default: return "no refusal of the library";
    }
}

/* ---- the block in work. It may be copied, stored and altered; what is past its sizes is answered by GARVOLISH_MISFIT. */

/* The instructions of a job, place by place. The operand of a PUSH stands in pushed, every other in arguments. */
struct garvolish_job {
    uint8_t codes[GARVOLISH_INSTRUCTIONS];
    uint8_t arguments[GARVOLISH_INSTRUCTIONS];
    uint64_t pushed[GARVOLISH_INSTRUCTIONS];
    uint8_t size;
};

/* The top stands at the height's end. */
struct garvolish_stack {
    uint64_t entries[GARVOLISH_STACK];
    uint8_t height;
};

struct garvolish_state {
    uint8_t place;
    struct garvolish_stack stack;
};

struct garvolish_entry {
    uint16_t cell;
    uint64_t value;
};

/* The writes of a job, in order. */
struct garvolish_journal {
    struct garvolish_entry entries[GARVOLISH_FEW];
    uint8_t size;
};

/* The public versions of a job: each is the number of its journal entry, counted from 0. */
struct garvolish_versions {
    uint8_t numbers[GARVOLISH_FEW];
    uint8_t size;
};

struct garvolish_read {
    uint16_t cell;
    uint8_t source;
    uint64_t value;
};

/* The listed reads of a job, and the earliest marked one, GARVOLISH_UNMARKED for none. */
struct garvolish_reads {
    struct garvolish_read reads[GARVOLISH_FEW];
    uint8_t size;
    uint8_t mark;
};

/* The job as it was before a listed read: checkpoint k, counted from 0, names at most k reads, and no more journal entries than the
 * next one names, the last no more than the journal holds. More is a misfit. */
struct garvolish_checkpoint {
    struct garvolish_state state;
    uint8_t writes;
    uint8_t listed;
};

/* Job k has ticket k + 1; its checkpoints stand from 8 * k on. A status is 0 while the job runs, 1 once it has ended, and 2
 * once it is final. */
struct garvolish_block {
    uint64_t start[GARVOLISH_CELLS];
    uint8_t count;
    struct garvolish_job jobs[GARVOLISH_JOBS];
    struct garvolish_state states[GARVOLISH_JOBS];
    uint8_t status[GARVOLISH_JOBS];
    struct garvolish_journal journals[GARVOLISH_JOBS];
    struct garvolish_versions versions[GARVOLISH_JOBS];
    struct garvolish_reads reads[GARVOLISH_JOBS];
    struct garvolish_checkpoint checkpoints[GARVOLISH_JOBS * GARVOLISH_FEW];
};

#define GARVOLISH_BLOCK_SIZE 38696
#define GARVOLISH_BLOCK_ALIGNMENT 8

#if defined(__cplusplus)
static_assert(sizeof(struct garvolish_block) == GARVOLISH_BLOCK_SIZE, "the block's size");
static_assert(alignof(struct garvolish_block) == GARVOLISH_BLOCK_ALIGNMENT, "the block's alignment");
#else
_Static_assert(sizeof(struct garvolish_block) == GARVOLISH_BLOCK_SIZE, "the block's size");
_Static_assert(_Alignof(struct garvolish_block) == GARVOLISH_BLOCK_ALIGNMENT, "the block's alignment");
#endif

/* ---- the library that is linked */

/* The version of the archive: GARVOLISH_VERSION where it is this header's. */
uint32_t garvolish_version(void);

/* The archive has a function garvolish_layout_N, for its layout's number N, that answers the bytes of a block. Every file
 * that includes this header needs the one of GARVOLISH_LAYOUT, so a program compiled for another layout does not link. */
#define GARVOLISH_JOINED(name, number) name##number
#define GARVOLISH_NUMBERED(name, number) GARVOLISH_JOINED(name, number)
#define GARVOLISH_LAYOUT_FUNCTION GARVOLISH_NUMBERED(garvolish_layout_, GARVOLISH_LAYOUT)
uint32_t GARVOLISH_LAYOUT_FUNCTION(void);
static uint32_t (*const garvolish_layout_needed)(void) GARVOLISH_KEPT = GARVOLISH_LAYOUT_FUNCTION;

/* ---- an answer: a number, with a field and a place or with f in the bytes above */

/* The refusal in an answer of any function but garvolish_turn: one of enum garvolish_refusal, 0 where nothing was refused. */
static inline unsigned garvolish_number(uint32_t answer) { return answer & 255; }
/* Whether an answer of garvolish_turn is a word; else it is GARVOLISH_TICKET or GARVOLISH_MISFIT. */
static inline int garvolish_is_word(uint32_t answer) { return answer <= GARVOLISH_WAIT; }
/* The field of the paper that a refusal names, counted from 1; 0 for none. */
static inline unsigned garvolish_field(uint32_t answer) { return answer >> 8 & 255; }
/* The place in the job that a refusal names. */
static inline unsigned garvolish_place(uint32_t answer) { return answer >> 16 & 255; }
/* The number of final jobs, in an answer of garvolish_settled. */
static inline unsigned garvolish_finals(uint32_t answer) { return answer >> 8 & 255; }

/* ---- the functions */

/* Opens a paper on a start table: *block becomes a block in work with every job fresh. Refuses GARVOLISH_TABLE unless cells
 * is 256, then GARVOLISH_HEAD to GARVOLISH_TOO_MANY with field and place; *block then has no jobs and an all-zero table. */
GARVOLISH_MUST_USE
uint32_t garvolish_open(struct garvolish_block *block, const uint64_t *start, size_t cells, const uint8_t *paper,
                        size_t length);

/* Gives a ticket one turn and answers its word. Refuses GARVOLISH_TICKET, then GARVOLISH_MISFIT; *block is then as it was. */
GARVOLISH_MUST_USE
uint32_t garvolish_turn(struct garvolish_block *block, uint8_t ticket);

/* Gives each ticket its turn, in order, and writes a byte for each: its word, or GARVOLISH_REFUSED_TURN. Refuses
 * GARVOLISH_BYTES unless bytes equals count; *block and the bytes are then as they were. The sizes are tested once. */
GARVOLISH_MUST_USE
uint32_t garvolish_take_turns(struct garvolish_block *block, const uint8_t *tickets, size_t count, uint8_t *words,
                              size_t bytes);

/* Writes the settled table whole and answers f (garvolish_finals). Refuses GARVOLISH_TABLE unless cells is 256, then
 * GARVOLISH_MISFIT; f is then 0 and the table as it was. */
GARVOLISH_MUST_USE
uint32_t garvolish_settled(const struct garvolish_block *block, uint64_t *table, size_t cells);

/* Runs all jobs of a paper one after another and writes the output table whole. Refuses as garvolish_open does, with
 * GARVOLISH_TABLE for either table; the output is then as it was. */
GARVOLISH_MUST_USE
uint32_t garvolish_run_serially(const uint64_t *start, size_t start_cells, uint64_t *output, size_t output_cells,
                                const uint8_t *paper, size_t length);

#ifdef __cplusplus
}
#endif

#endif
