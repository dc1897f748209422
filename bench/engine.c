/* The plain engine: C11, and the vectors of bytes and bit counts that gcc and clang both have. */
#include "engine.h"

#include <string.h>

#define ONES UINT64_C(0x0101010101010101)
#define TOPS UINT64_C(0x8080808080808080)

enum { FIELD_HEAD = 3, INSTRUCTION_BYTES = 9 };

/* Sixteen bytes taken together; a comparison of two gives all bits or none, byte by byte. */
typedef uint8_t row __attribute__((vector_size(16)));

/* By code: entries that must be there; DUP and SWAP look at their operand too. */
static const uint8_t needs[16] = {
    [ENGINE_POP] = 1,   [ENGINE_DUP] = 1,      [ENGINE_SWAP] = 2,  [ENGINE_ADD] = 2,
    [ENGINE_SUB] = 2,   [ENGINE_LESS] = 2,     [ENGINE_EQUAL] = 2, [ENGINE_READ] = 1,
    [ENGINE_WRITE] = 2, [ENGINE_JUMPZERO] = 1,
};

/* By code: change in height. */
static const int8_t grows[16] = {
    [ENGINE_PUSH] = 1, [ENGINE_POP] = -1,  [ENGINE_DUP] = 1,    [ENGINE_ADD] = -1,
    [ENGINE_SUB] = -1, [ENGINE_LESS] = -1, [ENGINE_EQUAL] = -1, [ENGINE_WRITE] = -2,
    [ENGINE_JUMPZERO] = -1,
};

/* The top bit of every byte that equals the cell; exact, for no carry leaves its byte. */
static inline uint64_t entries_of(uint64_t cells, uint8_t cell)
{
    uint64_t differ = cells ^ ONES * cell;
    return ~(((differ & ~TOPS) + ~TOPS) | differ) & TOPS;
}

/* All bits of the first `count` bytes; shifted twice, for a shift by 64 means nothing. */
static inline uint64_t first_bytes(unsigned count)
{
    return ~(~UINT64_C(0) << 4 * count << 4 * count);
}

static inline unsigned first_entry(uint64_t entries)
{
    return (unsigned)__builtin_ctzll(entries) >> 3;
}

static inline unsigned last_entry(uint64_t entries)
{
    return (63u - (unsigned)__builtin_clzll(entries)) >> 3;
}

static inline uint8_t cell_at(uint64_t cells, unsigned entry)
{
    return (uint8_t)(cells >> 8 * entry);
}

static inline uint64_t with_cell(uint64_t cells, unsigned entry, uint8_t cell)
{
    return (cells & first_bytes(entry)) | (uint64_t)cell << 8 * entry;
}

/* Marks, in each higher job, the read of the cell whose source is from `oldest` to `ticket`. */
static void mark_readers(struct engine_block *block, unsigned ticket, unsigned oldest,
                         uint8_t cell)
{
    for (unsigned index = ticket; index < block->jobs; index++) {
        struct engine_job *job = &block->job[index];
        uint64_t found = entries_of(job->read_cells, cell) & first_bytes(job->reads);
        for (; found != 0; found &= found - 1) {
            unsigned read = first_entry(found);
            if (read >= job->mark)
                break;
            if (job->sources[read] >= oldest && job->sources[read] <= ticket)
                job->mark = (uint8_t)read;
        }
    }
}

/* Whoever read a withdrawn version has it as source. */
static void withdraw(struct engine_block *block, unsigned ticket, uint64_t lost)
{
    struct engine_job *job = &block->job[ticket - 1];
    job->versions &= ~lost;
    for (; lost != 0; lost &= lost - 1)
        mark_readers(block, ticket, ticket, cell_at(job->journal_cells, first_entry(lost)));
}

/* Takes the last entry left, then leaves out all entries of its cell: so each cell comes once. */
static void publish(struct engine_block *block, unsigned ticket)
{
    struct engine_job *job = &block->job[ticket - 1];
    uint64_t left = first_bytes(job->journal_length) & TOPS;
    while (left != 0) {
        unsigned entry = last_entry(left);
        uint8_t cell = cell_at(job->journal_cells, entry);
        uint64_t same = entries_of(job->journal_cells, cell) & left;
        uint64_t version = UINT64_C(0x80) << 8 * entry;
        left &= ~same;
        if (job->versions & version)
            continue;
        job->versions = (job->versions & ~same) | version;
        mark_readers(block, ticket, 0, cell);
    }
}

static enum engine_word go_back(struct engine_block *block, unsigned ticket)
{
    static const struct engine_checkpoint beginning;
    struct engine_job *job = &block->job[ticket - 1];
    const struct engine_checkpoint *to =
        block->back_to_start ? &beginning : &job->checkpoints[job->mark];
    job->stack = to->stack;
    job->place = to->place;
    job->height = to->height;
    job->journal_length = to->journal_length;
    job->reads = to->reads;
    job->mark = ENGINE_NO_MARK;
    job->ended = 0;
    withdraw(block, ticket, job->versions & ~first_bytes(job->journal_length));
    return ENGINE_BACK;
}

/* The checkpoint is made first: it still has the cell number on the stack. */
static bool list_read(struct engine_block *block, unsigned ticket, uint64_t *top)
{
    struct engine_job *job = &block->job[ticket - 1];
    if (job->reads >= ENGINE_READS)
        return false;
    struct engine_checkpoint *checkpoint = &job->checkpoints[job->reads];
    checkpoint->stack = job->stack;
    checkpoint->place = job->place;
    checkpoint->height = job->height;
    checkpoint->journal_length = job->journal_length;
    checkpoint->reads = job->reads;
    uint8_t cell = (uint8_t)*top;
    uint64_t found = 0;
    unsigned source = ticket - 1;
    for (; source > 0; source--) {
        const struct engine_job *lower = &block->job[source - 1];
        found = entries_of(lower->journal_cells, cell) & lower->versions;
        if (found != 0)
            break;
    }
    *top = source ? block->job[source - 1].journal_values[last_entry(found)] : block->start[cell];
    job->read_cells = with_cell(job->read_cells, job->reads, cell);
    job->sources[job->reads] = (uint8_t)source;
    job->read_values[job->reads++] = *top;
    return true;
}

/* The job's own last write comes first, then its own listed read; neither is listed again. */
static bool read_cell(struct engine_block *block, unsigned ticket, uint64_t *top)
{
    struct engine_job *job = &block->job[ticket - 1];
    uint8_t cell = (uint8_t)*top;
    uint64_t found = entries_of(job->journal_cells, cell) & first_bytes(job->journal_length);
    if (found != 0) {
        *top = job->journal_values[last_entry(found)];
        return true;
    }
    found = entries_of(job->read_cells, cell) & first_bytes(job->reads);
    if (found != 0) {
        *top = job->read_values[first_entry(found)];
        return true;
    }
    return list_read(block, ticket, top);
}

static bool write_cell(struct engine_job *job, uint64_t cell, uint64_t value)
{
    if (job->journal_length >= ENGINE_WRITES)
        return false;
    job->journal_cells = with_cell(job->journal_cells, job->journal_length, (uint8_t)cell);
    job->journal_values[job->journal_length++] = value;
    return true;
}

/* Nothing is amended before all that the instruction needs is there. */
static enum engine_word step(struct engine_block *block, unsigned ticket, uint8_t code)
{
    struct engine_job *job = &block->job[ticket - 1];
    unsigned next = job->place + 1u;
    if (job->height < needs[code] || job->height + grows[code] > ENGINE_STACK || next >= job->size)
        return ENGINE_STUCK;
    uint8_t argument = job->argument[job->place];
    uint64_t *above = job->stack.entry + job->height, held;
    switch (code) {
    case ENGINE_PUSH: above[0] = job->pushed[job->place]; break;
    case ENGINE_POP: break;
    case ENGINE_DUP:
        if (argument > job->height)
            return ENGINE_STUCK;
        above[0] = above[-argument];
        break;
    case ENGINE_SWAP:
        if (argument >= job->height)
            return ENGINE_STUCK;
        held = above[-1];
        above[-1] = above[-1 - argument];
        above[-1 - argument] = held;
        break;
    case ENGINE_ADD: above[-2] = above[-1] + above[-2]; break;
    case ENGINE_SUB: above[-2] = above[-1] - above[-2]; break;
    case ENGINE_LESS: above[-2] = above[-1] < above[-2]; break;
    case ENGINE_EQUAL: above[-2] = above[-1] == above[-2]; break;
    case ENGINE_READ: if (!read_cell(block, ticket, above - 1)) return ENGINE_STUCK; break;
    case ENGINE_WRITE: if (!write_cell(job, above[-1], above[-2])) return ENGINE_STUCK; break;
    case ENGINE_JUMP: next = argument; break;
    case ENGINE_JUMPZERO: next = above[-1] == 0 ? argument : next; break;
    }
    job->place = (uint8_t)next;
    job->height = (uint8_t)(job->height + grows[code]);
    block->executed++;
    return ENGINE_STEP;
}

static enum engine_word end(struct engine_block *block, unsigned ticket, uint8_t code)
{
    struct engine_job *job = &block->job[ticket - 1];
    if (code == ENGINE_STOP)
        publish(block, ticket);
    else
        withdraw(block, ticket, job->versions);
    job->ended = 1;
    block->executed++;
    return ENGINE_END;
}

/* The rules, for a ticket of the block. */
static inline enum engine_word take_turn(struct engine_block *block, unsigned ticket)
{
    const struct engine_job *job = &block->job[ticket - 1];
    if (ticket <= block->final_jobs)
        return ENGINE_IDLE;
    if (job->mark != ENGINE_NO_MARK)
        return go_back(block, ticket);
    if (!job->ended) {
        uint8_t code = job->code[job->place];
        return code > ENGINE_ABANDON ? step(block, ticket, code) : end(block, ticket, code);
    }
    if (block->final_jobs + 1u != ticket)
        return ENGINE_WAIT;
    block->final_jobs++;
    return ENGINE_FINAL;
}

/* Sixteen instructions at a time, for this test is most of a turn's cost. */
static bool instructions_fit(const struct engine_job *job)
{
    row place = {0, 1, 2, 3, 4, 5, 6, 7, 8, 9, 10, 11, 12, 13, 14, 15}, faults = {0};
    for (unsigned first = 0; first < job->size; first += sizeof(row)) {
        row code, argument;
        memcpy(&code, job->code + first, sizeof code);
        memcpy(&argument, job->argument + first, sizeof argument);
        row counts = (row)(code == ENGINE_DUP) | (row)(code == ENGINE_SWAP);
        row jumps = (row)(code >= ENGINE_JUMP), pushes = (row)(code == ENGINE_PUSH);
        row least = (jumps & (place + 1)) | (counts & 1);
        row most = (jumps & (uint8_t)(job->size - 1)) | (counts & 15) | pushes;
        row bad_code = (row)(code > ENGINE_JUMPZERO);
        row bad_argument = (row)(argument < least) | (row)(argument > most);
        faults |= (bad_code | bad_argument) & (row)(place < job->size);
        place += (uint8_t)sizeof(row);
    }
    uint64_t halves[2];
    memcpy(halves, &faults, sizeof halves);
    return (halves[0] | halves[1]) == 0;
}

/* A checkpoint is the job before a read: it holds no more than the reads and checkpoints after. */
static bool checkpoints_fit(const struct engine_job *job)
{
    uint8_t held = job->journal_length;
    for (unsigned read = job->reads; read-- > 0;) {
        const struct engine_checkpoint *checkpoint = &job->checkpoints[read];
        if (checkpoint->place >= job->size || checkpoint->height > ENGINE_STACK ||
            checkpoint->journal_length > held || checkpoint->reads > read)
            return false;
        held = checkpoint->journal_length;
    }
    return true;
}

static bool job_fits(const struct engine_job *job)
{
    if (job->size > ENGINE_INSTRUCTIONS || job->place >= job->size || job->height > ENGINE_STACK ||
        job->journal_length > ENGINE_WRITES || job->reads > ENGINE_READS)
        return false;
    if (job->mark != ENGINE_NO_MARK && job->mark >= job->reads)
        return false;
    if (job->versions & ~(first_bytes(job->journal_length) & TOPS))
        return false;
    return checkpoints_fit(job) && instructions_fit(job);
}

bool engine_fits(const struct engine_block *block)
{
    if (block->jobs > ENGINE_JOBS || block->final_jobs > block->jobs)
        return false;
    for (unsigned index = 0; index < block->jobs; index++)
        if (!job_fits(&block->job[index]))
            return false;
    return true;
}

enum engine_word engine_turn(struct engine_block *block, unsigned ticket)
{
    if (ticket == 0 || ticket > block->jobs)
        return ENGINE_NO_TICKET;
    if (!engine_fits(block))
        return ENGINE_STUCK;
    return take_turn(block, ticket);
}

enum engine_word engine_turn_unchecked(struct engine_block *block, unsigned ticket)
{
    if (ticket == 0 || ticket > block->jobs)
        return ENGINE_NO_TICKET;
    return take_turn(block, ticket);
}

/* Tickets rise, so the greatest ticket's version of a cell is written last. */
unsigned engine_settled(const struct engine_block *block, uint64_t table[ENGINE_CELLS])
{
    if (!engine_fits(block))
        return ENGINE_STUCK;
    memcpy(table, block->start, sizeof block->start);
    for (unsigned index = 0; index < block->final_jobs; index++) {
        const struct engine_job *job = &block->job[index];
        for (uint64_t left = job->versions; left != 0; left &= left - 1) {
            unsigned entry = first_entry(left);
            table[cell_at(job->journal_cells, entry)] = job->journal_values[entry];
        }
    }
    return block->final_jobs;
}

static uint64_t operand_at(const uint8_t *bytes)
{
    uint64_t operand = 0;
    for (unsigned byte = 0; byte < 8; byte++)
        operand |= (uint64_t)bytes[byte] << 8 * byte;
    return operand;
}

static void open_job(struct engine_job *job, const uint8_t *contents, size_t length)
{
    memset(job, 0, sizeof *job);
    job->mark = ENGINE_NO_MARK;
    job->size = (uint8_t)(length / INSTRUCTION_BYTES);
    for (unsigned place = 0; place < job->size; place++) {
        const uint8_t *instruction = contents + place * INSTRUCTION_BYTES;
        uint64_t operand = operand_at(instruction + 1);
        job->code[place] = instruction[0];
        job->pushed[place] = operand;
        job->argument[place] = (uint8_t)operand;
    }
}

void engine_open(struct engine_block *block, const uint64_t start[ENGINE_CELLS],
                 const uint8_t *paper, size_t length)
{
    block->executed = 0;
    block->jobs = 0;
    block->final_jobs = 0;
    block->back_to_start = 0;
    memcpy(block->start, start, sizeof block->start);
    while (length > 0) {
        size_t contents = paper[1] | (size_t)paper[2] << 8;
        open_job(&block->job[block->jobs++], paper + FIELD_HEAD, contents);
        paper += FIELD_HEAD + contents;
        length -= FIELD_HEAD + contents;
    }
}
