/* Sessions for measuring: every job passes the checker, and most jobs read what others write.

   In every eight places a job reads a cell, has three instructions for its stack alone, and writes
   its top to a cell. Both cells are drawn from the 32 hot cells, which all jobs share. The three
   are drawn too; in a third of all cases they are a test of the value read, on which the write
   depends. The last instruction is STOP. Four workers give the turns: each turn is for one of the
   four lowest tickets that have something to do, but one in sixteen is for any ticket, so that
   idle and wait come too. The turns go on until all jobs are final. */
#include "session.h"

enum {
    HOT_CELLS = 32,
    SEGMENT = 8,
    FILLED = 3,
    WRITTEN = 3,
    TESTS = 3,
    MOST_FILLED = 8, /* a job reads at most eight times, and so never needs more than 16 entries */
    MOST_PUSHED = 1000,
    WORKERS = 4,
    STRAYS = 16,
    TAG_JOB = 0x10
};

/* The job that is being written. */
struct maker {
    struct session *session;
    uint64_t *random;
    unsigned place;
    unsigned height;
};

/* What a job does with its stack alone; one entry always stays, for the write. */
static const struct filler {
    uint8_t code;
    uint8_t needs;
    int8_t grows;
} fillers[] = {
    {ENGINE_PUSH, 0, 1}, {ENGINE_POP, 2, -1}, {ENGINE_DUP, 1, 1},   {ENGINE_SWAP, 2, 0},
    {ENGINE_ADD, 2, -1}, {ENGINE_SUB, 2, -1}, {ENGINE_LESS, 2, -1}, {ENGINE_EQUAL, 2, -1},
    {ENGINE_JUMP, 0, 0},
};

static void put_byte(struct session *session, unsigned byte)
{
    session->paper[session->length++] = (uint8_t)byte;
}

static void put(struct maker *maker, uint8_t code, unsigned operand, int grows)
{
    put_byte(maker->session, code);
    for (unsigned byte = 0; byte < INSTRUCTION_BYTES - 1; byte++)
        put_byte(maker->session, byte < sizeof operand ? operand >> 8 * byte : 0);
    maker->place++;
    maker->height = (unsigned)((int)maker->height + grows);
}

static unsigned filler_operand(const struct maker *maker, uint8_t code)
{
    switch (code) {
    case ENGINE_PUSH: return draw(maker->random, MOST_PUSHED);
    case ENGINE_DUP: return 1 + draw(maker->random, maker->height);
    case ENGINE_SWAP: return 1 + draw(maker->random, maker->height - 1);
    case ENGINE_JUMP: return maker->place + 1;
    default: return 0;
    }
}

static void put_filler(struct maker *maker)
{
    const struct filler *filler;
    do
        filler = &fillers[draw(maker->random, sizeof fillers / sizeof fillers[0])];
    while (maker->height < filler->needs ||
           (filler->grows > 0 && maker->height >= MOST_FILLED));
    put(maker, filler->code, filler_operand(maker, filler->code), filler->grows);
}

/* The write that follows is passed over unless the value read is above a drawn number. */
static void put_test(struct maker *maker)
{
    put(maker, ENGINE_PUSH, draw(maker->random, MOST_PUSHED), 1);
    put(maker, ENGINE_LESS, 0, -1);
    put(maker, ENGINE_JUMPZERO, maker->place + 1 + WRITTEN, -1);
}

/* The last segment has two fillers only, to leave a place for STOP. */
static void put_segment(struct maker *maker, bool last)
{
    put(maker, ENGINE_PUSH, draw(maker->random, HOT_CELLS), 1);
    put(maker, ENGINE_READ, 0, 0);
    if (!last && maker->height > 1 && draw(maker->random, TESTS) == 0)
        put_test(maker);
    else
        for (unsigned left = last ? FILLED - 1 : FILLED; left > 0; left--)
            put_filler(maker);
    put(maker, ENGINE_DUP, 1, 1);
    put(maker, ENGINE_PUSH, draw(maker->random, HOT_CELLS), 1);
    put(maker, ENGINE_WRITE, 0, -2);
}

static void put_job(struct session *session, unsigned instructions, uint64_t *random)
{
    struct maker maker = {session, random, 0, 0};
    unsigned length = instructions * INSTRUCTION_BYTES;
    put_byte(session, TAG_JOB);
    put_byte(session, length);
    put_byte(session, length >> 8);
    for (unsigned left = instructions / SEGMENT; left > 0; left--)
        put_segment(&maker, left == 1);
    put(&maker, ENGINE_STOP, 0, 0);
}

/* One of the four lowest tickets that would neither idle nor wait; the lowest not final is one. */
static unsigned draw_ticket(const struct engine_block *block, uint64_t *random)
{
    unsigned busy[WORKERS], count = 0;
    if (draw(random, STRAYS) == 0)
        return 1 + draw(random, block->jobs);
    for (unsigned ticket = block->final_jobs + 1u; ticket <= block->jobs; ticket++) {
        const struct engine_job *job = &block->job[ticket - 1];
        bool waits = job->ended && job->mark == ENGINE_NO_MARK && ticket > block->final_jobs + 1u;
        if (!waits && count < WORKERS)
            busy[count++] = ticket;
    }
    return busy[draw(random, count)];
}

void make_session(struct session *session, unsigned jobs, unsigned instructions, uint64_t seed)
{
    static struct engine_block block;
    uint64_t random = seed;
    for (unsigned cell = 0; cell < ENGINE_CELLS; cell++)
        session->start[cell] = draw(&random, MOST_PUSHED);
    session->length = 0;
    for (unsigned job = 0; job < jobs; job++)
        put_job(session, instructions, &random);
    engine_open(&block, session->start, session->paper, session->length);
    session->turns = 0;
    while (block.final_jobs < block.jobs && session->turns < MOST_TURNS) {
        unsigned ticket = draw_ticket(&block, &random);
        session->tickets[session->turns++] = (uint8_t)ticket;
        engine_turn_unchecked(&block, ticket);
    }
}
