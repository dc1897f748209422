/* The work saved by going back to a read instead of to the start, on blocks of rising heat.

   A block has 16 jobs of 64 instructions without jumps. A job reads 8 cells and writes 8, one of
   each in every eight places: it keeps a sum, adds each value read to it, and writes it. The
   cells that a job writes are drawn from the 32 hot cells, which all jobs share. Each read goes
   with probability p to a hot cell that the job does not write itself, else to a cold cell,
   which no job writes. No job reads or writes a cell twice, so that every READ is a listed read.
   The heat is the part of all reads that go to a cell which a lower job writes.

   Four workers give the turns, each turn by a worker drawn at random. A worker without a job
   takes up the lowest ticket that no other worker has and that has something to do: it is
   marked, or running, or ended with all lower tickets final. It lets go of it at end or final.

   Instructions redone are those executed less those that a serial run of the block executes.
   Both ways of going back see the same blocks and the same row of draws of workers. */
#include "paper.h"

#include <stdio.h>
#include <stdlib.h>
#include <string.h>

enum {
    SEED = 20,
    BLOCKS = 1000,
    WORKERS = 4,
    HOT_CELLS = 32,
    TENTHS = 10,
    SEGMENTS = 8
};

struct paper {
    uint8_t bytes[PAPER_BYTES];
    size_t length;
    unsigned heat; /* reads of cells that a lower job writes */
};

/* The first tickets that were given turns, as a session holds them. */
struct turns {
    uint8_t tickets[MOST_TURNS];
    size_t count;
};

/* For one p, sums over all its blocks. */
struct sums {
    uint64_t jobs;
    uint64_t heat;
    uint64_t serial;
    uint64_t to_read;
    uint64_t to_start;
};

/* A cell from `first` to `first + count - 1` that is not taken yet. */
static unsigned draw_cell(uint64_t *random, bool *taken, unsigned first, unsigned count)
{
    unsigned cell;
    do
        cell = first + draw(random, count);
    while (taken[cell]);
    taken[cell] = true;
    return cell;
}

static void put(struct paper *paper, uint8_t code, uint64_t operand)
{
    paper->bytes[paper->length++] = code;
    for (unsigned byte = 0; byte < 8; byte++)
        paper->bytes[paper->length++] = (uint8_t)(operand >> 8 * byte);
}

/* One PUSH, seven segments of eight, one of six, STOP: 64 instructions. */
static void put_job(struct paper *paper, const unsigned *read, const unsigned *write)
{
    unsigned length = ENGINE_INSTRUCTIONS * INSTRUCTION_BYTES;
    paper->bytes[paper->length++] = 0x10;
    paper->bytes[paper->length++] = (uint8_t)length;
    paper->bytes[paper->length++] = (uint8_t)(length >> 8);
    put(paper, ENGINE_PUSH, 1);
    for (unsigned segment = 0; segment < SEGMENTS; segment++) {
        put(paper, ENGINE_PUSH, read[segment]);
        put(paper, ENGINE_READ, 0);
        put(paper, ENGINE_ADD, 0);
        if (segment + 1 < SEGMENTS) {
            put(paper, ENGINE_PUSH, segment);
            put(paper, ENGINE_ADD, 0);
        }
        put(paper, ENGINE_DUP, 1);
        put(paper, ENGINE_PUSH, write[segment]);
        put(paper, ENGINE_WRITE, 0);
    }
    put(paper, ENGINE_STOP, 0);
}

/* Both a hot and a cold cell are drawn for each read, so that a higher p only heats the block. */
static void make_paper(struct paper *paper, unsigned tenths, uint64_t random)
{
    bool written_below[ENGINE_CELLS] = {false};
    paper->length = 0;
    paper->heat = 0;
    for (unsigned job = 0; job < ENGINE_JOBS; job++) {
        bool taken[ENGINE_CELLS] = {false};
        unsigned read[SEGMENTS], write[SEGMENTS];
        for (unsigned segment = 0; segment < SEGMENTS; segment++)
            write[segment] = draw_cell(&random, taken, 0, HOT_CELLS);
        for (unsigned segment = 0; segment < SEGMENTS; segment++) {
            unsigned hot = draw_cell(&random, taken, 0, HOT_CELLS);
            unsigned cold = draw_cell(&random, taken, HOT_CELLS, ENGINE_CELLS - HOT_CELLS);
            read[segment] = draw(&random, TENTHS) < tenths ? hot : cold;
            paper->heat += written_below[read[segment]];
        }
        for (unsigned segment = 0; segment < SEGMENTS; segment++)
            written_below[write[segment]] = true;
        put_job(paper, read, write);
    }
}

/* The lowest ticket that no worker has and that would neither idle nor wait; 0 if there is none. */
static unsigned take_up(const struct engine_block *block, const unsigned *in_hand)
{
    for (unsigned ticket = block->final_jobs + 1u; ticket <= block->jobs; ticket++) {
        const struct engine_job *job = &block->job[ticket - 1];
        bool busy = job->mark != ENGINE_NO_MARK || !job->ended || ticket == block->final_jobs + 1u;
        for (unsigned worker = 0; worker < WORKERS; worker++)
            busy = busy && in_hand[worker] != ticket;
        if (busy)
            return ticket;
    }
    return 0;
}

/* Turns by four workers until all jobs are final. */
static void run_by_workers(struct engine_block *block, uint64_t random, struct turns *turns)
{
    unsigned in_hand[WORKERS] = {0};
    turns->count = 0;
    while (block->final_jobs < block->jobs) {
        unsigned worker = draw(&random, WORKERS);
        if (in_hand[worker] == 0)
            in_hand[worker] = take_up(block, in_hand);
        unsigned ticket = in_hand[worker];
        if (ticket == 0)
            continue;
        enum engine_word word = engine_turn_unchecked(block, ticket);
        if (word != ENGINE_STEP && word != ENGINE_BACK)
            in_hand[worker] = 0;
        if (turns->count < MOST_TURNS)
            turns->tickets[turns->count++] = (uint8_t)ticket;
    }
}

/* One job after the other: nothing is ever marked. */
static void run_serially(struct engine_block *block)
{
    for (unsigned ticket = 1; ticket <= block->jobs; ticket++)
        while (engine_turn_unchecked(block, ticket) != ENGINE_FINAL)
            continue;
}

/* Whatever the way back, the settled table must be that of the serial run. */
static void demand_settled(const struct engine_block *block, const uint64_t *serial_table)
{
    uint64_t table[ENGINE_CELLS];
    if (engine_settled(block, table) == ENGINE_JOBS &&
        memcmp(table, serial_table, sizeof table) == 0)
        return;
    fputs("heat: a settled table is not that of the serial run\n", stderr);
    exit(1);
}

static void run_block(struct sums *sums, const struct paper *paper, uint64_t random,
                      struct turns *turns)
{
    static const uint64_t start[ENGINE_CELLS] = {0};
    static struct engine_block block;
    uint64_t serial_table[ENGINE_CELLS];
    engine_open(&block, start, paper->bytes, paper->length);
    run_serially(&block);
    engine_settled(&block, serial_table);
    sums->serial += block.executed;
    engine_open(&block, start, paper->bytes, paper->length);
    block.back_to_start = 1;
    run_by_workers(&block, random, turns);
    demand_settled(&block, serial_table);
    sums->to_start += block.executed;
    engine_open(&block, start, paper->bytes, paper->length);
    run_by_workers(&block, random, turns);
    demand_settled(&block, serial_table);
    sums->to_read += block.executed;
    sums->jobs += block.final_jobs;
    sums->heat += paper->heat;
}

static FILE *open_file(const char *name)
{
    FILE *file = fopen(name, "wb");
    if (file == NULL) {
        fprintf(stderr, "heat: cannot write %s\n", name);
        exit(2);
    }
    return file;
}

static void close_file(FILE *file, const char *name)
{
    bool failed = ferror(file) != 0;
    if (fclose(file) != 0 || failed) {
        fprintf(stderr, "heat: cannot write %s\n", name);
        exit(2);
    }
}

/* A session of one block and its turns, so that other programs can check and play it. */
static void write_session(const char *folder, unsigned tenths, const struct paper *paper,
                          const struct turns *turns)
{
    char name[4096];
    snprintf(name, sizeof name, "%s/heat-%02u.bin", folder, tenths);
    FILE *file = open_file(name);
    fwrite(paper->bytes, 1, paper->length, file);
    fputc(0x02, file);
    fputc((int)(turns->count & 255), file);
    fputc((int)(turns->count >> 8), file);
    fwrite(turns->tickets, 1, turns->count, file);
    close_file(file, name);
}

static struct sums measure(unsigned tenths, const char *folder)
{
    struct sums sums = {0};
    for (unsigned index = 0; index < BLOCKS; index++) {
        static struct paper paper;
        static struct turns turns;
        uint64_t random = (uint64_t)SEED << 32 | index;
        make_paper(&paper, tenths, random * 2);
        run_block(&sums, &paper, random * 2 + 1, &turns);
        if (folder != NULL && index == 0)
            write_session(folder, tenths, &paper, &turns);
    }
    return sums;
}

static double redone(const struct sums *sums, uint64_t executed)
{
    return (double)(executed - sums->serial) / (double)sums->jobs;
}

static void print_line(unsigned tenths, const struct sums *sums)
{
    double jobs = (double)sums->jobs, to_read = redone(sums, sums->to_read);
    double to_start = redone(sums, sums->to_start);
    double saved = to_start > 0 ? 100 * (to_start - to_read) / to_start : 0;
    printf("%3.1f  %5.3f  %7.2f  %7.2f  %8.2f  %8.2f  %7.1f\n", tenths / 10.0,
           (double)sums->heat / (jobs * (double)SEGMENTS), to_read, to_start,
           (double)sums->to_read / jobs, (double)sums->to_start / jobs, saved);
}

/* The plot's frame, in the units of the picture. */
enum { WIDTH = 720, HEIGHT = 440, LEFT = 80, RIGHT = 690, TOP = 50, BOTTOM = 370, MOST_TICKS = 8 };

/* The upright axis: so many ticks, so far apart. */
struct scale {
    double step;
    unsigned ticks;
};

/* Steps go 1, 2, 5, 10 and so on, that their labels are round. */
static struct scale scale_for(double greatest)
{
    struct scale scale = {1, 1};
    for (unsigned tries = 0; scale.step * (double)MOST_TICKS < greatest; tries++)
        scale.step *= tries % 3 == 1 ? 2.5 : 2;
    while (scale.step * scale.ticks < greatest)
        scale.ticks++;
    return scale;
}

static double across(unsigned tenths)
{
    return (double)LEFT + (double)(RIGHT - LEFT) * tenths / (double)TENTHS;
}

static double up(double value, struct scale scale)
{
    return (double)BOTTOM - (double)(BOTTOM - TOP) * value / (scale.step * scale.ticks);
}

static void draw_axes(FILE *file, struct scale scale)
{
    for (unsigned tick = 0; tick <= scale.ticks; tick++) {
        double y = up(tick * scale.step, scale);
        fprintf(file, "<line x1=\"%d\" y1=\"%.1f\" x2=\"%d\" y2=\"%.1f\" stroke=\"#dddddd\"/>\n",
                LEFT, y, RIGHT, y);
        fprintf(file, "<text x=\"%d\" y=\"%.1f\" text-anchor=\"end\">%g</text>\n", LEFT - 8, y + 5,
                tick * scale.step);
    }
    for (unsigned tenths = 0; tenths <= TENTHS; tenths += 2)
        fprintf(file, "<text x=\"%.1f\" y=\"%d\" text-anchor=\"middle\">%.1f</text>\n",
                across(tenths), BOTTOM + 22, tenths / 10.0);
    fprintf(file, "<path d=\"M%d %dV%dH%d\" fill=\"none\" stroke=\"#333333\"/>\n", LEFT, TOP,
            BOTTOM, RIGHT);
    fprintf(file, "<text x=\"%d\" y=\"%d\" text-anchor=\"middle\">"
                  "probability p that a read goes to a hot cell</text>\n",
            (LEFT + RIGHT) / 2, BOTTOM + 50);
    fprintf(file, "<text transform=\"translate(26 %d) rotate(-90)\" text-anchor=\"middle\">"
                  "instructions redone per final job</text>\n",
            (TOP + BOTTOM) / 2);
}

static void draw_way(FILE *file, const double *values, struct scale scale, const char *colour,
                     const char *name, int legend)
{
    fprintf(file, "<polyline fill=\"none\" stroke=\"%s\" stroke-width=\"2.5\" points=\"", colour);
    for (unsigned tenths = 0; tenths <= TENTHS; tenths++)
        fprintf(file, "%.1f,%.1f ", across(tenths), up(values[tenths], scale));
    fputs("\"/>\n", file);
    for (unsigned tenths = 0; tenths <= TENTHS; tenths++)
        fprintf(file, "<circle cx=\"%.1f\" cy=\"%.1f\" r=\"4\" fill=\"%s\"/>\n", across(tenths),
                up(values[tenths], scale), colour);
    fprintf(file, "<line x1=\"%d\" y1=\"%d\" x2=\"%d\" y2=\"%d\" stroke=\"%s\" "
                  "stroke-width=\"2.5\"/>\n",
            LEFT + 20, legend, LEFT + 50, legend, colour);
    fprintf(file, "<text x=\"%d\" y=\"%d\">%s</text>\n", LEFT + 60, legend + 5, name);
}

static void write_plot(const char *name, const double *to_read, const double *to_start)
{
    double greatest = 1;
    for (unsigned tenths = 0; tenths <= TENTHS; tenths++) {
        greatest = to_start[tenths] > greatest ? to_start[tenths] : greatest;
        greatest = to_read[tenths] > greatest ? to_read[tenths] : greatest;
    }
    struct scale scale = scale_for(greatest);
    FILE *file = open_file(name);
    fprintf(file, "<svg xmlns=\"http://www.w3.org/2000/svg\" viewBox=\"0 0 %d %d\" width=\"%d\" "
                  "height=\"%d\" font-family=\"sans-serif\" font-size=\"15\" fill=\"#222222\">\n",
            WIDTH, HEIGHT, WIDTH, HEIGHT);
    fprintf(file, "<rect width=\"%d\" height=\"%d\" fill=\"#ffffff\"/>\n", WIDTH, HEIGHT);
    fprintf(file, "<text x=\"%d\" y=\"28\" text-anchor=\"middle\" font-size=\"17\">"
                  "Redone work, by how far a job goes back</text>\n",
            (LEFT + RIGHT) / 2);
    draw_axes(file, scale);
    fprintf(file, "<rect x=\"%d\" y=\"%d\" width=\"310\" height=\"54\" fill=\"#ffffff\"/>\n",
            LEFT + 12, TOP + 7);
    draw_way(file, to_start, scale, "#c2410c", "back to the start", TOP + 22);
    draw_way(file, to_read, scale, "#1d4ed8", "back to the earliest marked read", TOP + 46);
    fputs("</svg>\n", file);
    close_file(file, name);
}

int main(int count, char **words)
{
    const char *plot = NULL, *folder = NULL;
    double to_read[TENTHS + 1], to_start[TENTHS + 1];
    for (int index = 1; index < count; index += 2) {
        bool is_plot = strcmp(words[index], "--svg") == 0;
        if (index + 1 == count || (!is_plot && strcmp(words[index], "--sessions") != 0)) {
            fputs("usage: heat [--svg FILE] [--sessions FOLDER]\n", stderr);
            return 2;
        }
        *(is_plot ? &plot : &folder) = words[index + 1];
    }
    puts("Instructions per final job, going back to the read or to the start");
    puts("            redone            executed           redone");
    puts("p    heat      read    start      read     start  saved %");
    for (unsigned tenths = 0; tenths <= TENTHS; tenths++) {
        struct sums sums = measure(tenths, folder);
        to_read[tenths] = redone(&sums, sums.to_read);
        to_start[tenths] = redone(&sums, sums.to_start);
        print_line(tenths, &sums);
    }
    if (plot != NULL)
        write_plot(plot, to_read, to_start);
    return 0;
}
