/* Times the proved engine against the plain C engine, on the same sessions and in one run.

   Each form of block has eight sessions. Every work is done on each of them by one side and then
   by the other; all this nine times over, and the best time of each side counts. Before anything
   is timed, both sides must give the same words, the same f and the same settled table for every
   session; and what the timed calls answer must add up to the same number on both sides. */
#define _POSIX_C_SOURCE 199309L

#include "engine.h"
#include "garvolish.h"
#include "session.h"

#include <stdio.h>
#include <stdlib.h>
#include <string.h>
#include <time.h>

enum { SEED = 20, SESSIONS = 8, REPEATS = 9, MANY = 100, FORMS = 5, FULL = 2, WORDS = 6 };

/* An opening, and the turns of a list, each of which takes the block and gives it back by value (crates/by_value). */
uint32_t garvolish_by_value(const uint64_t *start, size_t cells, const uint8_t *paper, size_t length,
                            const uint8_t *tickets, size_t count, uint8_t *words, size_t bytes);

/* What is timed: the first three on every form of block, the others on the full one. */
enum {
    TURNS,
    LIST,
    EMPTY_LIST,
    GROWING,
    OPENING = GROWING,
    SETTLED,
    BY_TURNS,
    BY_LIST,
    BY_VALUE,
    COPY,
    WORKS
};

/* In ns. */
struct times {
    double proved;
    double plain;
};

/* Blocks of so many jobs of so many instructions. */
struct form {
    unsigned jobs;
    unsigned instructions;
    struct session sessions[SESSIONS];
    unsigned words[WORDS]; /* the turns of all sessions, by their words */
    double turns;          /* of a session, as a mean */
    struct times best[WORKS][SESSIONS];
};

/* Works on a side's block in work; answers a number made of what its calls answered. */
typedef uint64_t task(const struct session *session);

/* What is done before is not timed. */
struct side {
    task *before;
    task *timed;
};

/* The timed task is done `rounds` times over. */
struct work {
    struct side proved;
    struct side plain;
    unsigned rounds;
};

/* What the timed calls answered, added up. */
static struct {
    uint64_t proved;
    uint64_t plain;
} sums;

static struct form forms[FORMS] = {
    {.jobs = 1, .instructions = 64},
    {.jobs = 4, .instructions = 64},
    [FULL] = {.jobs = 16, .instructions = 64},
    {.jobs = 16, .instructions = 32},
    {.jobs = 16, .instructions = 8},
};

static double clock_time;
static struct garvolish_block proved, copied;
static struct engine_block plain;
static uint64_t table[ENGINE_CELLS];
static uint8_t words[MOST_TURNS];

static uint64_t proved_open(const struct session *session)
{
    return garvolish_open(&proved, session->start, ENGINE_CELLS, session->paper, session->length);
}

static uint64_t plain_open(const struct session *session)
{
    engine_open(&plain, session->start, session->paper, session->length);
    return 0;
}

static uint64_t proved_turns(const struct session *session)
{
    uint64_t answers = 0;
    for (size_t index = 0; index < session->turns; index++)
        answers += garvolish_turn(&proved, session->tickets[index]);
    return answers;
}

static uint64_t plain_turns(const struct session *session)
{
    uint64_t answers = 0;
    for (size_t index = 0; index < session->turns; index++)
        answers += engine_turn(&plain, session->tickets[index]);
    return answers;
}

static uint64_t proved_list(const struct session *session)
{
    return garvolish_take_turns(&proved, session->tickets, session->turns, words, session->turns) +
           words[session->turns - 1];
}

/* The sizes are tested once here too. */
static uint64_t plain_list(const struct session *session)
{
    if (!engine_fits(&plain))
        return ENGINE_STUCK;
    for (size_t index = 0; index < session->turns; index++)
        words[index] = (uint8_t)engine_turn_unchecked(&plain, session->tickets[index]);
    return words[session->turns - 1];
}

static uint64_t proved_empty_list(const struct session *session)
{
    return garvolish_take_turns(&proved, session->tickets, 0, words, 0);
}

static uint64_t plain_empty_list(const struct session *session)
{
    (void)session;
    return engine_fits(&plain) ? 0 : ENGINE_STUCK;
}

static uint64_t proved_settle(const struct session *session)
{
    (void)session;
    return garvolish_finals(garvolish_settled(&proved, table, ENGINE_CELLS)) + table[0];
}

static uint64_t plain_settle(const struct session *session)
{
    (void)session;
    return engine_settled(&plain, table) + table[0];
}

static uint64_t proved_finish(const struct session *session)
{
    return proved_open(session) + proved_list(session);
}

static uint64_t plain_finish(const struct session *session)
{
    return plain_open(session) + plain_list(session);
}

static uint64_t proved_by_turns(const struct session *session)
{
    return proved_open(session) + proved_turns(session) + proved_settle(session);
}

static uint64_t plain_by_turns(const struct session *session)
{
    return plain_open(session) + plain_turns(session) + plain_settle(session);
}

static uint64_t proved_by_list(const struct session *session)
{
    return proved_finish(session) + proved_settle(session);
}

static uint64_t plain_by_list(const struct session *session)
{
    return plain_finish(session) + plain_settle(session);
}

static uint64_t proved_by_value(const struct session *session)
{
    return garvolish_by_value(session->start, ENGINE_CELLS, session->paper, session->length,
                              session->tickets, session->turns, words, session->turns) +
           words[session->turns - 1];
}

/* The sizes are tested for each turn, as they are by value. */
static uint64_t plain_by_value(const struct session *session)
{
    plain_open(session);
    for (size_t index = 0; index < session->turns; index++)
        words[index] = (uint8_t)engine_turn(&plain, session->tickets[index]);
    return words[session->turns - 1];
}

/* The empty statement might read the copy, so that every copy is made. */
static uint64_t copy_block(const struct session *session)
{
    (void)session;
    memcpy(&copied, &proved, sizeof copied);
    __asm__ volatile("" : : "r"(&copied) : "memory");
    return 0;
}

static void demand(bool holds, const struct form *form, const char *fault)
{
    if (holds)
        return;
    fprintf(stderr, "bench: %s, with %u jobs of %u instructions\n", fault, form->jobs,
            form->instructions);
    exit(1);
}

/* Turn by turn on both sides; the words are given out, for the lists must give them again. */
static void check_turns(const struct form *form, const struct session *session, uint8_t *given)
{
    demand(proved_open(session) == 0, form, "a paper is refused");
    plain_open(session);
    for (size_t index = 0; index < session->turns; index++) {
        uint32_t word = garvolish_turn(&proved, session->tickets[index]);
        demand(word < WORDS, form, "a turn is refused");
        demand(word == engine_turn(&plain, session->tickets[index]), form, "two words differ");
        given[index] = (uint8_t)word;
    }
}

static void check_settled(const struct form *form, const uint64_t *serial)
{
    uint64_t plain_table[ENGINE_CELLS];
    uint32_t answer = garvolish_settled(&proved, table, ENGINE_CELLS);
    demand(garvolish_number(answer) == 0 && garvolish_finals(answer) == form->jobs &&
               engine_settled(&plain, plain_table) == form->jobs,
           form, "a block is not done");
    demand(memcmp(table, plain_table, sizeof table) == 0, form, "two settled tables differ");
    demand(memcmp(table, serial, sizeof table) == 0, form, "a settled table is not the serial one");
}

static void check_session(struct form *form, const struct session *session)
{
    uint8_t given[MOST_TURNS];
    uint64_t serial[ENGINE_CELLS];
    uint32_t answer = garvolish_run_serially(session->start, ENGINE_CELLS, serial, ENGINE_CELLS,
                                             session->paper, session->length);
    demand(answer == 0, form, "a serial run is refused");
    check_turns(form, session, given);
    check_settled(form, serial);
    plain_finish(session);
    demand(memcmp(words, given, session->turns) == 0, form, "the words of a plain list differ");
    memset(words, GARVOLISH_REFUSED_TURN, sizeof words);
    proved_finish(session);
    demand(memcmp(words, given, session->turns) == 0, form, "the words of a proved list differ");
    check_settled(form, serial);
    memset(words, GARVOLISH_REFUSED_TURN, sizeof words);
    proved_by_value(session);
    demand(memcmp(words, given, session->turns) == 0, form, "the words of turns by value differ");
    for (size_t index = 0; index < session->turns; index++)
        form->words[given[index]]++;
    form->turns += (double)session->turns / SESSIONS;
}

static void make_and_check_all(void)
{
    for (unsigned index = 0; index < FORMS * SESSIONS; index++) {
        struct form *form = &forms[index / SESSIONS];
        struct session *session = &form->sessions[index % SESSIONS];
        make_session(session, form->jobs, form->instructions, (uint64_t)SEED << 32 | index);
        check_session(form, session);
    }
}

static double now(void)
{
    struct timespec time;
    clock_gettime(CLOCK_MONOTONIC, &time);
    return (double)time.tv_sec * 1e9 + (double)time.tv_nsec;
}

/* The least time between two readings of the clock; it is part of whatever is timed. */
static double least_clock_time(void)
{
    double least = 1e18;
    for (unsigned repeat = 0; repeat < MANY; repeat++) {
        double from = now(), time = now() - from;
        least = time < least ? time : least;
    }
    return least;
}

static const struct work works[WORKS] = {
    [TURNS] = {{proved_open, proved_turns}, {plain_open, plain_turns}, 1},
    [LIST] = {{proved_open, proved_list}, {plain_open, plain_list}, 1},
    [EMPTY_LIST] = {{proved_open, proved_empty_list}, {plain_open, plain_empty_list}, MANY},
    [OPENING] = {{proved_open, proved_open}, {plain_open, plain_open}, MANY},
    [SETTLED] = {{proved_finish, proved_settle}, {plain_finish, plain_settle}, MANY},
    [BY_TURNS] = {{proved_open, proved_by_turns}, {plain_open, plain_by_turns}, 1},
    [BY_LIST] = {{proved_open, proved_by_list}, {plain_open, plain_by_list}, 1},
    [BY_VALUE] = {{proved_open, proved_by_value}, {plain_open, plain_by_value}, 1},
    [COPY] = {{proved_open, copy_block}, {proved_open, copy_block}, MANY},
};

/* A best of 0 is none yet. */
static void run_side(const struct side *side, const struct session *session, unsigned rounds,
                     uint64_t *sum, double *best)
{
    side->before(session);
    double from = now();
    for (unsigned round = 0; round < rounds; round++)
        *sum += side->timed(session);
    double time = (now() - from - clock_time) / rounds;
    if (*best == 0 || time < *best)
        *best = time;
}

static void run_form(struct form *form, unsigned count)
{
    for (unsigned work = 0; work < count; work++)
        for (unsigned index = 0; index < SESSIONS; index++) {
            const struct session *session = &form->sessions[index];
            struct times *best = &form->best[work][index];
            unsigned rounds = works[work].rounds;
            run_side(&works[work].proved, session, rounds, &sums.proved, &best->proved);
            run_side(&works[work].plain, session, rounds, &sums.plain, &best->plain);
        }
}

/* A disturbance of the machine meets both sides, and not all repeats of one work. */
static void run_all(void)
{
    for (unsigned repeat = 0; repeat < REPEATS; repeat++)
        for (unsigned form = 0; form < FORMS; form++)
            run_form(&forms[form], form == FULL ? WORKS : GROWING);
}

/* The best times of a work, as a mean over the sessions, divided by `parts`. */
static struct times mean(const struct form *form, unsigned work, double parts)
{
    struct times mean = {0, 0};
    for (unsigned index = 0; index < SESSIONS; index++) {
        mean.proved += form->best[work][index].proved / SESSIONS / parts;
        mean.plain += form->best[work][index].plain / SESSIONS / parts;
    }
    return mean;
}

/* Small numbers have a decimal. */
static void print_times(struct times times)
{
    printf(" %10.*f %10.*f %7.1f", times.proved < 100, times.proved, times.plain < 100,
           times.plain, times.proved / times.plain);
}

static void print_row(const char *name, unsigned work, double parts)
{
    struct times times = mean(&forms[FULL], work, parts);
    double copies = times.proved / mean(&forms[FULL], COPY, 1).proved;
    printf("%-44s", name);
    print_times(times);
    printf(" %9.*f\n", copies < 100, copies);
}

static void print_rows(void)
{
    printf("%-44s %10s %10s %7s %9s\n", "", "proved", "plain C", "ratio", "in copies");
    print_row("a turn, sizes tested each time", TURNS, forms[FULL].turns);
    print_row("a turn by value, sizes tested each time", BY_VALUE, forms[FULL].turns);
    print_row("a turn of a list, sizes tested once", LIST, forms[FULL].turns);
    print_row("an empty list (plain C: the test of sizes)", EMPTY_LIST, 1);
    print_row("an opening (plain C checks no paper)", OPENING, 1);
    print_row("a settled table, all jobs final", SETTLED, 1);
    print_row("a session, turn by turn", BY_TURNS, 1);
    print_row("a session, its turns as a list", BY_LIST, 1);
}

/* What an empty list takes is no part of a turn. */
static void print_growth(void)
{
    puts("\nHow a turn grows with the jobs, and with the instructions of a job; in ns.\n");
    puts("              turns in   a turn, sizes tested each time  a turn of a list, less what");
    puts("              a session                                  an empty list takes");
    puts("jobs  instr.                 proved    plain C   ratio     proved    plain C   ratio");
    for (const struct form *form = forms; form < forms + FORMS; form++) {
        struct times list = mean(form, LIST, form->turns);
        struct times empty = mean(form, EMPTY_LIST, form->turns);
        printf("%4u %7u %10.0f ", form->jobs, form->instructions, form->turns);
        print_times(mean(form, TURNS, form->turns));
        print_times((struct times){list.proved - empty.proved, list.plain - empty.plain});
        putchar('\n');
    }
}

static void print_head(void)
{
    static const char *const names[WORDS] = {"idle", "back", "step", "end", "final", "wait"};
    const struct form *full = &forms[FULL];
    printf("Times in ns: the best of %d, as a mean over %d sessions ", REPEATS, SESSIONS);
    printf("of %u jobs of %u instructions.\n", full->jobs, full->instructions);
    printf("One copy of the block (memcpy of %zu bytes) takes %.0f ns.\n", sizeof copied,
           mean(full, COPY, 1).proved);
    printf("The turns of these sessions:");
    for (unsigned word = 0; word < WORDS; word++)
        printf(" %u %s%s", full->words[word], names[word], word + 1 < WORDS ? "," : ".\n\n");
}

int main(void)
{
    make_and_check_all();
    clock_time = least_clock_time();
    run_all();
    if (sums.proved != sums.plain) {
        fputs("bench: the timed calls answered differently\n", stderr);
        return 1;
    }
    print_head();
    print_rows();
    print_growth();
    printf("\nAll answers of the timed calls add up to %llu on both sides.\n",
           (unsigned long long)sums.plain);
    return 0;
}
