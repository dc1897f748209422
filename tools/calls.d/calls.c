/* Plays calls as text through include/garvolish.h: one call a line, one line of answer a call. */
#include "alter.h"
#include "garvolish.h"
#include "lent.h"
#include "line.h"

#include <stdio.h>
#include <stdlib.h>

/* What is lent. The block in work stays lent from one opening to the next. */
static struct lent block_lent, start_lent, output_lent, paper_lent, list_lent, words_lent;

static struct garvolish_block *block;

/* The number of final jobs, wherever they stand: a status of 2 or more is final. */
static unsigned final_jobs(void)
{
    unsigned finals = 0, jobs = jobs_held();
    for (unsigned job = 0; job < jobs; job++) {
        finals += block->status[job] >= 2;
    }
    return finals;
}

/* A table of as many cells as one word says, with those that another names, for the library to read. */
static const uint64_t *lend_table(const char *length, const char *cells, size_t *count)
{
    *count = (size_t)number_in(length, MOST_LENT);
    uint64_t *table = lend(&start_lent, *count * sizeof *table);
    put_cells(cells, table, *count);
    keep(&start_lent);
    return table;
}

/* A table of as many cells as a word says, for the library to write. */
static uint64_t *lend_output(const char *length, size_t *count)
{
    *count = (size_t)number_in(length, MOST_LENT);
    uint64_t *table = lend(&output_lent, *count * sizeof *table);
    keep(&output_lent);
    return table;
}

/* The bytes that a word says, for the library to read. */
static const uint8_t *lend_bytes(struct lent *area, const char *word, size_t *count)
{
    *count = bytes_in(word);
    uint8_t *bytes = lend(area, *count);
    put_bytes(word, bytes);
    keep(area);
    return bytes;
}

/* A refusal leaves what was lent as it was; else it is written, and nothing past it. */
static void must_be_right(const struct lent *area, int refused)
{
    if (refused) {
        must_be_kept(area);
    } else {
        must_be_within(area);
    }
}

static void print_refusal(const char *call, uint32_t answer)
{
    printf("%s %u %u %u", call, garvolish_number(answer), garvolish_field(answer), garvolish_place(answer));
}

static void call_open(const char *const *words)
{
    size_t cells, length;
    const uint64_t *start = lend_table(words[1], words[2], &cells);
    const uint8_t *paper = lend_bytes(&paper_lent, words[3], &length);
    block = lend(&block_lent, sizeof *block);
    keep(&block_lent);
    uint32_t answer = garvolish_open(block, start, cells, paper, length);
    must_be_kept(&start_lent);
    must_be_kept(&paper_lent);
    must_be_within(&block_lent);
    alter_from(block);
    print_refusal("open", answer);
    putchar('\n');
}

static void call_turn(const char *const *words)
{
    static const char *const names[] = {"idle", "back", "step", "end", "final", "wait"};
    uint8_t ticket = (uint8_t)number_in(words[1], UINT8_MAX);
    keep(&block_lent);
    uint32_t answer = garvolish_turn(block, ticket);
    int moved = garvolish_is_word(answer) && answer != GARVOLISH_IDLE && answer != GARVOLISH_WAIT;
    must_be_right(&block_lent, !moved);
    if (garvolish_is_word(answer)) {
        printf("turn %s - %u\n", names[answer], final_jobs());
    } else {
        printf("turn none%u - %u\n", (unsigned)answer, final_jobs());
    }
}

static void call_turns(const char *const *words)
{
    size_t count, bytes = (size_t)number_in(words[2], MOST_LENT);
    const uint8_t *tickets = lend_bytes(&list_lent, words[1], &count);
    uint8_t *turned = lend(&words_lent, bytes);
    keep(&words_lent);
    keep(&block_lent);
    uint32_t answer = garvolish_take_turns(block, tickets, count, turned, bytes);
    int refused = garvolish_number(answer) != 0;
    must_be_kept(&list_lent);
    must_be_right(&words_lent, refused);
    must_be_right(&block_lent, refused);
    printf("turns %u ", garvolish_number(answer));
    print_bytes(turned, refused ? 0 : bytes);
    printf(" - %u\n", final_jobs());
}

static void call_settled(const char *const *words)
{
    size_t cells;
    uint64_t *table = lend_output(words[1], &cells);
    keep(&block_lent);
    uint32_t answer = garvolish_settled(block, table, cells);
    int refused = garvolish_number(answer) != 0;
    must_be_kept(&block_lent);
    must_be_right(&output_lent, refused);
    printf("settled %u %u ", garvolish_number(answer), garvolish_finals(answer));
    print_cells(table, refused ? 0 : cells);
    putchar('\n');
}

static void call_serial(const char *const *words)
{
    size_t cells, output_cells, length;
    const uint64_t *start = lend_table(words[1], words[3], &cells);
    uint64_t *output = lend_output(words[2], &output_cells);
    const uint8_t *paper = lend_bytes(&paper_lent, words[4], &length);
    uint32_t answer = garvolish_run_serially(start, cells, output, output_cells, paper, length);
    int refused = garvolish_number(answer) != 0;
    must_be_kept(&start_lent);
    must_be_kept(&paper_lent);
    must_be_right(&output_lent, refused);
    print_refusal("serial", answer);
    putchar(' ');
    print_cells(output, refused ? 0 : output_cells);
    putchar('\n');
}

static const struct call {
    const char *form;
    void (*play)(const char *const *words);
} calls[] = {
    {"open N CELLS PAPER", call_open},
    {"turn T", call_turn},
    {"turns HEX LENGTH", call_turns},
    {"settled N", call_settled},
    {"serial N M CELLS PAPER", call_serial},
};

static void play(const struct line *line)
{
    for (size_t call = 0; call < sizeof calls / sizeof calls[0]; call++) {
        if (has_name(calls[call].form, line->words[0])) {
            if (line->count != words_of(calls[call].form)) {
                no_call("`%s`, parted by single spaces", calls[call].form);
            }
            calls[call].play(line->words);
            return;
        }
    }
    if (!has_name("alter", line->words[0])) {
        no_call("open, turn, turns, settled, serial or alter, and not `%s`", line->words[0]);
    }
    alter(line);
    puts("alter");
}

/* Before the first opening stands the block of a refused one: a table without cells is refused. */
static void refuse_opening(void)
{
    block = lend(&block_lent, sizeof *block);
    uint32_t answer = garvolish_open(block, lend(&start_lent, 0), 0, lend(&paper_lent, 0), 0);
    if (garvolish_number(answer) != GARVOLISH_TABLE) {
        fputs("tools/calls: the library opened a block on a table without cells\n", stderr);
        exit(2);
    }
    alter_from(block);
}

int main(void)
{
    struct line line;
    refuse_opening();
    while (next_line(&line)) {
        play(&line);
    }
    if (ferror(stdin) || fflush(stdout) != 0) {
        perror("tools/calls");
        return 2;
    }
    return EXIT_SUCCESS;
}
