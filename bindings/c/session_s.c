/* Session S of document 01, played from C by calling the library: prints what ./play prints for it. */
#include "garvolish.h"

#include <inttypes.h>
#include <stdio.h>
#include <stdlib.h>

enum { JOB_TAG = 0x10, HEAD_BYTES = 3, INSTRUCTION_BYTES = 9, OPERAND_BYTES = 8 };

struct instruction {
    uint8_t code;
    uint64_t operand;
};

/* Writes 7 to cell 5. */
static const struct instruction job_1[] = {
    {GARVOLISH_PUSH, 7},
    {GARVOLISH_PUSH, 5},
    {GARVOLISH_WRITE, 0},
    {GARVOLISH_STOP, 0},
};

/* Copies cell 5 to cell 6. */
static const struct instruction job_2[] = {
    {GARVOLISH_PUSH, 5},
    {GARVOLISH_READ, 0},
    {GARVOLISH_PUSH, 6},
    {GARVOLISH_WRITE, 0},
    {GARVOLISH_STOP, 0},
};

enum { SIZE_1 = sizeof job_1 / sizeof job_1[0], SIZE_2 = sizeof job_2 / sizeof job_2[0] };

static const uint8_t tickets[] = {2, 2, 1, 1, 1, 1, 2, 2, 2, 2, 2, 2, 1, 2, 2, 3};

/* Puts a job's field where `to` points and answers where the next field begins. */
static uint8_t *put_job(uint8_t *to, const struct instruction *job, size_t size)
{
    size_t length = size * INSTRUCTION_BYTES;
    *to++ = JOB_TAG;
    *to++ = (uint8_t)length;
    *to++ = (uint8_t)(length >> 8);
    for (size_t place = 0; place < size; place++) {
        *to++ = job[place].code;
        /* The low byte stands first. */
        for (int byte = 0; byte < OPERAND_BYTES; byte++) {
            *to++ = (uint8_t)(job[place].operand >> (8 * byte));
        }
    }
    return to;
}

/* Opens the two jobs on a table whose cell 5 is 3. */
static uint32_t open_block(struct garvolish_block *block)
{
    static const uint64_t start[GARVOLISH_CELLS] = {[5] = 3};
    uint8_t paper[2 * HEAD_BYTES + (SIZE_1 + SIZE_2) * INSTRUCTION_BYTES];
    uint8_t *end = put_job(put_job(paper, job_1, SIZE_1), job_2, SIZE_2);
    return garvolish_open(block, start, GARVOLISH_CELLS, paper, (size_t)(end - paper));
}

/* Gives each ticket its turn, and prints the ticket, the word and f after it. */
static void print_turns(struct garvolish_block *block)
{
    unsigned f = 0;
    for (size_t turn = 0; turn < sizeof tickets; turn++) {
        uint32_t answer = garvolish_turn(block, tickets[turn]);
        /* f is the number of final jobs, and a job becomes final by one turn. */
        f += answer == GARVOLISH_FINAL;
        printf("%u %s %u\n", (unsigned)tickets[turn], garvolish_word_name(answer), f);
    }
}

/* Prints the settled cells that are not 0: none if the table was refused, for it is then left all zero. */
static uint32_t print_settled(const struct garvolish_block *block)
{
    static uint64_t table[GARVOLISH_CELLS];
    uint32_t answer = garvolish_settled(block, table, GARVOLISH_CELLS);
    for (int cell = 0; cell < GARVOLISH_CELLS; cell++) {
        if (table[cell] != 0) {
            printf("cell %d %" PRIu64 "\n", cell, table[cell]);
        }
    }
    return answer;
}

/* Says whether the answer of an opening or of a settled table is a refusal, and on standard error what it means. */
static int is_refused(const char *what, uint32_t answer)
{
    unsigned number = garvolish_number(answer);
    if (number == 0) {
        return 0;
    }
    fprintf(stderr, "session_s: %s: refused %u", what, number);
    if (garvolish_field(answer) != 0) {
        fprintf(stderr, ", job %u, place %u", garvolish_field(answer), garvolish_place(answer));
    }
    fprintf(stderr, ": %s\n", garvolish_meaning(number));
    return 1;
}

int main(void)
{
    /* Large for some stacks, so it stands outside of this one. */
    static struct garvolish_block block;
    if (is_refused("the opening", open_block(&block))) {
        return EXIT_FAILURE;
    }
    print_turns(&block);
    if (is_refused("the settled table", print_settled(&block))) {
        return EXIT_FAILURE;
    }
    return fflush(stdout) == 0 ? EXIT_SUCCESS : EXIT_FAILURE;
}
