/* Holds the header to the archive that is linked and to the version that is named, as C and as C++. Prints each refusal and
 * its meaning as a row of the README's table; says on standard error what does not hold. */
#include "garvolish.h"

#include <stdio.h>
#include <stdlib.h>
#include <string.h>

static int status = EXIT_SUCCESS;

static void demand(int holds, const char *what)
{
    if (!holds) {
        fprintf(stderr, "header_test: does not hold: %s\n", what);
        status = EXIT_FAILURE;
    }
}

static void test_version(const char *version)
{
    char numbers[32];
    snprintf(numbers, sizeof numbers, "%d.%d.%d", GARVOLISH_VERSION_MAJOR, GARVOLISH_VERSION_MINOR,
             GARVOLISH_VERSION_PATCH);
    demand(strcmp(numbers, version) == 0, "the header's numbers are the version");
    demand(strcmp(GARVOLISH_VERSION_STRING, version) == 0, "the header's string is the version");
    demand(garvolish_version() == GARVOLISH_VERSION, "the archive has the header's version");
}

static void test_layout(void)
{
    demand(GARVOLISH_LAYOUT_FUNCTION() == sizeof(struct garvolish_block), "the archive's block is as long as the header's");
}

/* Session S has every word; these are none. */
static void test_words(void)
{
    demand(strcmp(garvolish_word_name(GARVOLISH_REFUSED_TURN), "none") == 0, "a refused turn's byte is no word");
    demand(strcmp(garvolish_word_name(GARVOLISH_TICKET), "none") == 0, "refusal 14 is no word");
    demand(strcmp(garvolish_word_name(GARVOLISH_MISFIT), "none") == 0, "refusal 20 is no word");
    /* Its lowest byte alone would be a word. */
    demand(strcmp(garvolish_word_name(256 + GARVOLISH_STEP), "none") == 0, "a number above a byte is no word");
}

/* POP and STOP, which document 01 refuses by 9 at place 0. */
static void test_refusal(void)
{
    static struct garvolish_block block;
    static const uint64_t start[GARVOLISH_CELLS] = {0};
    static const uint8_t paper[] = {0x10, 18, 0, 3, 0, 0, 0, 0, 0, 0, 0, 0, 0, 0, 0, 0, 0, 0, 0, 0, 0};
    uint32_t answer = garvolish_open(&block, start, GARVOLISH_CELLS, paper, sizeof paper);
    demand(garvolish_number(answer) == GARVOLISH_ENTRIES, "POP finds no entry");
    demand(garvolish_field(answer) == 1 && garvolish_place(answer) == 0, "that is in job 1 at place 0");
    demand(!garvolish_is_word(garvolish_turn(&block, 1)), "a refused paper has no ticket 1");
}

/* A number without a meaning has the one of 0. */
static void print_meanings(void)
{
    for (unsigned number = 1; number <= UINT8_MAX; number++) {
        if (strcmp(garvolish_meaning(number), garvolish_meaning(0)) != 0) {
            printf("| %u | %s |\n", number, garvolish_meaning(number));
        }
    }
}

int main(int count, char **words)
{
    if (count != 2) {
        fprintf(stderr, "usage: header_test VERSION\n");
        return 2;
    }
    test_version(words[1]);
    test_layout();
    test_words();
    test_refusal();
    print_meanings();
    return status;
}
