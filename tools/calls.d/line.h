/* One line of a script: its words and what they say. A line that is no call ends the program with status 2. */
#ifndef CALLS_LINE_H
#define CALLS_LINE_H

#include <stddef.h>
#include <stdint.h>

/* The longest call is `alter checkpoint` with its six values. */
enum { MOST_WORDS = 8 };

/* At most so many cells or bytes are lent, so that a line cannot ask for all the memory there is. */
enum { MOST_LENT = 1 << 20 };

/* A line with more words than any call has says so by its count alone. */
struct line {
    const char *words[MOST_WORDS];
    size_t count;
};

/* Reads up to the next line that is neither empty nor a comment, and says whether there was one. */
int next_line(struct line *line);

/* Ends the program: tells the line's number and what was expected. The answers before it stand. */
_Noreturn void no_call(const char *expected, ...);

/* Whether a form such as `turn T` begins with this word, and how many words it has. */
int has_name(const char *form, const char *name);
size_t words_of(const char *form);

/* The number that a word is, up to `most`. */
uint64_t number_in(const char *word, uint64_t most);

/* The bytes that a word is, two hex digits each: how many, and then where `to` points. */
size_t bytes_in(const char *word);
void put_bytes(const char *word, uint8_t *to);

/* Puts the cells that a word names into a table of zeros. */
void put_cells(const char *word, uint64_t *table, size_t cells);

/* Prints bytes, and the cells of a table that are not 0, as an answer has them. */
void print_bytes(const uint8_t *bytes, size_t count);
void print_cells(const uint64_t *table, size_t cells);

#endif
