#define _POSIX_C_SOURCE 200809L /* getline */

#include "line.h"

#include <inttypes.h>
#include <stdarg.h>
#include <stdio.h>
#include <stdlib.h>
#include <string.h>

/* The word for no bytes and for no cells. */
static const char nothing[] = "-";

/* Counted over all lines, from 1. */
static unsigned long line_number;

_Noreturn void no_call(const char *expected, ...)
{
    va_list values;
    va_start(values, expected);
    fflush(stdout);
    fprintf(stderr, "tools/calls: line %lu: expected ", line_number);
    vfprintf(stderr, expected, values);
    fputc('\n', stderr);
    va_end(values);
    exit(2);
}

/* Parts a line at every single space, in place. */
static void part(char *text, struct line *line)
{
    line->count = 0;
    for (char *word = text; word != NULL; line->count++) {
        char *space = strchr(word, ' ');
        if (space != NULL) {
            *space++ = '\0';
        }
        if (line->count < MOST_WORDS) {
            line->words[line->count] = word;
        }
        word = space;
    }
}

int next_line(struct line *line)
{
    static char *text;
    static size_t room;
    for (;;) {
        ssize_t length = getline(&text, &room, stdin);
        if (length < 0) {
            return 0;
        }
        line_number++;
        if (text[length - 1] == '\n') {
            text[--length] = '\0';
        }
        if (length != 0 && text[0] != '#') {
            if (strlen(text) != (size_t)length) {
                no_call("text without a NUL byte");
            }
            part(text, line);
            return 1;
        }
    }
}

int has_name(const char *form, const char *name)
{
    size_t length = strcspn(form, " ");
    return strlen(name) == length && strncmp(form, name, length) == 0;
}

size_t words_of(const char *form)
{
    size_t words = 1;
    for (; *form != '\0'; form++) {
        words += *form == ' ';
    }
    return words;
}

/* Reads digits and answers where they end. */
static const char *read_number(const char *text, uint64_t most, uint64_t *number)
{
    const char *digit = text;
    for (*number = 0; *digit >= '0' && *digit <= '9'; digit++) {
        uint64_t value = (uint64_t)(*digit - '0');
        if (value > most || *number > (most - value) / 10) {
            no_call("a number from 0 to %" PRIu64 " where `%s` begins", most, text);
        }
        *number = *number * 10 + value;
    }
    if (digit == text) {
        no_call("a number from 0 to %" PRIu64 " where `%s` stands", most, text);
    }
    return digit;
}

uint64_t number_in(const char *word, uint64_t most)
{
    uint64_t number;
    if (*read_number(word, most, &number) != '\0') {
        no_call("a number from 0 to %" PRIu64 ", and not `%s`", most, word);
    }
    return number;
}

size_t bytes_in(const char *word)
{
    static const char digits[] = "0123456789abcdefABCDEF";
    size_t length = strlen(word);
    if (strcmp(word, nothing) == 0) {
        return 0;
    }
    if (length == 0 || length % 2 != 0 || strspn(word, digits) != length) {
        no_call("bytes of two hex digits, or `-` for none, and not `%s`", word);
    }
    return length / 2;
}

static unsigned hex_digit(char digit)
{
    /* The small letters stand 32 past the capitals. */
    return digit <= '9' ? (unsigned)(digit - '0') : (unsigned)((digit | 32) - 'a') + 10;
}

void put_bytes(const char *word, uint8_t *to)
{
    size_t count = bytes_in(word);
    for (size_t byte = 0; byte < count; byte++) {
        to[byte] = (uint8_t)(16 * hex_digit(word[2 * byte]) + hex_digit(word[2 * byte + 1]));
    }
}

void put_cells(const char *word, uint64_t *table, size_t cells)
{
    uint64_t cell, least = 0;
    memset(table, 0, cells * sizeof *table);
    if (strcmp(word, nothing) == 0) {
        return;
    }
    for (;; word++) {
        if (least >= cells) {
            no_call("no further cell of %zu where `%s` stands", cells, word);
        }
        word = read_number(word, cells - 1, &cell);
        if (cell < least || *word != '=') {
            no_call("`cell=value,..` with cells that rise, before `%s`", word);
        }
        word = read_number(word + 1, UINT64_MAX, &table[cell]);
        least = cell + 1;
        if (*word == '\0') {
            return;
        }
        if (*word != ',') {
            no_call("a comma or the end where `%s` stands", word);
        }
    }
}

void print_bytes(const uint8_t *bytes, size_t count)
{
    if (count == 0) {
        fputs(nothing, stdout);
    }
    for (size_t byte = 0; byte < count; byte++) {
        printf("%02x", bytes[byte]);
    }
}

void print_cells(const uint64_t *table, size_t cells)
{
    const char *parting = "";
    for (size_t cell = 0; cell < cells; cell++) {
        if (table[cell] != 0) {
            printf("%s%zu=%" PRIu64, parting, cell, table[cell]);
            parting = ",";
        }
    }
    if (*parting == '\0') {
        fputs(nothing, stdout);
    }
}
