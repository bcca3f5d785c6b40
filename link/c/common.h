/*
 * What the programs of this folder share: reading a file, words that are numbers, printing that no terminal obeys, and how a
 * program ends. Each is compiled from the repository's root by
 *     cc -O2 -I link link/c/NAME.c target/staticlib/libbinmode.a -o target/NAME
 */
#ifndef COMMON_H
#define COMMON_H

#include "binmode.h"
#include <errno.h>
#include <stdio.h>
#include <stdlib.h>
#include <string.h>

/* How a program ends. */
enum { FINE = 0, REFUSED = 1, TROUBLE = 2 };

/* Most bytes that are read of a message, since one over the limit is enough to have it refused; and of a job file. */
#define MESSAGE_BYTES ((size_t)BINMODE_MOST_BYTES + 1)
#define FILE_BYTES ((size_t)1 << 30)

/*
 * The character that some bytes begin with, if they are UTF-8: its code and how many bytes it has, or 0 if they are not. There is at
 * least one byte.
 */
static inline size_t first_character(const uint8_t *text, size_t length, uint32_t *code)
{
    size_t size = text[0] < 0x80 ? 1 : text[0] < 0xc2 ? 0 : text[0] < 0xe0 ? 2 : text[0] < 0xf0 ? 3 : text[0] < 0xf5 ? 4 : 0;
    if (size == 0 || length < size)
        return 0;
    *code = size == 1 ? text[0] : text[0] & (0x7fu >> size);
    for (size_t i = 1; i < size; i++) {
        if ((text[i] & 0xc0) != 0x80)
            return 0;
        *code = *code << 6 | (text[i] & 0x3fu);
    }
    if (size == 3 && (*code < 0x800 || (0xd800 <= *code && *code < 0xe000)))
        return 0;
    if (size == 4 && (*code < 0x10000 || 0x10ffff < *code))
        return 0;
    return size;
}

/*
 * Prints text in ASCII without control characters, whatever bytes it has: a quote and a backslash behind a backslash, \n, \r, \t, any
 * other character as \u{CODE}, and a byte that is no UTF-8 as \xHH.
 */
static inline void print_escaped(FILE *to, const uint8_t *text, size_t length)
{
    for (size_t at = 0; at < length;) {
        uint32_t code = 0;
        size_t size = first_character(text + at, length - at, &code);
        if (size == 0)
            fprintf(to, "\\x%02x", text[at]);
        else if (code == '"' || code == '\\')
            fprintf(to, "\\%c", (char)code);
        else if (code == '\n' || code == '\r' || code == '\t')
            fputs(code == '\n' ? "\\n" : code == '\r' ? "\\r" : "\\t", to);
        else if (code < 0x20 || 0x7e < code)
            fprintf(to, "\\u{%x}", (unsigned)code);
        else
            putc((int)code, to);
        at += size == 0 ? 1 : size;
    }
}

static inline void print_quoted(const uint8_t *text, size_t length)
{
    putchar('"');
    print_escaped(stdout, text, length);
    putchar('"');
}

/* `refused N at P` */
static inline int print_refusal(size_t number, size_t place)
{
    printf("refused %zu at %zu\n", number, place);
    return REFUSED;
}

/* The same where standard output is for a message alone. */
static inline int complain_refusal(size_t number, size_t place)
{
    fprintf(stderr, "refused %zu at %zu\n", number, place);
    return REFUSED;
}

/* A line for each row: its number, kind, a, b and end. */
static inline void print_rows(const struct binmode_view *view)
{
    for (size_t row = 0; row < view->rows; row++) {
        struct binmode_row words = binmode_row_at(view, row);
        printf("%zu %u %u %u %u\n", row, (unsigned)words.kind, (unsigned)words.a, (unsigned)words.b, (unsigned)words.end);
    }
}

/*
 * Reads a message, or of a job file the card of a number, into a table of BINMODE_TABLE_WORDS words, nested as deep as may be: FINE, and
 * what is to be looked at; or REFUSED, which is printed.
 */
static inline int load(const uint8_t *file, size_t length, const size_t *card, uint32_t *table, struct binmode_view *view)
{
    size_t rows, used, place, body = 0;
    uint8_t number = card == NULL
                         ? binmode_read_within(file, length, table, BINMODE_TABLE_WORDS, BINMODE_MOST_NESTING, &rows, &used, &place)
                         : binmode_read_card(file, length, *card, table, BINMODE_TABLE_WORDS, &rows, &used, &place, &body);
    if (number != BINMODE_ACCEPTED)
        return print_refusal(number, place);
    view->table = table;
    view->table_words = BINMODE_TABLE_WORDS;
    view->rows = rows;
    view->text = file + body;
    view->text_len = used;
    return FINE;
}

/* Says what went wrong with a file, by errno. */
static inline int trouble(const char *name)
{
    int error = errno;
    print_escaped(stderr, (const uint8_t *)name, strlen(name));
    fprintf(stderr, ": %s\n", strerror(error));
    return TROUBLE;
}

/* Whether the command's one word asks how the program is used; then that is told. */
static inline int has_helped(const char *usage, int count, char **words)
{
    if (count != 2 || strcmp(words[1], "--help") != 0)
        return 0;
    fputs(usage, stdout);
    return 1;
}

/* Sees to it that standard output has taken all, and gives the status to end with. */
static inline int finish(int status)
{
    if (fflush(stdout) == 0 && !ferror(stdout))
        return status;
    return trouble("standard output");
}

/* What an open file has, up to so many bytes; NULL on trouble. */
static inline uint8_t *read_open(FILE *file, size_t most, size_t *length)
{
    uint8_t *bytes = NULL;
    size_t room = 0;
    *length = 0;
    do {
        room = most - room < room + 65536 ? most : 2 * room + 65536;
        uint8_t *more = (uint8_t *)realloc(bytes, room);
        if (more == NULL) {
            free(bytes);
            return NULL;
        }
        bytes = more;
        *length += fread(bytes + *length, 1, room - *length, file);
    } while (*length == room && room < most);
    if (!ferror(file))
        return bytes;
    free(bytes);
    return NULL;
}

/* What the file of a name has, or standard input if that is NULL, up to so many bytes; NULL on trouble, which is said. */
static inline uint8_t *read_input(const char *name, size_t most, size_t *length)
{
    FILE *file = name == NULL ? stdin : fopen(name, "rb");
    uint8_t *bytes = file == NULL ? NULL : read_open(file, most, length);
    if (bytes == NULL)
        trouble(name == NULL ? "standard input" : name);
    if (file != NULL && file != stdin)
        fclose(file);
    return bytes;
}

/* What a job file has; NULL on trouble, which is said. */
static inline uint8_t *read_job(const char *name, size_t *length)
{
    uint8_t *bytes = read_input(name, FILE_BYTES + 1, length);
    if (bytes == NULL || *length <= FILE_BYTES)
        return bytes;
    free(bytes);
    errno = EFBIG;
    trouble(name);
    return NULL;
}

/* A word of digits alone that size_t holds. */
static inline int parse(const char *word, size_t *number)
{
    if (*word == '\0')
        return 0;
    *number = 0;
    for (; *word != '\0'; word++) {
        if (*word < '0' || *word > '9')
            return 0;
        size_t digit = (size_t)(*word - '0');
        if (*number > (SIZE_MAX - digit) / 10)
            return 0;
        *number = 10 * *number + digit;
    }
    return 1;
}

#endif
