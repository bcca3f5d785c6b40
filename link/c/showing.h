/*
 * What the programs that show a message to a person share.
 *
 * An accepted message is a tree with a line for each item: its row, which other programs are asked by, then its kind and value, a
 * member of a Struct or of either dict behind its key. A text has at most TEXT_SHOWN bytes and a Binary BINARY_SHOWN, and what is cut is
 * counted. A refusal is its number, its place and its words, with the bytes around the place and a mark under it. Nothing is printed but
 * ASCII and line ends: what a terminal might obey is escaped (print_escaped), or a point among the bytes.
 */
#ifndef SHOWING_H
#define SHOWING_H

#include "common.h"

#define TEXT_SHOWN 240
#define BINARY_SHOWN 32

/* The lines of bytes around a place: so many bytes in each, and so many lines before and after. */
#define LINE_BYTES 16
#define LINES_BEFORE 2
#define LINES_AFTER 1

/* A text in quotes, cut between two characters. */
static inline void show_text(const uint8_t *text, size_t length)
{
    size_t shown = 0;
    while (shown < length && shown < TEXT_SHOWN) {
        uint32_t code;
        size_t size = first_character(text + shown, length - shown, &code);
        shown += size == 0 ? 1 : size;
    }
    print_quoted(text, shown);
    if (shown < length)
        printf(" .. %zu bytes in all", length);
}

static inline void show_binary(const uint8_t *bytes, size_t length)
{
    printf("%zu bytes", length);
    for (size_t i = 0; i < length && i < BINARY_SHOWN; i++)
        printf("%s%02x", i == 0 ? ": " : " ", bytes[i]);
    if (BINARY_SHOWN < length)
        fputs(" ..", stdout);
}

static inline void show_content(const struct binmode_view *view, size_t row)
{
    size_t length;
    const uint8_t *content = binmode_bytes(binmode_content(view, row, &length));
    switch (binmode_row_at(view, row).kind) {
    case BINMODE_KIND_STRING:
        show_text(content, length);
        break;
    case BINMODE_KIND_BINARY:
        show_binary(content, length);
        break;
    default: /* a Double or a DateTime */
        print_escaped(stdout, content, length);
    }
}

/* What stands behind an item's kind. */
static inline void show_value(const struct binmode_view *view, size_t row)
{
    struct binmode_row words = binmode_row_at(view, row);
    switch (words.kind) {
    case BINMODE_KIND_INTEGER:
        printf(" %d", (int)binmode_integer(view, row));
        break;
    case BINMODE_KIND_BOOLEAN:
        printf(" %s", words.a == 0 ? "false" : "true");
        break;
    case BINMODE_KIND_ARRAY:
    case BINMODE_KIND_STRUCT:
    case BINMODE_KIND_ORDERED_DICT:
        printf(" of %u", (unsigned)words.b);
        break;
    case BINMODE_KIND_CALL:
    case BINMODE_KIND_EXTENSION:
        fputs(" of ", stdout);
        show_content(view, row + 1);
        break;
    case BINMODE_KIND_OTHER:
        putchar(' ');
        show_content(view, row + 1);
        fputs(", ", stdout);
        show_content(view, row + 2);
        break;
    case BINMODE_KIND_RESPONSE:
    case BINMODE_KIND_FAULT:
    case BINMODE_KIND_NIL:
    case BINMODE_KIND_NODE:
        break;
    default: /* one with content */
        putchar(' ');
        show_content(view, row);
    }
}

/* The first child that has a line of its own: a Call's method, an extension's name and what an Other holds stand in their parent's. */
static inline size_t first_shown(const struct binmode_view *view, size_t row)
{
    size_t child = binmode_first_child(view, row);
    switch (binmode_row_at(view, row).kind) {
    case BINMODE_KIND_CALL:
    case BINMODE_KIND_EXTENSION:
        return binmode_next_sibling(view, row, child);
    case BINMODE_KIND_OTHER:
        return 0;
    default:
        return child;
    }
}

/* An item and what it holds. A member's key, if it has one, is the row before it. The reader has bounded the nesting. */
static inline void show_item(const struct binmode_view *view, size_t row, unsigned depth, int is_member)
{
    printf("%5zu  %*s", row, (int)(2 * depth), "");
    if (is_member) {
        show_content(view, row - 1);
        fputs(": ", stdout);
    }
    uint32_t kind = binmode_row_at(view, row).kind;
    fputs(binmode_kind_name(kind), stdout);
    show_value(view, row);
    putchar('\n');
    int holds_members = kind == BINMODE_KIND_STRUCT || kind == BINMODE_KIND_ORDERED_DICT;
    size_t child = first_shown(view, row);
    while (child != 0) {
        if (holds_members)
            child = binmode_next_sibling(view, row, child);
        show_item(view, child, depth + 1, holds_members);
        child = binmode_next_sibling(view, row, child);
    }
}

/* Bytes from a line's start on, in hexadecimal and as characters; a point for what is not printable. */
static inline void show_line(const uint8_t *bytes, size_t length, size_t from)
{
    printf("%8zu ", from);
    for (size_t at = from; at < from + LINE_BYTES; at++) {
        if (at < length)
            printf(" %02x", bytes[at]);
        else
            fputs("   ", stdout);
    }
    fputs("  ", stdout);
    for (size_t at = from; at < from + LINE_BYTES && at < length; at++)
        putchar(0x20 <= bytes[at] && bytes[at] <= 0x7e ? bytes[at] : '.');
    putchar('\n');
}

/* A mark under the place, in both columns. */
static inline void show_mark(size_t column)
{
    printf("%*s^^%*s^\n", (int)(10 + 3 * column), "", (int)(3 * LINE_BYTES - 1 - 2 * column), "");
}

/* The bytes around a place, which may be the end of them. */
static inline void show_around(const uint8_t *bytes, size_t length, size_t place)
{
    size_t line = place / LINE_BYTES;
    size_t first = line < LINES_BEFORE ? 0 : line - LINES_BEFORE;
    for (size_t n = first; n <= line + LINES_AFTER; n++) {
        if (n <= line || n * LINE_BYTES < length)
            show_line(bytes, length, n * LINE_BYTES);
        if (n == line)
            show_mark(place % LINE_BYTES);
    }
}

static inline int show_refusal(const uint8_t *bytes, size_t length, uint8_t number, size_t place)
{
    printf("refused %u at %zu: %s\n", (unsigned)number, place, binmode_answer_words(number));
    show_around(bytes, length, place);
    return REFUSED;
}

/* A message that was read, in so many bytes of all that there are; what may follow them is counted. */
static inline int show_read(const struct binmode_view *view, size_t length, const char *behind)
{
    printf("accepted: %zu rows, %zu bytes", view->rows, view->text_len);
    if (view->text_len < length)
        printf(", and %zu behind them%s", length - view->text_len, behind);
    putchar('\n');
    show_item(view, 0, 0, 0);
    return FINE;
}

#endif
