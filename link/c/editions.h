/*
 * What the programs on messages of the second data house share: the edition that a word names, 1.0 for hyperglyph or 0.5 for glyph of the
 * old depot, and how such a program is called: NAME EDITION [FILE]. Objects may be nested 32 deep.
 */
#ifndef EDITIONS_H
#define EDITIONS_H

#include "common.h"

struct edition {
    const char *name;
    uint8_t (*read)(const uint8_t *, size_t, uint32_t *, size_t, size_t, size_t *, size_t *, size_t *);
    uint8_t (*write)(const uint32_t *, size_t, size_t, const uint8_t *, size_t, size_t, uint8_t *, size_t, size_t *);
};

static const struct edition editions[] = {
    {"1.0", binmode_read_hyperglyph, binmode_write_hyperglyph},
    {"0.5", binmode_read_glyph, binmode_write_glyph},
};

/* NULL, if the word names none. */
static inline const struct edition *edition_named(const char *word)
{
    for (size_t i = 0; i < sizeof editions / sizeof editions[0]; i++)
        if (strcmp(word, editions[i].name) == 0)
            return &editions[i];
    return NULL;
}

/* Reads into a table of BINMODE_TABLE_WORDS words: an answer, and what is to be looked at, or the place of a refusal. */
static inline uint8_t read_in(const struct edition *edition, const uint8_t *message, size_t length, uint32_t *table,
                              struct binmode_view *view, size_t *place)
{
    view->table = table;
    view->table_words = BINMODE_TABLE_WORDS;
    view->text = message;
    return edition->read(message, length, table, BINMODE_TABLE_WORDS, BINMODE_MOST_NESTING, &view->rows, &view->text_len, place);
}

/* Does with a message what the program is for, which gives how it ends. */
static inline int with_edition(const char *usage, int count, char **words,
                               int (*act)(const struct edition *edition, const uint8_t *message, size_t length))
{
    if (has_helped(usage, count, words))
        return finish(FINE);
    const struct edition *edition = count > 1 ? edition_named(words[1]) : NULL;
    if (edition == NULL || count > 3) {
        fputs(usage, stderr);
        return TROUBLE;
    }
    size_t length;
    uint8_t *message = read_input(count > 2 ? words[2] : NULL, MESSAGE_BYTES, &length);
    if (message == NULL)
        return TROUBLE;
    int status = act(edition, message, length);
    free(message);
    return finish(status);
}

#endif
