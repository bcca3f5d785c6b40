/*
 * Shows a message of the second data house to a person, from a file or from standard input: show-glyphs EDITION [FILE]
 * EDITION is 1.0 for hyperglyph, or 0.5 for glyph of the old depot. showing.h says how; an extension's name stands in its line. Ends with 0
 * if the message is accepted, 1 if it is refused, 2 on trouble.
 */
#include "editions.h"
#include "showing.h"

static uint32_t table[BINMODE_TABLE_WORDS];

static int show(const struct edition *edition, const uint8_t *message, size_t length)
{
    struct binmode_view view;
    size_t place;
    uint8_t number = read_in(edition, message, length, table, &view, &place);
    if (number != BINMODE_ACCEPTED)
        return show_refusal(message, length, number, place);
    return show_read(&view, length, ", all blanks");
}

int main(int count, char **words)
{
    return with_edition("usage: show-glyphs 1.0|0.5 [FILE]\n", count, words, show);
}
