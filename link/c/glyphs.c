/*
 * Lists the rows of a message of the second data house, from a file or from standard input: glyphs EDITION [FILE]
 * EDITION is 1.0 for hyperglyph, or 0.5 for glyph of the old depot. Objects may be nested 32 deep. Ends with 0 if the message is
 * accepted, 1 if it is refused, 2 on trouble.
 */
#include "editions.h"

static uint32_t table[BINMODE_TABLE_WORDS];

static int list(const struct edition *edition, const uint8_t *message, size_t length)
{
    struct binmode_view view;
    size_t place;
    uint8_t number = read_in(edition, message, length, table, &view, &place);
    if (number != BINMODE_ACCEPTED)
        return print_refusal(number, place);
    printf("rows %zu used %zu\n", view.rows, view.text_len);
    print_rows(&view);
    return FINE;
}

int main(int count, char **words)
{
    return with_edition("usage: glyphs 1.0|0.5 [FILE]\n", count, words, list);
}
