/*
 * Writes the written form of a message of the second data house, from a file or from standard input: rewrite-glyphs EDITION [FILE]
 * EDITION is 1.0 for hyperglyph, or 0.5 for glyph of the old depot. A refusal, the reader's or the writer's, is a line on standard error,
 * and nothing is written then. Ends with 0 if the message is written, 1 if it is refused, 2 on trouble.
 */
#include "editions.h"

static uint32_t table[BINMODE_TABLE_WORDS];
static uint8_t output[BINMODE_MOST_BYTES];

static int rewrite(const struct edition *edition, const uint8_t *message, size_t length)
{
    struct binmode_view view;
    size_t place, size;
    uint8_t number = read_in(edition, message, length, table, &view, &place);
    if (number != BINMODE_ACCEPTED)
        return complain_refusal(number, place);
    number = edition->write(table, BINMODE_TABLE_WORDS, view.rows, message, view.text_len, BINMODE_MOST_NESTING, output, sizeof output,
                            &size);
    if (number != BINMODE_ACCEPTED)
        return complain_refusal(number, 0);
    fwrite(output, 1, size, stdout);
    return FINE;
}

int main(int count, char **words)
{
    return with_edition("usage: rewrite-glyphs 1.0|0.5 [FILE]\n", count, words, rewrite);
}
