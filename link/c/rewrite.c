/*
 * Writes the written form of the message in a file or on standard input, as the program rewrite does: rewrite [FILE]
 * A refusal, the reader's or the writer's, is a line on standard error, and nothing is written then. Ends with 0 if the message is
 * written, 1 if it is refused, 2 on trouble.
 */
#include "common.h"

static uint32_t table[BINMODE_TABLE_WORDS];
static uint8_t output[BINMODE_MOST_BYTES];

static int rewrite(const uint8_t *message, size_t length)
{
    size_t rows, used, place, size;
    uint8_t number =
        binmode_read_within(message, length, table, BINMODE_TABLE_WORDS, BINMODE_MOST_NESTING, &rows, &used, &place);
    if (number != BINMODE_ACCEPTED)
        return complain_refusal(number, place);
    number = binmode_write_within(table, BINMODE_TABLE_WORDS, rows, message, used, BINMODE_MOST_NESTING, output, sizeof output, &size);
    if (number != BINMODE_ACCEPTED)
        return complain_refusal(number, 0);
    fwrite(output, 1, size, stdout);
    return FINE;
}

int main(int count, char **words)
{
    const char *usage = "usage: rewrite [FILE]\n";
    if (has_helped(usage, count, words))
        return finish(FINE);
    if (count > 2) {
        fputs(usage, stderr);
        return TROUBLE;
    }
    size_t length;
    uint8_t *message = read_input(count == 2 ? words[1] : NULL, MESSAGE_BYTES, &length);
    if (message == NULL)
        return TROUBLE;
    int status = rewrite(message, length);
    free(message);
    return finish(status);
}
