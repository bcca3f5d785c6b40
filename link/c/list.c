/*
 * Lists the message in a file or on standard input, as the listing program does: list [FILE [LIMIT]]
 * Arrays and Structs may be nested 32 deep, as there, or LIMIT deep. Ends with 0 if it is accepted, 1 if it is refused, 2 on trouble.
 */
#include "common.h"

static uint32_t table[BINMODE_TABLE_WORDS];

static int list(const uint8_t *message, size_t length, size_t limit)
{
    size_t rows, used, place;
    uint8_t number = binmode_read_within(message, length, table, BINMODE_TABLE_WORDS, limit, &rows, &used, &place);
    if (number != BINMODE_ACCEPTED)
        return print_refusal(number, place);
    struct binmode_view view = {table, BINMODE_TABLE_WORDS, rows, message, used};
    printf("rows %zu used %zu\n", rows, used);
    print_rows(&view);
    return FINE;
}

int main(int count, char **words)
{
    const char *usage = "usage: list [FILE [LIMIT]]\n";
    if (has_helped(usage, count, words))
        return finish(FINE);
    size_t length, limit = BINMODE_MOST_NESTING;
    if (count > 3 || (count == 3 && !parse(words[2], &limit))) {
        fputs(usage, stderr);
        return TROUBLE;
    }
    uint8_t *message = read_input(count > 1 ? words[1] : NULL, MESSAGE_BYTES, &length);
    if (message == NULL)
        return TROUBLE;
    int status = list(message, length, limit);
    free(message);
    return finish(status);
}
