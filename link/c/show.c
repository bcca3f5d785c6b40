/*
 * Shows a message to a person: show [FILE [CARD]]
 * The message is that of the file, or of standard input; with CARD the file is a job file, and the card of that number is shown.
 * showing.h says how. Ends with 0 if the message is accepted, 1 if it is refused, 2 on trouble.
 */
#include "showing.h"

static uint32_t table[BINMODE_TABLE_WORDS];

/* Whether a message begins behind the length and the kind of a first record. */
static int looks_like_job(const uint8_t *file, size_t length)
{
    return length >= 18 && memcmp(file + 6, "binmode-rpc:", 12) == 0;
}

static int show_message(const uint8_t *message, size_t length)
{
    size_t rows, used, place;
    uint8_t number =
        binmode_read_within(message, length, table, BINMODE_TABLE_WORDS, BINMODE_MOST_NESTING, &rows, &used, &place);
    if (number != BINMODE_ACCEPTED)
        return show_refusal(message, length, number, place);
    struct binmode_view view = {table, BINMODE_TABLE_WORDS, rows, message, used};
    return show_read(&view, length, " that are ignored");
}

/* The card of a number, found from card to card, so that also one that is refused is known by where it lies. */
static int show_card(const uint8_t *file, size_t length, size_t number)
{
    size_t start = 0, size = 0, place;
    for (size_t card = 0; card <= number; card++) {
        uint8_t end = binmode_next_card(file, length, card, start + size, &start, &size, &place);
        if (end != BINMODE_ACCEPTED)
            return show_refusal(file, length, end, place);
    }
    printf("card %zu: %zu bytes at %zu of the file\n", number, size, start);
    return show_message(file + start, size);
}

int main(int count, char **words)
{
    const char *usage = "usage: show [FILE [CARD]]\n";
    if (has_helped(usage, count, words))
        return finish(FINE);
    if (count > 3) {
        fputs(usage, stderr);
        return TROUBLE;
    }
    size_t length, number = 0;
    if (count == 3 && !parse(words[2], &number)) {
        fputs("show: CARD is not a number, or too large\n", stderr);
        return TROUBLE;
    }
    const char *name = count > 1 ? words[1] : NULL;
    uint8_t *bytes = count == 3 ? read_job(name, &length) : read_input(name, MESSAGE_BYTES, &length);
    if (bytes == NULL)
        return TROUBLE;
    int status = count == 3 ? show_card(bytes, length, number) : show_message(bytes, length);
    if (count < 3 && looks_like_job(bytes, length))
        puts("this looks like a job file: show FILE CARD shows one of its cards, from 0 on");
    free(bytes);
    return finish(status);
}
