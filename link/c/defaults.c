/*
 * Prints, for each card of a job file, the text under a key and where it comes from, the card or the job's defaults:
 *     defaults JOBFILE ROW DEFAULTSFILE DEFAULTSROW KEY
 * ROW is the row of each card's Struct, DEFAULTSROW that of the Struct in the defaults' message; `show` prints rows.
 *
 * A line for each card: `card N card "TEXT"`, `card N defaults "TEXT"`, or `card N refused R at P`, the card's own refusal or that of the
 * text. Then `cards N`, and `refused R at P` if the job is not sound. TEXT is printed as print_escaped says. If the defaults' message
 * is refused, that is the only line: `defaults refused R at P`. Ends with 0 if each card has a text and the job is sound, 1 after a
 * refusal and 2 for trouble.
 */
#include "common.h"

/* A message that was read: its table, its rows, the bytes that it used, and the Struct's row. */
struct message {
    uint32_t table[BINMODE_TABLE_WORDS];
    size_t rows;
    const uint8_t *text;
    size_t used;
    size_t row;
};
static struct message card, defaults;

/* Reads a message; 0, or its refusal's number. */
static uint8_t read_message(struct message *message, const uint8_t *bytes, size_t length, size_t *place)
{
    message->text = bytes;
    return binmode_read_within(bytes, length, message->table, BINMODE_TABLE_WORDS, BINMODE_MOST_NESTING, &message->rows,
                               &message->used, place);
}

/* What the card has under the key, or behind it the defaults. */
static int print_text(const char *key)
{
    uint8_t source;
    size_t offset, length;
    uint8_t number = binmode_default_text(card.table, BINMODE_TABLE_WORDS, card.rows, card.text, card.used, card.row,
                                          defaults.table, BINMODE_TABLE_WORDS, defaults.rows, defaults.text, defaults.used,
                                          defaults.row, binmode_bytes(key), strlen(key), &source, &offset, &length);
    if (number != BINMODE_ACCEPTED)
        return print_refusal(number, 0);
    fputs(source == BINMODE_FROM_CARD ? "card " : "defaults ", stdout);
    print_quoted((source == BINMODE_FROM_CARD ? card.text : defaults.text) + offset, length);
    putchar('\n');
    return FINE;
}

/* From card to card, in one pass over the file. */
static int print_all(const uint8_t *file, size_t length, const char *key)
{
    size_t start, size, place, cards = 0, from = 0;
    int status = FINE;
    uint8_t end;
    while ((end = binmode_next_card(file, length, cards, from, &start, &size, &place)) == BINMODE_ACCEPTED) {
        printf("card %zu ", cards);
        uint8_t number = read_message(&card, file + start, size, &place);
        status |= number == BINMODE_ACCEPTED ? print_text(key) : print_refusal(number, place);
        cards++;
        from = start + size;
    }
    printf("cards %zu\n", cards);
    return end == BINMODE_REFUSED_NO_CARD ? status : print_refusal(end, place);
}

int main(int count, char **words)
{
    const char *usage = "usage: defaults JOBFILE ROW DEFAULTSFILE DEFAULTSROW KEY\n";
    if (has_helped(usage, count, words))
        return finish(FINE);
    if (count != 6) {
        fputs(usage, stderr);
        return TROUBLE;
    }
    if (!parse(words[2], &card.row) || !parse(words[4], &defaults.row)) {
        fputs("defaults: ROW or DEFAULTSROW is not a number, or too large\n", stderr);
        return TROUBLE;
    }
    size_t length, defaults_length, place;
    uint8_t *file = read_job(words[1], &length);
    if (file == NULL)
        return TROUBLE;
    uint8_t *behind = read_input(words[3], MESSAGE_BYTES, &defaults_length);
    if (behind == NULL)
        return TROUBLE;
    uint8_t number = read_message(&defaults, behind, defaults_length, &place);
    if (number == BINMODE_ACCEPTED)
        return finish(print_all(file, length, words[5]));
    fputs("defaults ", stdout);
    return finish(print_refusal(number, place));
}
