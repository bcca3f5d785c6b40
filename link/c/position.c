/*
 * Prints the position in a Struct of a message, by the Struct's row: position FILE ROW
 * or in a Struct of a card of a job file, by the card's number: position FILE ROW CARD
 *
 * It prints `x N`, `y N` and `turn N`, or `refused N at P`, the message's refusal or the position's. Ends with 0 for a position, 1 for
 * a refusal and 2 for trouble. `show` prints the rows of Structs.
 */
#include "common.h"

static uint32_t table[BINMODE_TABLE_WORDS];

/* 17 digits tell any two values apart. */
static int print_position(const struct binmode_view *view, size_t row)
{
    double x, y, turn;
    uint8_t number = binmode_position(view->table, view->table_words, view->rows, view->text, view->text_len, row, &x, &y, &turn);
    if (number != BINMODE_ACCEPTED)
        return print_refusal(number, 0);
    printf("x %.17g\ny %.17g\nturn %.17g\n", x, y, turn);
    return FINE;
}

int main(int count, char **words)
{
    const char *usage = "usage: position FILE ROW [CARD]\n";
    if (has_helped(usage, count, words))
        return finish(FINE);
    if (count != 3 && count != 4) {
        fputs(usage, stderr);
        return TROUBLE;
    }
    size_t length, row, card = 0;
    if (!parse(words[2], &row) || (count == 4 && !parse(words[3], &card))) {
        fputs("position: ROW or CARD is not a number, or too large\n", stderr);
        return TROUBLE;
    }
    uint8_t *file = count == 3 ? read_input(words[1], MESSAGE_BYTES, &length) : read_job(words[1], &length);
    if (file == NULL)
        return TROUBLE;
    struct binmode_view view;
    int status = load(file, length, count == 3 ? NULL : &card, table, &view);
    if (status == FINE)
        status = print_position(&view, row);
    free(file);
    return finish(status);
}
