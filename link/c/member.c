/*
 * Prints the member of a Struct that has a key, by the Struct's row: member FILE ROW KEY
 * or of a Struct of a card of a job file, by the card's number: member FILE ROW KEY CARD
 *
 * It prints the sort of the answer and its value, as `text "Ann"`, `whole number 7`, `decimal 2.5`, `yes or no: yes`, and for another
 * item its row and kind, `item 17 DateTime`; or `refused N at P`, the message's refusal or the lookup's. Ends with 0 for a member, 1 for a
 * refusal and 2 for trouble. `show` prints the rows of Structs.
 */
#include "common.h"

static uint32_t table[BINMODE_TABLE_WORDS];

static int print_member(const struct binmode_view *view, size_t row, const char *key)
{
    struct binmode_found found;
    uint8_t number = binmode_find(view, row, key, strlen(key), &found);
    if (number != BINMODE_ACCEPTED)
        return print_refusal(number, 0);
    switch (found.sort) {
    case BINMODE_SORT_WHOLE_NUMBER:
        printf("whole number %lld\n", (long long)found.number);
        break;
    case BINMODE_SORT_DECIMAL: /* 17 digits tell any two values apart */
        printf("decimal %.17g\n", found.decimal);
        break;
    case BINMODE_SORT_YES_OR_NO:
        printf("yes or no: %s\n", found.number == 1 ? "yes" : "no");
        break;
    case BINMODE_SORT_TEXT:
        fputs("text ", stdout);
        print_quoted(view->text + found.offset, found.length);
        putchar('\n');
        break;
    default:
        printf("item %lld %s\n", (long long)found.number, binmode_kind_name(binmode_row_at(view, (size_t)found.number).kind));
    }
    return FINE;
}

int main(int count, char **words)
{
    const char *usage = "usage: member FILE ROW KEY [CARD]\n";
    if (has_helped(usage, count, words))
        return finish(FINE);
    if (count != 4 && count != 5) {
        fputs(usage, stderr);
        return TROUBLE;
    }
    size_t length, row, card = 0;
    if (!parse(words[2], &row) || (count == 5 && !parse(words[4], &card))) {
        fputs("member: ROW or CARD is not a number, or too large\n", stderr);
        return TROUBLE;
    }
    uint8_t *file = count == 4 ? read_input(words[1], MESSAGE_BYTES, &length) : read_job(words[1], &length);
    if (file == NULL)
        return TROUBLE;
    struct binmode_view view;
    int status = load(file, length, count == 4 ? NULL : &card, table, &view);
    if (status == FINE)
        status = print_member(&view, row, words[3]);
    free(file);
    return finish(status);
}
