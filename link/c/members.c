/*
 * Prints the members of a Struct in byte order of their names, by the Struct's row: members FILE ROW
 * or of a Struct of a card of a job file, by the card's number: members FILE ROW CARD
 *
 * A line for each: its name, and what it is, as `"holder.name" text "Ann"`, `"card.serial" whole number 7`, `"x" decimal 2.5`,
 * `"valid" yes or no: yes`, and for another item its row and kind, `"track" item 17 Binary`; a decimal with too many digits is `refused 19`.
 * Or `refused N at P`, the message's refusal or the index's. Ends with 0 for members, 1 for a refusal and 2 for trouble. All keys are looked
 * up in one call, through an index. `show` prints the rows of Structs.
 */
#include "common.h"

#define MOST_MEMBERS (BINMODE_MOST_ROWS / 2)

static uint32_t table[BINMODE_TABLE_WORDS];
static struct binmode_entry list[MOST_MEMBERS];
static struct binmode_report reports[MOST_MEMBERS];
static uint32_t ends[MOST_MEMBERS];
static uint8_t keys[BINMODE_MOST_ROWS / 2 * (size_t)BINMODE_MOST_BYTES];

static void print_report(const struct binmode_view *view, const struct binmode_report *report)
{
    switch (report->sort) {
    case BINMODE_SORT_WHOLE_NUMBER:
        printf("whole number %lld\n", (long long)report->number);
        break;
    case BINMODE_SORT_DECIMAL: /* 17 digits tell any two values apart */
        printf("decimal %.17g\n", report->decimal);
        break;
    case BINMODE_SORT_YES_OR_NO:
        printf("yes or no: %s\n", report->number == 1 ? "yes" : "no");
        break;
    case BINMODE_SORT_TEXT:
        fputs("text ", stdout);
        print_quoted(view->text + report->offset, report->length);
        putchar('\n');
        break;
    case BINMODE_SORT_ITEM:
        printf("item %lld %s\n", (long long)report->number, binmode_kind_name(binmode_row_at(view, (size_t)report->number).kind));
        break;
    default:
        printf("refused %d\n", report->refusal);
    }
}

static int print_members(const struct binmode_view *view, size_t row)
{
    const uint8_t *text = binmode_bytes(view->text);
    uint8_t number = binmode_index_fill(view->table, view->table_words, view->rows, text, view->text_len, row, list, MOST_MEMBERS);
    if (number != BINMODE_ACCEPTED)
        return print_refusal(number, 0);
    size_t members = 0, length = 0;
    for (; members < MOST_MEMBERS && list[members].key != 0; members++) {
        struct binmode_row key = binmode_row_at(view, list[members].key);
        memcpy(keys + length, text + key.a, key.b);
        ends[members] = (uint32_t)(length += key.b);
    }
    binmode_index_find(view->table, view->table_words, view->rows, text, view->text_len, row, list, members, keys, length, ends, members,
                       reports, members);
    for (size_t member = 0; member < members; member++) {
        struct binmode_row key = binmode_row_at(view, list[member].key);
        print_quoted(view->text + key.a, key.b);
        putchar(' ');
        print_report(view, &reports[member]);
    }
    return FINE;
}

int main(int count, char **words)
{
    const char *usage = "usage: members FILE ROW [CARD]\n";
    if (has_helped(usage, count, words))
        return finish(FINE);
    if (count != 3 && count != 4) {
        fputs(usage, stderr);
        return TROUBLE;
    }
    size_t length, row, card = 0;
    if (!parse(words[2], &row) || (count == 4 && !parse(words[3], &card))) {
        fputs("members: ROW or CARD is not a number, or too large\n", stderr);
        return TROUBLE;
    }
    uint8_t *file = count == 3 ? read_input(words[1], MESSAGE_BYTES, &length) : read_job(words[1], &length);
    if (file == NULL)
        return TROUBLE;
    struct binmode_view view;
    int status = load(file, length, count == 3 ? NULL : &card, table, &view);
    if (status == FINE)
        status = print_members(&view, row);
    free(file);
    return finish(status);
}
