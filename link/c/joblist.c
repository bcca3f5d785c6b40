/*
 * Lists a job file, as the program joblist does: joblist FILE [NUMBER]
 * Ends with 0 if every card that is listed is accepted and the job is sound, 1 after a refusal, 2 on trouble.
 */
#include "common.h"

static uint32_t table[BINMODE_TABLE_WORDS];

static int list_card(const uint8_t *body, size_t size)
{
    size_t rows, used, place;
    uint8_t number = binmode_read_within(body, size, table, BINMODE_TABLE_WORDS, BINMODE_MOST_NESTING, &rows, &used, &place);
    if (number != BINMODE_ACCEPTED)
        return print_refusal(number, place);
    printf("rows %zu used %zu\n", rows, used);
    return FINE;
}

/* From card to card, in one pass over the file. */
static int list_all(const uint8_t *file, size_t length)
{
    size_t start, size, place, cards = 0, from = 0;
    int status = FINE;
    uint8_t end;
    while ((end = binmode_next_card(file, length, cards, from, &start, &size, &place)) == BINMODE_ACCEPTED) {
        printf("card %zu at %zu bytes %zu ", cards, start, size);
        status |= list_card(file + start, size);
        cards++;
        from = start + size;
    }
    printf("cards %zu\n", cards);
    return end == BINMODE_REFUSED_NO_CARD ? status : print_refusal(end, place);
}

static int list_one(const uint8_t *file, size_t length, size_t number)
{
    struct binmode_view view;
    if (load(file, length, &number, table, &view) != FINE)
        return REFUSED;
    printf("rows %zu used %zu body %zu\n", view.rows, view.text_len, (size_t)(view.text - file));
    print_rows(&view);
    return FINE;
}

int main(int count, char **words)
{
    const char *usage = "usage: joblist FILE [NUMBER]\n";
    if (has_helped(usage, count, words))
        return finish(FINE);
    if (count != 2 && count != 3) {
        fputs(usage, stderr);
        return TROUBLE;
    }
    size_t length, number = 0;
    if (count == 3 && !parse(words[2], &number)) {
        fputs("joblist: NUMBER is not a number, or too large\n", stderr);
        return TROUBLE;
    }
    uint8_t *file = read_job(words[1], &length);
    if (file == NULL)
        return TROUBLE;
    int status = count == 2 ? list_all(file, length) : list_one(file, length, number);
    free(file);
    return finish(status);
}
