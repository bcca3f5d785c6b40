/*
 * Reads the cards of a job file by turns for station four and station five, into one table that is split at a row: stations JOBFILE ROW
 * Both read, and then each writes its card from its own share, so that what the other read in between has changed nothing:
 *     four card 2 at 622 rows 24 used 317 written 315
 *     five card 3 refused 6 at 13
 * Ends with 0 if every card is accepted and written, 1 after a refusal, 2 on trouble.
 */
#include "common.h"

static uint32_t table[BINMODE_TABLE_WORDS];
static uint8_t output[BINMODE_MOST_BYTES];

/* A card in a station's share. */
struct card {
    uint8_t station;
    size_t number;
    uint8_t answer;
    size_t rows, used, place, body;
};

static struct card read_card(const uint8_t *file, size_t length, size_t split, uint8_t station, size_t number)
{
    struct card card = {station, number, 0, 0, 0, 0, 0};
    card.answer = binmode_station_read_card(file, length, number, table, BINMODE_TABLE_WORDS, split, station, &card.rows,
                                            &card.used, &card.place, &card.body);
    return card;
}

/* Whether the job itself is over or at fault, and not a card. */
static int is_of_job(const struct card *card)
{
    return card->answer == BINMODE_REFUSED_FILE_ENDED || card->answer == BINMODE_REFUSED_WRONG_END ||
           card->answer == BINMODE_REFUSED_NO_CARD;
}

/* A line for a card that was read, with the length of what is written from the share. */
static int print_card(const uint8_t *file, size_t split, const struct card *card)
{
    size_t written;
    printf("%s card %zu ", card->station == BINMODE_STATION_FOUR ? "four" : "five", card->number);
    if (card->answer != BINMODE_ACCEPTED)
        return print_refusal(card->answer, card->place);
    printf("at %zu rows %zu used %zu ", card->body, card->rows, card->used);
    uint8_t answer = binmode_station_write_within(table, BINMODE_TABLE_WORDS, split, card->station, card->rows, file + card->body,
                                                  card->used, BINMODE_MOST_NESTING, output, sizeof output, &written);
    if (answer != BINMODE_ACCEPTED)
        return print_refusal(answer, 0);
    printf("written %zu\n", written);
    return FINE;
}

/* All cards, two at a time, until the job ends. */
static int run(const uint8_t *file, size_t length, size_t split)
{
    int status = FINE;
    for (size_t number = 0;; number += 2) {
        struct card four = read_card(file, length, split, BINMODE_STATION_FOUR, number);
        struct card five = read_card(file, length, split, BINMODE_STATION_FIVE, number + 1);
        if (four.answer == BINMODE_REFUSED_NOT_SPLIT)
            return print_refusal(four.answer, four.place);
        const struct card *both[] = {&four, &five};
        for (int i = 0; i < 2; i++) {
            if (both[i]->answer == BINMODE_REFUSED_NO_CARD)
                return status;
            if (is_of_job(both[i]))
                return print_refusal(both[i]->answer, both[i]->place);
            if (print_card(file, split, both[i]) != FINE)
                status = REFUSED;
        }
    }
}

int main(int count, char **words)
{
    const char *usage = "usage: stations JOBFILE ROW\n";
    size_t length, split;
    if (has_helped(usage, count, words))
        return finish(FINE);
    if (count != 3 || !parse(words[2], &split)) {
        fputs(usage, stderr);
        return TROUBLE;
    }
    uint8_t *file = read_job(words[1], &length);
    if (file == NULL)
        return TROUBLE;
    int status = run(file, length, split);
    free(file);
    return finish(status);
}
