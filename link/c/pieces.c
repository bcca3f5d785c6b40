/*
 * Lists a message as it comes in over a pipe or a serial line: pieces [DEVICE]
 * Each piece is what one `read` gives, and the message is listed as soon as it is decided, without waiting for the end.
 * Ends with 0 if it is accepted, 1 if it is refused, 2 on trouble. A serial line is set up beforehand: stty -F DEVICE raw -echo 9600
 */
#include "common.h"
#include <fcntl.h>
#include <unistd.h>

static uint8_t piece[4096];
static uint8_t room[BINMODE_MOST_BYTES];
static uint32_t table[BINMODE_TABLE_WORDS];

/* Takes pieces until the message is decided or the input ends. Gives 0, or -1 if the input can't be read. */
static int take_pieces(int input, struct binmode_pieces *state)
{
    binmode_pieces_start(state);
    while (state->answer == BINMODE_MORE_WANTED) {
        ssize_t length = read(input, piece, sizeof piece);
        if (length < 0 && errno == EINTR)
            continue;
        if (length < 0)
            return -1;
        if (length == 0)
            binmode_pieces_end_within(state, room, sizeof room, table, BINMODE_TABLE_WORDS, BINMODE_MOST_NESTING);
        else
            binmode_pieces_next_within(state, piece, (size_t)length, room, sizeof room, table, BINMODE_TABLE_WORDS,
                                       BINMODE_MOST_NESTING);
    }
    return 0;
}

static int list(const struct binmode_pieces *state)
{
    if (state->answer != BINMODE_ACCEPTED)
        return print_refusal(state->answer, state->place);
    struct binmode_view view = {table, BINMODE_TABLE_WORDS, state->rows, room, state->used};
    printf("rows %zu used %zu\n", state->rows, state->used);
    print_rows(&view);
    return FINE;
}

int main(int count, char **words)
{
    const char *usage = "usage: pieces [DEVICE]\n";
    if (has_helped(usage, count, words))
        return finish(FINE);
    if (count > 2) {
        fputs(usage, stderr);
        return TROUBLE;
    }
    int input = count == 2 ? open(words[1], O_RDONLY | O_NOCTTY) : STDIN_FILENO;
    struct binmode_pieces state;
    if (input < 0 || take_pieces(input, &state) != 0)
        return trouble(count == 2 ? words[1] : "standard input");
    return finish(list(&state));
}
