/*
 * Measures what the library's functions take of the stack, and ends with 1 if one takes more than link/binmode.h says: stack
 * Each runs in a thread whose stack is full of a pattern beforehand; what is no longer there afterwards was used. What a thread itself
 * uses is measured first and left out. The messages nest as deep as may be, for calls that state the highest limit and for those that
 * state none: Structs, Arrays, and both by turns, a Response's and a Call's, with few and many items of every kind in the innermost.
 * From the repository's root: cc -O2 -pthread -I link compare/stack.c target/staticlib/libbinmode.a -o target/stack
 */
#include "binmode.h"
#include <pthread.h>
#include <stdio.h>
#include <stdlib.h>
#include <string.h>
#include <sys/mman.h>

#define STACK ((size_t)1 << 20)
#define PATTERN 0xa5

static uint8_t message[BINMODE_MOST_BYTES], file[BINMODE_MOST_BYTES + 6], output[BINMODE_MOST_BYTES], room[BINMODE_MOST_BYTES];
static uint32_t table[BINMODE_TABLE_WORDS], other[BINMODE_TABLE_WORDS];
static size_t length, rows, used, place, offset, size;
static size_t limit; /* of nesting, or 0 for calls that state none */
static uint8_t answer, sort;
static int64_t number;
static double x, y, turn;
static struct binmode_pieces state;
static struct binmode_entry list[BINMODE_MOST_ROWS / 2];
static struct binmode_report reports[2];
static uint8_t plan[2 * BINMODE_MOST_ROWS];
static uint32_t prices[BINMODE_MOST_ROWS];

/* The message, tag by tag. */
static void put(const void *bytes, size_t count)
{
    memcpy(message + length, bytes, count);
    length += count;
}

static void put_count(char tag, uint32_t count)
{
    put(&tag, 1);
    put(&count, 4);
}

static void put_text(const char *text)
{
    put_count('U', (uint32_t)strlen(text));
    put(text, strlen(text));
}

/* One item of each kind that holds no others but an Other's. */
static void put_item(size_t turn_of)
{
    switch (turn_of % 6) {
    case 0: put_count('I', 7); break;
    case 1: put("D\0042.75", 6); break;
    case 2: put("8\02119980717T14:08:55", 19); break;
    case 3: put_text("na\xc3\xafve"); break;
    case 4: put(">\1\3\0\0\0abc", 9); break;
    default: put_count('O', 0); length -= 4; put_text("kind"); put_count('B', 3); put("abc", 3);
    }
}

/* Arrays (0), Structs (1), or both by turns (2), so many deep, the innermost with so many items. */
static void put_nested(size_t depth, int structs, size_t items)
{
    for (size_t level = 1; level <= depth; level++) {
        size_t count = level == depth ? items : 1;
        int is_struct = structs == 2 ? level % 2 == 0 : structs;
        put_count(is_struct ? 'S' : 'A', (uint32_t)count);
        for (size_t i = 0; i < count; i++) {
            char key[32];
            snprintf(key, sizeof key, "member %zu", i);
            if (is_struct)
                put_text(key);
            if (level == depth)
                put_item(i);
        }
    }
}

static void make(int is_call, int structs, size_t items)
{
    length = 0;
    put("binmode-rpc:", 12);
    put(is_call ? "C" : "R", 1);
    if (is_call) {
        put_text("method");
        put_count('A', 1);
    }
    put_nested((limit != 0 ? limit : BINMODE_USUAL_NESTING) - (is_call ? 1 : 0), structs, items);
    uint32_t body = (uint32_t)length;
    memcpy(file, &body, 4);
    memcpy(file + 4, "\1\0", 2);
    memcpy(file + 6, message, length);
}

/* The calls. */
static void no_call(void) { answer = 0; }
static void read_message(void)
{
    answer = limit != 0 ? binmode_read_within(message, length, table, BINMODE_TABLE_WORDS, limit, &rows, &used, &place)
                        : binmode_read(message, length, table, BINMODE_TABLE_WORDS, &rows, &used, &place);
}
static void read_card(void)
{
    answer = binmode_read_card(file, length + 6, 0, table, BINMODE_TABLE_WORDS, &rows, &used, &place, &offset);
}
static void next_card(void) { answer = binmode_next_card(file, length + 6, 0, 0, &offset, &size, &place); }
static void take_piece(void)
{
    answer = limit != 0 ? binmode_pieces_next_within(&state, message, length, room, sizeof room, table, BINMODE_TABLE_WORDS, limit)
                        : binmode_pieces_next(&state, message, length, room, sizeof room, table, BINMODE_TABLE_WORDS);
}
static void end_pieces(void)
{
    answer = limit != 0 ? binmode_pieces_end_within(&state, room, sizeof room, table, BINMODE_TABLE_WORDS, limit)
                        : binmode_pieces_end(&state, room, sizeof room, table, BINMODE_TABLE_WORDS);
}
static void write_message(void)
{
    answer = limit != 0
                 ? binmode_write_within(table, BINMODE_TABLE_WORDS, rows, message, length, limit, output, sizeof output, &size)
                 : binmode_write(table, BINMODE_TABLE_WORDS, rows, message, length, output, sizeof output, &size);
}
static void look_up(void)
{
    binmode_lookup(table, BINMODE_TABLE_WORDS, rows, message, length, 1, (const uint8_t *)"x", 1, &sort, &number, &x, &offset, &size);
}
static void find_position(void) { binmode_position(table, BINMODE_TABLE_WORDS, rows, message, length, 1, &x, &y, &turn); }
static void default_text(void)
{
    binmode_default_text(table, BINMODE_TABLE_WORDS, rows, message, length, 1, other, BINMODE_TABLE_WORDS, rows, message, length, 1,
                         (const uint8_t *)"x", 1, &sort, &offset, &size);
}

static void fill_index(void)
{
    binmode_index_fill(table, BINMODE_TABLE_WORDS, rows, message, length, 1, list, BINMODE_MOST_ROWS / 2);
}
static void find_in_index(void)
{
    static const uint32_t ends[] = {1, 9};
    binmode_index_find(table, BINMODE_TABLE_WORDS, rows, message, length, 1, list, BINMODE_MOST_ROWS / 2, (const uint8_t *)"xmember 0", 9,
                       ends, 2, reports, 2);
}

/* Calls for a station, whose share has all rows but one. */
#define SHARE BINMODE_TABLE_WORDS, BINMODE_MOST_ROWS - 1, BINMODE_STATION_FOUR
static void find_share(void) { answer = binmode_share(SHARE, &offset, &size); }
static void station_read(void)
{
    answer = limit != 0 ? binmode_station_read_within(message, length, table, SHARE, limit, &rows, &used, &place)
                        : binmode_station_read(message, length, table, SHARE, &rows, &used, &place);
}
static void station_read_card(void)
{
    answer = binmode_station_read_card(file, length + 6, 0, table, SHARE, &rows, &used, &place, &offset);
}
static void station_take_piece(void)
{
    binmode_pieces_start(&state);
    answer = limit != 0 ? binmode_station_pieces_next_within(&state, message, length, room, sizeof room, table, SHARE, limit)
                        : binmode_station_pieces_next(&state, message, length, room, sizeof room, table, SHARE);
}
static void station_end_pieces(void)
{
    answer = limit != 0 ? binmode_station_pieces_end_within(&state, room, sizeof room, table, SHARE, limit)
                        : binmode_station_pieces_end(&state, room, sizeof room, table, SHARE);
}
static void station_write(void)
{
    answer = limit != 0 ? binmode_station_write_within(table, SHARE, rows, message, length, limit, output, sizeof output, &size)
                        : binmode_station_write(table, SHARE, rows, message, length, output, sizeof output, &size);
}
static void station_look_up(void)
{
    binmode_station_lookup(table, SHARE, rows, message, length, 1, (const uint8_t *)"x", 1, &sort, &number, &x, &offset, &size);
}
static void station_find_position(void)
{
    binmode_station_position(table, SHARE, rows, message, length, 1, &x, &y, &turn);
}

/* How many strings the table has: the plan sends each in full. */
static size_t strings(void)
{
    struct binmode_view view = {table, BINMODE_TABLE_WORDS, rows, message, length};
    size_t count = 0;
    for (size_t row = 0; row < rows; row++)
        count += binmode_row_at(&view, row).kind == BINMODE_KIND_STRING;
    return count;
}
static void write_planned(void)
{
    size_t pairs = 2 * strings();
    answer = limit != 0 ? binmode_write_planned_within(table, BINMODE_TABLE_WORDS, rows, message, length, plan, pairs, limit, output,
                                                       sizeof output, &size)
                        : binmode_write_planned(table, BINMODE_TABLE_WORDS, rows, message, length, plan, pairs, output, sizeof output,
                                                &size);
}
static void station_write_planned(void)
{
    size_t pairs = 2 * strings();
    answer = limit != 0 ? binmode_station_write_planned_within(table, SHARE, rows, message, length, plan, pairs, limit, output,
                                                               sizeof output, &size)
                        : binmode_station_write_planned(table, SHARE, rows, message, length, plan, pairs, output, sizeof output, &size);
}

/*
 * A glyph message: lists, dicts, extensions, or lists and dicts by turns in one another, and so many leaves in the innermost, a list, or
 * members in it, a dict. The keys are not in order.
 */
static uint8_t glyph[BINMODE_MOST_BYTES];
static size_t glyph_length;

static void add(const char *text)
{
    memcpy(glyph + glyph_length, text, strlen(text));
    glyph_length += strlen(text);
}

static void make_glyph(size_t shape, size_t items)
{
    static const char *const opened[] = {"L", "Du1:k;", "Xu1:n;D;"};
    static const char *const leaves[] = {"i-7;", "u6:na\xc3\xafve;", "b3:abc;", "T;", "N;"};
    int is_dict = shape % 2 == 1;
    glyph_length = 0;
    for (size_t i = 1; i < BINMODE_MOST_NESTING; i++)
        add(opened[shape == 3 ? i % 2 : shape]);
    add(is_dict ? "D" : "L");
    for (size_t i = 0; i < items; i++) {
        char key[32];
        snprintf(key, sizeof key, "u8:%08zu;", 7919 * i % 100000);
        if (is_dict)
            add(key);
        add(leaves[i % 5]);
    }
    for (size_t i = 0; i < BINMODE_MOST_NESTING; i++)
        add(";");
}

static void read_hyperglyph(void)
{
    answer = binmode_read_hyperglyph(glyph, glyph_length, table, BINMODE_TABLE_WORDS, BINMODE_MOST_NESTING, &rows, &used, &place);
}
static void read_glyph(void)
{
    for (size_t i = 0; i < glyph_length; i++)
        glyph[i] = glyph[i] == 'X' ? 'H' : glyph[i];
    answer = binmode_read_glyph(glyph, glyph_length, table, BINMODE_TABLE_WORDS, BINMODE_MOST_NESTING, &rows, &used, &place);
    for (size_t i = 0; i < glyph_length; i++)
        glyph[i] = glyph[i] == 'H' ? 'X' : glyph[i];
}
static void station_read_hyperglyph(void)
{
    answer = binmode_station_read_hyperglyph(glyph, glyph_length, table, SHARE, BINMODE_MOST_NESTING, &rows, &used, &place);
}

/* What was read last, which is that message, written. */
static void write_hyperglyph(void)
{
    answer = binmode_write_hyperglyph(table, BINMODE_TABLE_WORDS, rows, glyph, glyph_length, BINMODE_MOST_NESTING, output,
                                      sizeof output, &size);
}
static void write_glyph(void)
{
    answer = binmode_write_glyph(table, BINMODE_TABLE_WORDS, rows, glyph, glyph_length, BINMODE_MOST_NESTING, output, sizeof output,
                                 &size);
}
static void station_write_hyperglyph(void)
{
    answer = binmode_station_write_hyperglyph(table, SHARE, rows, glyph, glyph_length, BINMODE_MOST_NESTING, output, sizeof output,
                                              &size);
}
static void prove_shortest(void)
{
    size_t count = strings();
    binmode_proves_shortest(table, BINMODE_TABLE_WORDS, rows, message, length, plan, 2 * count, prices, count);
}

static struct {
    const char *name;
    void (*call)(void);
    size_t bound;
    size_t most;
} calls[] = {
    {"binmode_read", read_message, BINMODE_STACK_READ, 0},
    {"binmode_write", write_message, BINMODE_STACK_WRITE, 0},
    {"binmode_write_planned", write_planned, BINMODE_STACK_PLAN, 0},
    {"binmode_proves_shortest", prove_shortest, BINMODE_STACK_PLAN, 0},
    {"binmode_lookup", look_up, BINMODE_STACK_LOOKUP, 0},
    {"binmode_position", find_position, BINMODE_STACK_LOOKUP, 0},
    {"binmode_default_text", default_text, BINMODE_STACK_LOOKUP, 0},
    {"binmode_index_fill", fill_index, BINMODE_STACK_INDEX, 0},
    {"binmode_index_find", find_in_index, BINMODE_STACK_INDEX, 0},
    {"binmode_read_card", read_card, BINMODE_STACK_READ, 0},
    {"binmode_next_card", next_card, 1024, 0},
    {"binmode_pieces_next", take_piece, BINMODE_STACK_READ, 0},
    {"binmode_pieces_end", end_pieces, 1024, 0},
    {"binmode_share", find_share, 1024, 0},
    {"binmode_station_read", station_read, BINMODE_STACK_READ, 0},
    {"binmode_station_write", station_write, BINMODE_STACK_WRITE, 0},
    {"binmode_station_write_planned", station_write_planned, BINMODE_STACK_PLAN, 0},
    {"binmode_station_lookup", station_look_up, BINMODE_STACK_LOOKUP, 0},
    {"binmode_station_position", station_find_position, BINMODE_STACK_LOOKUP, 0},
    {"binmode_station_read_card", station_read_card, BINMODE_STACK_READ, 0},
    {"binmode_station_pieces_next", station_take_piece, BINMODE_STACK_READ, 0},
    {"binmode_station_pieces_end", station_end_pieces, 1024, 0},
    {"binmode_read_hyperglyph", read_hyperglyph, BINMODE_STACK_READ, 0},
    {"binmode_write_hyperglyph", write_hyperglyph, BINMODE_STACK_WRITE, 0},
    {"binmode_read_glyph", read_glyph, BINMODE_STACK_READ, 0},
    {"binmode_write_glyph", write_glyph, BINMODE_STACK_WRITE, 0},
    {"binmode_station_read_hyperglyph", station_read_hyperglyph, BINMODE_STACK_READ, 0},
    {"binmode_station_write_hyperglyph", station_write_hyperglyph, BINMODE_STACK_WRITE, 0},
};
#define CALLS (sizeof calls / sizeof calls[0])

static void *run(void *call)
{
    (*(void (**)(void))call)();
    return NULL;
}

static size_t used_by(void (*call)(void))
{
    uint8_t *stack = mmap(NULL, STACK, PROT_READ | PROT_WRITE, MAP_PRIVATE | MAP_ANONYMOUS, -1, 0);
    pthread_attr_t attributes;
    pthread_t thread;
    if (stack == MAP_FAILED)
        exit(2);
    memset(stack, PATTERN, STACK);
    pthread_attr_init(&attributes);
    pthread_attr_setstack(&attributes, stack, STACK);
    if (pthread_create(&thread, &attributes, run, &call) != 0)
        exit(2);
    pthread_join(thread, NULL);
    size_t left = 0;
    while (left < STACK && stack[left] == PATTERN)
        left++;
    munmap(stack, STACK);
    return STACK - left;
}

int main(void)
{
    static const size_t items[] = {1, 60, 300, 1000};
    size_t thread = used_by(no_call);
    for (size_t i = 0; i < 2 * 3 * 4 * 2; i++) {
        limit = i / 24 == 0 ? BINMODE_MOST_NESTING : 0;
        make(i % 2, (int)(i / 2 % 3), items[i / 6 % 4]);
        make_glyph(i % 4, items[i / 6 % 4]);
        binmode_pieces_start(&state);
        for (size_t c = 0; c < CALLS; c++) {
            size_t taken = used_by(calls[c].call) - thread;
            if (answer != BINMODE_ACCEPTED) {
                printf("stack: %s refuses with %u\n", calls[c].name, answer);
                return 2;
            }
            if (calls[c].most < taken)
                calls[c].most = taken;
            memcpy(other, table, sizeof table);
        }
    }
    int status = 0;
    for (size_t c = 0; c < CALLS; c++) {
        printf("stack: %s %zu of %zu bytes\n", calls[c].name, calls[c].most, calls[c].bound);
        if (calls[c].bound < calls[c].most)
            status = 1;
    }
    return status;
}
