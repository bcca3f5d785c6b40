/*
 * The library beside msgpack-c and libcbor: the same record of 300 members as bytes of each, read and written in turns in one run.
 * `compare/peers/run` builds and runs it; it needs Debian's libmsgpack-dev and libcbor-dev, and is no part of the gate.
 *
 * Reading makes of the bytes what a program goes through afterwards: a table of rows, or a tree of objects, which is freed again.
 * Writing makes the bytes of that, into a buffer that is there. All three settle what they are given; only the library also finds
 * repeated texts, refuses a key that came before, and clears what it does not use.
 */
#include "binmode.h"

#include <cbor.h>
#include <msgpack.h>
#include <stdio.h>
#include <stdlib.h>
#include <string.h>
#include <time.h>

enum { MEMBERS = 300, NAMES = 10, ROUNDS = 301, CALLS = 20, BYTES = 65536 };

/* ---- the record: members by number, each with a name and a value */

static const char *const names[NAMES] = {"holder", "number", "issuer", "expires",  "serial",
                                         "active", "limit",  "track",  "currency", "position"};

struct text {
    char bytes[40];
    size_t length;
};

static struct text text_of(const char *format, const char *name, int number)
{
    struct text text;
    text.length = (size_t)snprintf(text.bytes, sizeof text.bytes, format, name, number);
    return text;
}

/* With ten names the record is 30 Structs of ten members; else one Struct, and a name has its number behind it. */
static struct text name_of(int member, int ten_names)
{
    return text_of(ten_names ? "%s" : "%s %d", names[member % NAMES], member / NAMES);
}

static struct text value_of(int member)
{
    const int turn = member / NAMES;
    switch (member % NAMES) {
    case 0:
        return text_of("%s %d", "HOLDER", turn);
    case 1:
        return text_of("%s%07d", "5", turn);
    case 2:
        return text_of("%s", "First Bank", 0);
    case 3:
        return text_of("%s", "19991231T23:59:59", 0);
    case 6:
        return text_of("%s", "2.750", 0);
    case 7:
        return (struct text){{0, 1, (char)0xff, (char)0xfe}, 4};
    default:
        return text_of("%s", "EUR", 0);
    }
}

static int integer_of(int member)
{
    return member % NAMES == 4 ? member / NAMES : member / NAMES * 40;
}

/* ---- Binmode */

static uint8_t message[BYTES], form[BYTES], written[BYTES];
static size_t message_length, form_length;
static uint32_t table[BINMODE_TABLE_WORDS];
static size_t rows;

static void put(const void *bytes, size_t length)
{
    memcpy(message + message_length, bytes, length);
    message_length += length;
}

static void put_count(char tag, uint32_t count)
{
    const uint8_t field[5] = {(uint8_t)tag, (uint8_t)count, (uint8_t)(count >> 8), (uint8_t)(count >> 16), (uint8_t)(count >> 24)};
    put(field, 5);
}

static void put_text(char tag, struct text text)
{
    put_count(tag, (uint32_t)text.length);
    put(text.bytes, text.length);
}

static void put_short(char tag, struct text text)
{
    const uint8_t field[2] = {(uint8_t)tag, (uint8_t)text.length};
    put(field, 2);
    put(text.bytes, text.length);
}

static void binmode_make(int ten_names)
{
    message_length = 0;
    put("binmode-rpc:R", 13);
    if (ten_names)
        put_count('A', MEMBERS / NAMES);
    else
        put_count('S', MEMBERS);
    for (int member = 0; member < MEMBERS; member++) {
        if (ten_names && member % NAMES == 0)
            put_count('S', NAMES);
        put_text('U', name_of(member, ten_names));
        switch (member % NAMES) {
        case 3:
            put_short('8', value_of(member));
            break;
        case 4:
        case 9:
            put_count('I', (uint32_t)integer_of(member));
            break;
        case 5:
            put("t", 1);
            break;
        case 6:
            put_short('D', value_of(member));
            break;
        case 7:
            put_text('B', value_of(member));
            break;
        default:
            put_text('U', value_of(member));
        }
    }
}

static void fail(const char *what)
{
    fprintf(stderr, "peers: %s\n", what);
    exit(1);
}

static void binmode_reading(void)
{
    size_t used, place;
    if (binmode_read(form, form_length, table, BINMODE_TABLE_WORDS, &rows, &used, &place) != BINMODE_ACCEPTED)
        fail("the library refuses the record");
}

static void binmode_writing(void)
{
    size_t length;
    if (binmode_write(table, BINMODE_TABLE_WORDS, rows, form, form_length, written, sizeof written, &length) != BINMODE_ACCEPTED)
        fail("the library does not write the record");
}

/* the same with a table and an output as large as the record needs, so that nothing is cleared */
static void fitted_reading(void)
{
    size_t used, place;
    if (binmode_read(form, form_length, table, rows * BINMODE_ROW_WORDS, &rows, &used, &place) != BINMODE_ACCEPTED)
        fail("the library refuses the record");
}

static void fitted_writing(void)
{
    size_t length;
    if (binmode_write(table, rows * BINMODE_ROW_WORDS, rows, form, form_length, written, form_length, &length) != BINMODE_ACCEPTED)
        fail("the library does not write the record");
}

/* what is read is the written form, as another user of the library sends it */
static size_t binmode_start(int ten_names)
{
    size_t used, place;
    binmode_make(ten_names);
    if (binmode_read(message, message_length, table, BINMODE_TABLE_WORDS, &rows, &used, &place) != BINMODE_ACCEPTED
        || binmode_write(table, BINMODE_TABLE_WORDS, rows, message, message_length, form, sizeof form, &form_length)
               != BINMODE_ACCEPTED)
        fail("the record is no message");
    binmode_reading();
    return form_length;
}

/* ---- msgpack-c */

static msgpack_sbuffer packed, packed_again;
static msgpack_unpacked unpacked;

static void pack_text(msgpack_packer *packer, struct text text)
{
    msgpack_pack_str(packer, text.length);
    msgpack_pack_str_body(packer, text.bytes, text.length);
}

static void pack_value(msgpack_packer *packer, int member)
{
    const struct text value = value_of(member);
    switch (member % NAMES) {
    case 4:
    case 9:
        msgpack_pack_int32(packer, integer_of(member));
        break;
    case 5:
        msgpack_pack_true(packer);
        break;
    case 6:
        msgpack_pack_double(packer, 2.750);
        break;
    case 7:
        msgpack_pack_bin(packer, value.length);
        msgpack_pack_bin_body(packer, value.bytes, value.length);
        break;
    default:
        pack_text(packer, value);
    }
}

static void msgpack_reading(void)
{
    size_t at = 0;
    msgpack_unpacked_destroy(&unpacked);
    msgpack_unpacked_init(&unpacked);
    if (msgpack_unpack_next(&unpacked, packed.data, packed.size, &at) != MSGPACK_UNPACK_SUCCESS)
        fail("msgpack-c refuses the record");
}

static void msgpack_writing(void)
{
    msgpack_packer packer;
    packed_again.size = 0;
    msgpack_packer_init(&packer, &packed_again, msgpack_sbuffer_write);
    if (msgpack_pack_object(&packer, unpacked.data) != 0)
        fail("msgpack-c does not write the record");
}

static size_t msgpack_start(int ten_names)
{
    msgpack_packer packer;
    packed.size = 0;
    msgpack_packer_init(&packer, &packed, msgpack_sbuffer_write);
    if (ten_names)
        msgpack_pack_array(&packer, MEMBERS / NAMES);
    else
        msgpack_pack_map(&packer, MEMBERS);
    for (int member = 0; member < MEMBERS; member++) {
        if (ten_names && member % NAMES == 0)
            msgpack_pack_map(&packer, NAMES);
        pack_text(&packer, name_of(member, ten_names));
        pack_value(&packer, member);
    }
    msgpack_reading();
    return packed.size;
}

/* ---- libcbor */

static uint8_t encoded[BYTES], encoded_again[BYTES];
static size_t encoded_length;
static cbor_item_t *decoded;

static cbor_item_t *cbor_text(struct text text)
{
    return cbor_build_stringn(text.bytes, text.length);
}

static cbor_item_t *cbor_value(int member)
{
    const struct text value = value_of(member);
    switch (member % NAMES) {
    case 4:
    case 9:
        return cbor_build_uint32((uint32_t)integer_of(member));
    case 5:
        return cbor_build_bool(true);
    case 6:
        return cbor_build_float8(2.750);
    case 7:
        return cbor_build_bytestring((const unsigned char *)value.bytes, value.length);
    default:
        return cbor_text(value);
    }
}

static void cbor_reading(void)
{
    struct cbor_load_result result;
    if (decoded != NULL)
        cbor_decref(&decoded);
    decoded = cbor_load(encoded, encoded_length, &result);
    if (decoded == NULL)
        fail("libcbor refuses the record");
}

static void cbor_writing(void)
{
    if (cbor_serialize(decoded, encoded_again, sizeof encoded_again) == 0)
        fail("libcbor does not write the record");
}

static size_t cbor_start(int ten_names)
{
    cbor_item_t *const whole = ten_names ? cbor_new_definite_array(MEMBERS / NAMES) : cbor_new_definite_map(MEMBERS);
    cbor_item_t *map = whole;
    for (int member = 0; member < MEMBERS; member++) {
        if (ten_names && member % NAMES == 0) {
            map = cbor_new_definite_map(NAMES);
            if (!cbor_array_push(whole, map))
                fail("no memory");
        }
        if (!cbor_map_add(map, (struct cbor_pair){cbor_text(name_of(member, ten_names)), cbor_value(member)}))
            fail("no memory");
    }
    encoded_length = cbor_serialize(whole, encoded, sizeof encoded);
    cbor_reading();
    return encoded_length;
}

/* ---- the run */

struct peer {
    const char *name;
    size_t (*start)(int ten_names);
    void (*reading)(void);
    void (*writing)(void);
};

static const struct peer peers[] = {
    {"binmode", binmode_start, binmode_reading, binmode_writing},
    {"  own size", binmode_start, fitted_reading, fitted_writing},
    {"msgpack-c", msgpack_start, msgpack_reading, msgpack_writing},
    {"libcbor", cbor_start, cbor_reading, cbor_writing},
};

enum { PEERS = sizeof peers / sizeof peers[0] };

static double time_of(void (*call)(void))
{
    struct timespec from, to;
    clock_gettime(CLOCK_MONOTONIC, &from);
    for (int i = 0; i < CALLS; i++)
        call();
    clock_gettime(CLOCK_MONOTONIC, &to);
    return ((double)(to.tv_sec - from.tv_sec) * 1e6 + (double)(to.tv_nsec - from.tv_nsec) / 1e3) / CALLS;
}

static int ascending(const void *a, const void *b)
{
    const double x = *(const double *)a, y = *(const double *)b;
    return (x > y) - (x < y);
}

static double median(const double *values)
{
    double sorted[ROUNDS];
    memcpy(sorted, values, sizeof sorted);
    qsort(sorted, ROUNDS, sizeof sorted[0], ascending);
    return sorted[ROUNDS / 2];
}

static void compare(const char *record, int ten_names)
{
    static double read[PEERS][ROUNDS], write[PEERS][ROUNDS], of_read[PEERS][ROUNDS], of_write[PEERS][ROUNDS];
    size_t bytes[PEERS];
    for (int i = 0; i < PEERS; i++)
        bytes[i] = peers[i].start(ten_names);
    for (int round = 0; round < ROUNDS; round++)
        for (int i = 0; i < PEERS; i++) {
            read[i][round] = time_of(peers[i].reading);
            write[i][round] = time_of(peers[i].writing);
            of_read[i][round] = read[0][round] / read[i][round];
            of_write[i][round] = write[0][round] / write[i][round];
        }
    printf("%s\n%-12s%8s%10s%22s%10s%22s\n", record, "", "bytes", "read", "binmode's part of it", "write", "binmode's part of it");
    for (int i = 0; i < PEERS; i++)
        printf("%-12s%8zu%10.2f%22.2f%10.2f%22.2f\n", peers[i].name, bytes[i], median(read[i]), median(of_read[i]),
               median(write[i]), median(of_write[i]));
}

int main(void)
{
    msgpack_sbuffer_init(&packed);
    msgpack_sbuffer_init(&packed_again);
    msgpack_unpacked_init(&unpacked);
    printf("Microseconds a call, medians of %d rounds in which all take turns; a part is the median of the rounds' ratios.\n\n", ROUNDS);
    compare("300 members with ten names, in 30 Structs", 1);
    printf("\n");
    compare("300 members with different names, in one Struct", 0);
    return 0;
}
