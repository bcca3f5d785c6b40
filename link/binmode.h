/*
 * Binmode RPC messages read and written, whole or in pieces, the cards of job files, and members looked up, also for two stations
 * that share one table: the functions that libbinmode.a exports, and helpers for the tables that they fill. For x86-64 Linux, in
 * C99 and later or C++11 and later.
 *
 *     uint32_t table[BINMODE_TABLE_WORDS];
 *     size_t rows, used, place;
 *     uint8_t answer = binmode_read(message, length, table, BINMODE_TABLE_WORDS, &rows, &used, &place);
 *     if (answer != BINMODE_ACCEPTED)
 *         printf("refused %u at %zu: %s\n", answer, place, binmode_answer_words(answer));
 *
 * No memory is allocated, nothing is kept from call to call but what the caller hands on, and of the C library only memset and
 * its like are used, so calls may run at the same time as long as each has its own buffers. docs/FORMAT.md says what a message,
 * a row and a job file are.
 *
 * What the caller owes, since no function can test it:
 *   - a pointer is not null, not even for a length of 0 (binmode_bytes makes an address of a null), is aligned for its type,
 *     and its length says how many elements may be used there;
 *   - what a function writes (a table or output, and each number it reports) overlaps neither another such thing nor
 *     anything that it reads;
 *   - no buffer is longer than PTRDIFF_MAX bytes;
 *   - during the call no one else writes what it reads, or touches what it writes;
 *   - the thread has the stack that is named below.
 * Anything else may be passed: every content, every length, every number of rows has its answer.
 *
 * A buffer need not be cleared before a call: what it held has no part in the answer, and all of it is settled afterwards; of a
 * table that is split between two stations, the station's share.
 */
#ifndef BINMODE_H
#define BINMODE_H

#include <stddef.h>
#include <stdint.h>

#if !defined(__x86_64__) || !defined(__LP64__)
#error "libbinmode.a is built for x86-64 Linux"
#endif

/* What GCC and Clang are told: no pointer of a call is null (they warn), and a variable stays though nothing refers to it. */
#if defined(__GNUC__)
#define BINMODE_NO_NULL __attribute__((nonnull))
#define BINMODE_KEPT __attribute__((used))
#if defined(__has_attribute)
#if __has_attribute(retain)
#undef BINMODE_KEPT
#define BINMODE_KEPT __attribute__((used, retain))
#endif
#endif
#else
#define BINMODE_NO_NULL
#define BINMODE_KEPT
#endif

#ifdef __cplusplus
extern "C" {
#endif

/*
 * The version of this interface. The minor version grows where something is added and all else stays. The major version grows
 * where a program that was compiled before would see something else: another layout of the table, another default, another
 * answer for the same bytes. Then it has to be compiled again with the new header, and its author looks at CHANGELOG.md; one that
 * reaches rows through the helpers below needs no change for another layout.
 *
 * No program links to another major version unaware: whatever includes this header refers to a function whose name has the
 * version's number, and an archive of another version does not have it ("undefined reference to `binmode_version_2'").
 */
#define BINMODE_VERSION_MAJOR 2
#define BINMODE_VERSION_MINOR 1

/* Gives the minor version of the archive. */
uint32_t binmode_version_2(void);

static uint32_t (*const binmode_linked_version)(void) BINMODE_KEPT = binmode_version_2;

/* The limits. */
#define BINMODE_MOST_BYTES 65536 /* of a message, and of a writer's text bytes */
#define BINMODE_MOST_ROWS 4096   /* of a table, however many words it has */
#define BINMODE_MOST_NESTING 32  /* the highest limit of nesting */
#define BINMODE_USUAL_NESTING 8  /* the limit of nesting of a call that states none */
#define BINMODE_ROW_WORDS 4      /* words of a row: kind, a, b, end; each stands in a column of the table */
#define BINMODE_TABLE_WORDS (BINMODE_MOST_ROWS * BINMODE_ROW_WORDS) /* words of a table that has room for any message */

/*
 * The limit of nesting: an Array or Struct stands in at most so many Arrays and Structs, itself counted; a Call's Array and a fault's
 * Struct count. The functions whose names end in _within take it, 1 to 32, and refuse any other number with
 * BINMODE_REFUSED_NO_LIMIT. The functions of the same names without _within are these with a limit of BINMODE_USUAL_NESTING, 8. A message
 * that is nested deeper is refused with BINMODE_REFUSED_TOO_DEEP, a table with BINMODE_REFUSED_NOT_WRITABLE. The functions that
 * read a card of a job file, look up, fill an index or ask for a text with defaults behind it have no limit to choose: for them it
 * is BINMODE_MOST_NESTING, and so it is for binmode_proves_shortest.
 *
 * A table that was read at some limit is never BINMODE_REFUSED_NOT_WRITABLE at that limit or a higher one, but may be at a lower one: what
 * binmode_read_within read at 32, or a card of a job file, is written by binmode_write_within at 32. What is written is read again at the
 * limit that it was written at, or a higher one. An answer of reading stays, with its place and rows, at a higher limit or with a larger
 * table, unless it is BINMODE_REFUSED_TOO_DEEP, BINMODE_REFUSED_NO_ROW, BINMODE_REFUSED_NOT_SPLIT or BINMODE_REFUSED_NO_LIMIT.
 */

/*
 * What a call takes of the stack, in bytes, its buffers not counted: bounds, above what compare/stack measures at the highest limit. It
 * grows with the nesting, and hardly with anything else. The other functions take under 1,024. What is said of a function is said of
 * the one of its name with _within too.
 */
#define BINMODE_STACK_READ 65536   /* binmode_read*, binmode_pieces_next; binmode_station_* that read */
#define BINMODE_STACK_LOOKUP 49152 /* binmode_lookup, binmode_position, binmode_default_text; binmode_station_* that look up */
#define BINMODE_STACK_WRITE 65536  /* binmode_write, binmode_write_hyperglyph, binmode_write_glyph; binmode_station_* of these */
#define BINMODE_STACK_INDEX 65536  /* binmode_index_fill, binmode_index_find */
#define BINMODE_STACK_PLAN 131072  /* binmode_write_planned, binmode_station_write_planned, binmode_proves_shortest */

/* The answers: acceptance, or the number of a refusal; for a message in pieces also that more is wanted. */
#define BINMODE_ACCEPTED 0
#define BINMODE_REFUSED_ENDED 1             /* read: the bytes end inside or before a needed item */
#define BINMODE_REFUSED_WRONG_PREFIX 2      /* read: the first bytes differ from "binmode-rpc:" */
#define BINMODE_REFUSED_UNEXPECTED_BYTE 3   /* read: a byte that begins nothing allowed there */
#define BINMODE_REFUSED_SHORT_ROOM 4        /* pieces: the room is shorter than 65,536 bytes */
#define BINMODE_REFUSED_BAD_TEXT 5          /* read: bad UTF-8, or a byte of 128 or more in a Double or DateTime */
#define BINMODE_REFUSED_UNSET_POSITION 6    /* read: recall of a position never set in this message */
#define BINMODE_REFUSED_STANDARD_NAME 7     /* read: an Other with a standard name */
#define BINMODE_REFUSED_TOO_DEEP 8          /* read: an Array or Struct in more than the limit, itself counted */
#define BINMODE_REFUSED_NO_ROW 9            /* read: no row left in the table */
#define BINMODE_REFUSED_TOO_LONG 10         /* both: message or text bytes over 65,536 */
#define BINMODE_REFUSED_NOT_WRITABLE 11     /* write, lookup, index, default text: a table is not writable */
#define BINMODE_REFUSED_FORM_TOO_LONG 12    /* write: the written form is over 65,536 bytes */
#define BINMODE_REFUSED_OUTPUT_TOO_SHORT 13 /* write: the output is shorter than the written form */
#define BINMODE_REFUSED_BAD_FAULT 14        /* read: a fault's Struct without exactly faultCode (Integer) and faultString (String) */
#define BINMODE_REFUSED_FILE_ENDED 15       /* job file: it ends before or inside a record, with no kind 2 yet */
#define BINMODE_REFUSED_WRONG_END 16        /* job file: a kind 2 body of wrong length or number */
#define BINMODE_REFUSED_BAD_VALUE 17        /* read: a Double or DateTime in ASCII that is no such text, as "5." or 30 February */
#define BINMODE_REFUSED_NO_MEMBER 18        /* lookup, index: the row is no Struct, or the member is absent or of the wrong sort */
#define BINMODE_REFUSED_TOO_MANY_DIGITS 19  /* lookup: a Double of more than 15 digits, or of more than 22 after the point */
#define BINMODE_REFUSED_REPEATED_KEY 20     /* read: a key that its Struct has already, compared as bytes */
#define BINMODE_REFUSED_SHORT_LIST 21       /* index: the list is shorter than the member count */
#define BINMODE_REFUSED_NOT_SPLIT 22        /* station: the row gives no shares, being 0 or not below the table's whole rows */
#define BINMODE_REFUSED_NO_LIMIT 23         /* read, pieces, write: the limit of nesting is not 1 to 32 */
#define BINMODE_REFUSED_NOT_TAKEN 24        /* write with a plan: the plan is not taken */
#define BINMODE_REFUSED_OUT_OF_RANGE 25     /* glyph: an integer that is not of 32 bits, with its sign */
#define BINMODE_REFUSED_NO_CARD 26          /* job file: a sound job ends before the card asked for */
#define BINMODE_MORE_WANTED 255             /* pieces: no answer yet */

/*
 * The layout of a table. With room for c rows (its words divided by four, rounded down, and 4,096 at most) a table is four columns
 * of c words each: c kinds, then c a's, then c b's, then c ends, so that word j of row r, 0 to 3 for kind, a, b and end, stands at
 * c * j + r. Words after the fourth column belong to no row. c is the table's room and not its number of rows: of a table that was
 * read, the words of each column behind its rows are zeros, and so are the words after the columns. binmode_word_place, below, is
 * this rule, binmode_column gives a column, and binmode_row_at a row.
 */

/*
 * The kinds of rows. Rows stand in message order, parents before children; `end` is the row number just after the item's
 * last descendant. An offset counts from the message's first byte.
 *
 *                                           a                       b        children
 */
#define BINMODE_KIND_CALL 1       /*          0                       2        method (a String), Array */
#define BINMODE_KIND_RESPONSE 2   /*          0                       1        the Value */
#define BINMODE_KIND_FAULT 3      /*          0                       1        the Struct */
#define BINMODE_KIND_INTEGER 4    /*          its 32 bits             0        none */
#define BINMODE_KIND_BOOLEAN 5    /*          1 or 0                  0        none */
#define BINMODE_KIND_DOUBLE 6     /*          offset of its content   length   none */
#define BINMODE_KIND_DATE_TIME 7  /*          offset of its content   length   none */
#define BINMODE_KIND_BINARY 8     /*          offset of its content   length   none */
#define BINMODE_KIND_ARRAY 9      /*          0                       count    the Values */
#define BINMODE_KIND_STRUCT 10    /*          0                       pairs    key (a String), Value, key, Value ..; the keys differ */
#define BINMODE_KIND_STRING 11    /*          offset of its text      length   none; a recalled string has the recorded text's */
#define BINMODE_KIND_OTHER 12     /*          0                       2        type name (a String), Binary */

/*
 * The kinds that rows of glyph messages have besides: an integer is an Integer there, a unicode a String, a bytearray a Binary, T and F are
 * Booleans, a list is an Array and a dict a Struct.
 */
#define BINMODE_KIND_NIL 13          /*       0                       0        none */
#define BINMODE_KIND_ORDERED_DICT 14 /*       0                       pairs    key (a String), object, key, object ..; the keys differ */
#define BINMODE_KIND_EXTENSION 15    /*       0                       3        name (a String), attributes (either dict), content */
#define BINMODE_KIND_NODE 16         /*       0                       3        three objects of any sort; in messages of glyph 0.5 alone */

/*
 * Reads a message into a table, at the limit of nesting 8.
 *
 *   message, message_len  the bytes of the message; bytes after its end are ignored, but count for BINMODE_REFUSED_TOO_LONG
 *   table, table_words    the table; it has room for table_words / 4 rows, rounded down, and 4,096 at most. binmode_row_at
 *                         gives a row of it, binmode_column a column
 *   rows                  is set to the number of rows; 0 on a refusal
 *   used                  is set to the number of message bytes used, those after its end not counted; 0 on a refusal
 *   place                 is set to 0 on acceptance; on a refusal to the offset of the first byte of the item that is
 *                         refused, or to message_len if nothing stands there:
 *                            BINMODE_REFUSED_TOO_LONG, BINMODE_REFUSED_WRONG_PREFIX, and BINMODE_REFUSED_ENDED for fewer
 *                            than 12 bytes: 0;
 *                            BINMODE_REFUSED_STANDARD_NAME: the offset of the Other's `O`;
 *                            BINMODE_REFUSED_BAD_FAULT: the offset of the Struct's `S`, which is read whole first;
 *                            BINMODE_REFUSED_REPEATED_KEY: the second key's, before its value is looked at;
 *                            the others: the item's, which is 12 for the Call or Response, 13 for what follows `R` and 14
 *                            for what follows `RF`.
 *
 * Gives BINMODE_ACCEPTED, and the table has the rows, and zeros in all other words; or a refusal's number (1 to 3, 5 to 10, 14, 17 or
 * 20), and the whole table is zeros. The first failure from left to right decides.
 */
uint8_t binmode_read(const uint8_t *message, size_t message_len, uint32_t *table, size_t table_words, size_t *rows,
                     size_t *used, size_t *place) BINMODE_NO_NULL;

/*
 * binmode_read at another limit of nesting, 1 to 32. Any other gives BINMODE_REFUSED_NO_LIMIT, before all other refusals, with place 0 and a
 * table of zeros.
 */
uint8_t binmode_read_within(const uint8_t *message, size_t message_len, uint32_t *table, size_t table_words, size_t limit,
                            size_t *rows, size_t *used, size_t *place) BINMODE_NO_NULL;

/*
 * Reads a message of another data house into a table: hyperglyph 1.0, or glyph 0.5 of its old depot. There is no prefix; blanks may stand
 * where the format allows them, and around the root.
 *
 *   message .. table_words  as for binmode_read
 *   limit                   as for binmode_read_within: lists, dicts, extensions and nodes count
 *   rows, used, place       as for binmode_read; blanks behind the root are not counted as used
 *
 * Gives BINMODE_ACCEPTED, and the table has the rows, and zeros in all other words; or a refusal's number (1, 3, 5, 8, 9, 10, 20, 23 or 25),
 * and the whole table is zeros. A place is that of the item's first byte, or, where an object or the `;` of one with children is due, of the
 * byte there or the bytes' end. Such a table is for binmode_write_hyperglyph and binmode_write_glyph; the other functions of this header that
 * take a table give BINMODE_REFUSED_NOT_WRITABLE for it.
 */
uint8_t binmode_read_hyperglyph(const uint8_t *message, size_t message_len, uint32_t *table, size_t table_words, size_t limit,
                                size_t *rows, size_t *used, size_t *place) BINMODE_NO_NULL;

uint8_t binmode_read_glyph(const uint8_t *message, size_t message_len, uint32_t *table, size_t table_words, size_t limit,
                           size_t *rows, size_t *used, size_t *place) BINMODE_NO_NULL;

/*
 * Writes the rows of a table as a message, at the limit of nesting 8, in the one written form: texts that occur at least twice as
 * strings get the positions 0, 1, 2 .. (256 at most) in order of first occurrence, and nothing follows the message.
 *
 *   table, table_words    the table; words behind the stated rows are looked at in no column
 *   rows                  the stated number of rows; a table with 0 rows, over 4,096, or more than its words hold is not
 *                         writable
 *   text, text_len        the bytes in which the contents lie; for a table made by binmode_read, the message
 *   output, output_len    where the message is written
 *   length                is set to the number of bytes of the message; 0 on a refusal
 *
 * Gives BINMODE_ACCEPTED, and the output has the message and then zeros; or a refusal's number (10 to 13, tested in this
 * order), and the whole output is zeros. A refusal by the writer has no place.
 */
uint8_t binmode_write(const uint32_t *table, size_t table_words, size_t rows, const uint8_t *text, size_t text_len,
                      uint8_t *output, size_t output_len, size_t *length) BINMODE_NO_NULL;

/*
 * binmode_write at another limit of nesting, 1 to 32. Any other gives BINMODE_REFUSED_NO_LIMIT, before all other refusals, with an output of
 * zeros.
 */
uint8_t binmode_write_within(const uint32_t *table, size_t table_words, size_t rows, const uint8_t *text, size_t text_len,
                             size_t limit, uint8_t *output, size_t output_len, size_t *length) BINMODE_NO_NULL;

/*
 * Writes the rows of a table as a message of another data house, in the one written form: no blanks, integers and lengths without plus or
 * leading zeros, empty texts as `u;` and `b;`, the members of a plain dict in byte order of their keys, and all else in the order of the
 * rows. Nothing follows the message.
 *
 *   table .. text_len       as for binmode_write; for a table made by binmode_read_hyperglyph or binmode_read_glyph, the message
 *   limit                   as for binmode_write_within: lists, dicts, extensions and nodes count
 *   output, output_len      where the message is written
 *   length                  is set to the number of bytes of the message; 0 on a refusal
 *
 * Gives BINMODE_ACCEPTED, and the output has the message and then zeros; or a refusal's number (23, then 10 to 13, tested in this order),
 * and the whole output is zeros. A kind that only Binmode has, or a node for hyperglyph, is BINMODE_REFUSED_NOT_WRITABLE. Behind the message
 * the reader takes blanks alone and no zeros: hand it `length` bytes.
 */
uint8_t binmode_write_hyperglyph(const uint32_t *table, size_t table_words, size_t rows, const uint8_t *text, size_t text_len,
                                 size_t limit, uint8_t *output, size_t output_len, size_t *length) BINMODE_NO_NULL;

uint8_t binmode_write_glyph(const uint32_t *table, size_t table_words, size_t rows, const uint8_t *text, size_t text_len,
                            size_t limit, uint8_t *output, size_t output_len, size_t *length) BINMODE_NO_NULL;

/*
 * Writes the rows of a table as a message, at the limit of nesting 8, by a plan: for jobs in which more than 256 texts repeat. A plan says
 * how each string is sent, two bytes for each in row order (method, keys and type names are strings too): its form and its position.
 *
 *   table .. text_len     as for binmode_write
 *   plan, plan_len        the plan. A form is BINMODE_PLAN_REGULAR, and the position is 0; BINMODE_PLAN_RECORDED, and the position holds
 *                         the text from then on; or BINMODE_PLAN_RECALLED, and the position holds this very text. A plan that has another
 *                         length or other values, or recalls what its position does not hold, is not taken
 *   output, output_len    where the message is written
 *   length                is set to the number of bytes of the message; 0 on a refusal
 *
 * Gives BINMODE_ACCEPTED, and the output has the shorter of the plan's message and of what binmode_write writes (that one, if they are
 * equally long), and then zeros; or a refusal's number, and the whole output is zeros. Tested in this order: BINMODE_REFUSED_TOO_LONG,
 * BINMODE_REFUSED_NOT_WRITABLE, BINMODE_REFUSED_NOT_TAKEN, and of the shorter of the two BINMODE_REFUSED_FORM_TOO_LONG and
 * BINMODE_REFUSED_OUTPUT_TOO_SHORT. Each has place 0.
 */
#define BINMODE_PLAN_REGULAR 0
#define BINMODE_PLAN_RECORDED 1
#define BINMODE_PLAN_RECALLED 2
uint8_t binmode_write_planned(const uint32_t *table, size_t table_words, size_t rows, const uint8_t *text, size_t text_len,
                              const uint8_t *plan, size_t plan_len, uint8_t *output, size_t output_len,
                              size_t *length) BINMODE_NO_NULL;

/*
 * binmode_write_planned at another limit of nesting, 1 to 32. Any other gives BINMODE_REFUSED_NO_LIMIT, before all other refusals. Whether a
 * plan is taken does not depend on the limit.
 */
uint8_t binmode_write_planned_within(const uint32_t *table, size_t table_words, size_t rows, const uint8_t *text,
                                     size_t text_len, const uint8_t *plan, size_t plan_len, size_t limit, uint8_t *output,
                                     size_t output_len, size_t *length) BINMODE_NO_NULL;

/*
 * Whether a plan and prices prove that the plan's message is the shortest: that no byte string that reads with the table's meaning has fewer
 * bytes, whatever forms and positions it has, and whatever follows its end.
 *
 *   table .. plan_len     as for binmode_write_planned
 *   prices, prices_len    a price for each string in row order: what it is worth to hold one position until the next string. Any may be
 *                         given; the program `plan` finds those that prove
 *
 * Gives 1 for yes, which does not depend on a limit of nesting. 0 is no statement: the table is not writable at 32, the plan is not taken,
 * there are not as many prices as strings, the strings take over 65,536 bytes, or these prices do not prove it.
 */
uint8_t binmode_proves_shortest(const uint32_t *table, size_t table_words, size_t rows, const uint8_t *text, size_t text_len,
                                const uint8_t *plan, size_t plan_len, const uint32_t *prices, size_t prices_len) BINMODE_NO_NULL;

/*
 * Job files. A job file is a row of records: a four-byte body length and a two-byte kind, both least significant byte first,
 * then the body. Kind 1 is one card, a message; kind 2 ends the job, and its body is four bytes, the number of kind 1
 * records before it; other kinds are stepped over, and bytes after kind 2 are ignored. A file may have any length.
 *
 * Reads a card into a table, as binmode_read_within would read its body alone, at the limit of nesting 32.
 *
 *   file, file_len        the bytes of the job file
 *   number                the card's number, counted from 0
 *   table, table_words    the table, as for binmode_read; offsets in its rows count from the card's first byte
 *   rows                  is set to the number of rows; 0 on a refusal
 *   used                  is set to the number of the body's bytes used; 0 on a refusal
 *   place                 is set to 0 on acceptance; on a refusal that is the card's own (those of binmode_read) to its place,
 *                         counted from the card's first byte; on BINMODE_REFUSED_FILE_ENDED, BINMODE_REFUSED_WRONG_END and
 *                         BINMODE_REFUSED_NO_CARD to the first byte in the file of the record that gives it (file_len, if none
 *                         begins there)
 *   body                  is set to the first byte of the card's body in the file; 0 on a refusal
 *
 * Gives BINMODE_ACCEPTED, and the table has the rows and then zeros; or a refusal's number, and the whole table is zeros. A
 * card whose record stands whole before a fault still reads. The records before the card are stepped over in each call: to
 * read all cards of a job, use binmode_next_card.
 */
uint8_t binmode_read_card(const uint8_t *file, size_t file_len, size_t number, uint32_t *table, size_t table_words,
                          size_t *rows, size_t *used, size_t *place, size_t *body) BINMODE_NO_NULL;

/*
 * Finds the next card of a job file, for one who goes from card to card. Begin with number 0 and from 0; after a card, go on
 * with the next number and with from = *start + *length. What is found so is what binmode_read_card reads.
 *
 *   file, file_len        the bytes of the job file
 *   number                how many cards stand before `from`, which is the number of the card that is looked for
 *   from                  where the next record begins
 *   start, length         are set to where the card's body lies in the file; 0 if there is none
 *   place                 is set to 0, or to the place of the refusal: the first byte in the file of the record that gives it. If
 *                         none begins at `from` (it is file_len or more), that is `from` itself, with
 *                         BINMODE_REFUSED_FILE_ENDED
 *
 * Gives BINMODE_ACCEPTED, or BINMODE_REFUSED_FILE_ENDED, BINMODE_REFUSED_WRONG_END or BINMODE_REFUSED_NO_CARD. A sound job ends
 * with BINMODE_REFUSED_NO_CARD.
 */
uint8_t binmode_next_card(const uint8_t *file, size_t file_len, size_t number, size_t from, size_t *start, size_t *length,
                          size_t *place) BINMODE_NO_NULL;

/*
 * Looking up. A member of a Struct is a key and a value; it is asked for by the bytes of its key, which no other member
 * of the Struct has. Both functions take any table, as binmode_write does, and judge it first: one that is not writable at the
 * limit of nesting 32 is refused, so nothing has to be tested before. For a table made by binmode_read, the text bytes are the message.
 *
 * The sorts of answers.
 */
#define BINMODE_SORT_WHOLE_NUMBER 1 /* an Integer, signed */
#define BINMODE_SORT_DECIMAL 2      /* a Double */
#define BINMODE_SORT_YES_OR_NO 3    /* a Boolean */
#define BINMODE_SORT_TEXT 4         /* a String */
#define BINMODE_SORT_ITEM 5         /* a DateTime, Binary, Array, Struct or Other, by its row */

/*
 * Looks up a member of a Struct.
 *
 *   table, table_words    the table; words behind the stated rows are looked at in no column
 *   rows                  the stated number of rows
 *   text, text_len        the bytes in which the contents lie
 *   row                   the Struct's row
 *   key, key_len          the bytes of the key
 *   sort                  is set to the sort of the answer; 0 on a refusal
 *   number                is set to the whole number, to 1 or 0 for yes or no, or to the other item's row; else to 0
 *   decimal               is set to the decimal; else to plus zero. Its value is the double nearest to the number that the text
 *                         says, with its sign, so `-0.0` is minus zero
 *   offset, length        are set to where the text lies in the text bytes; else to 0
 *
 * Gives BINMODE_ACCEPTED, or a refusal's number, tested in this order: BINMODE_REFUSED_NOT_WRITABLE, also for more than 65,536
 * text bytes; BINMODE_REFUSED_NO_MEMBER; BINMODE_REFUSED_TOO_MANY_DIGITS, where leading zeros are not counted. Each has place 0.
 */
uint8_t binmode_lookup(const uint32_t *table, size_t table_words, size_t rows, const uint8_t *text, size_t text_len,
                       size_t row, const uint8_t *key, size_t key_len, uint8_t *sort, int64_t *number, double *decimal,
                       size_t *offset, size_t *length) BINMODE_NO_NULL;

/*
 * The position in a Struct: its members `x`, `y` and `turn`, each a Double, as three calls of binmode_lookup give them; the table
 * is judged once. The parameters are those of binmode_lookup.
 *
 *   x, y, turn            are set to the position; to plus zero, all three, on a refusal
 *
 * Gives BINMODE_ACCEPTED, or BINMODE_REFUSED_NOT_WRITABLE; BINMODE_REFUSED_NO_MEMBER, if one of the three is absent or no
 * Double, whatever the others are; or BINMODE_REFUSED_TOO_MANY_DIGITS, if one of them has too many. Each has place 0.
 */
uint8_t binmode_position(const uint32_t *table, size_t table_words, size_t rows, const uint8_t *text, size_t text_len,
                         size_t row, double *x, double *y, double *turn) BINMODE_NO_NULL;

/*
 * An index of a Struct's members: a list of entries, one for each member, in byte order of their keys (a key that begins another
 * stands before it). Looking up through it compares log n keys and not n. Every call judges its table, which costs more than
 * looking a key up from the front; so ask for many keys in one call, and for one key alone use binmode_lookup.
 */
struct binmode_entry { /* a member, by its two rows; 0 and 0 if the entry is not used */
    uint32_t key;
    uint32_t value;
};

/* What is reported of one key: what binmode_lookup gives and sets. */
struct binmode_report {
    uint8_t refusal; /* BINMODE_ACCEPTED, or the refusal's number */
    uint8_t sort;    /* BINMODE_SORT_*, or 0 */
    int64_t number;
    double decimal;
    size_t offset;
    size_t length;
};

/*
 * Fills a list with the index of a Struct.
 *
 *   table .. row          as for binmode_lookup
 *   list, list_len        the list and how many entries it has. All of them are written: an entry for each member, in order, and
 *                         unused ones behind them; on a refusal all are unused. A Struct has at most 2,047 members
 *
 * Gives BINMODE_ACCEPTED; or BINMODE_REFUSED_NOT_WRITABLE; BINMODE_REFUSED_NO_MEMBER for a row that is no Struct; or
 * BINMODE_REFUSED_SHORT_LIST. Each has place 0.
 */
uint8_t binmode_index_fill(const uint32_t *table, size_t table_words, size_t rows, const uint8_t *text, size_t text_len,
                           size_t row, struct binmode_entry *list, size_t list_len) BINMODE_NO_NULL;

/*
 * Looks up keys through a list: a report for each, as for that many single lookups, with the table judged once.
 *
 *   table .. row          as for binmode_lookup
 *   list, list_len        the list. Through one that binmode_index_fill made of the same Struct each key is answered as by
 *                         binmode_lookup. Any other is safe too: then a key is answered as by binmode_lookup or with
 *                         BINMODE_REFUSED_NO_MEMBER, and always with that if no entry names the key's two rows
 *   keys, keys_len        the bytes of the keys, one behind the other
 *   ends, ends_len        where each key ends in `keys`; it begins where the one before it ends, the first at 0. A key that would
 *                         end before it begins, or has no end, is empty; one that would end behind `keys` ends there
 *   reports, reports_len  the reports, as many as there are keys. All of them are written
 *
 * Gives BINMODE_ACCEPTED, or BINMODE_REFUSED_NOT_WRITABLE, and then each report has that.
 */
uint8_t binmode_index_find(const uint32_t *table, size_t table_words, size_t rows, const uint8_t *text, size_t text_len,
                           size_t row, const struct binmode_entry *list, size_t list_len, const uint8_t *keys, size_t keys_len,
                           const uint32_t *ends, size_t ends_len, struct binmode_report *reports, size_t reports_len) BINMODE_NO_NULL;

/*
 * Job defaults behind a card: a text asked for by key is the card's if the card's Struct has the key, otherwise the defaults'. The
 * card's member decides even if it is no String. Both tables are judged in every call, as for binmode_lookup.
 *
 *   table .. row          the card: its table, stated rows, text bytes and Struct's row, as for binmode_lookup
 *   defaults_table .. defaults_row
 *                         the defaults: the same
 *   key, key_len          the bytes of the key
 *   source                is set to BINMODE_FROM_CARD or BINMODE_FROM_DEFAULTS; to BINMODE_FROM_CARD on a refusal
 *   offset, length        are set to where the text lies in that one's text bytes; to 0 on a refusal. It lies there wholly, and
 *                         is UTF-8
 *
 * Gives BINMODE_ACCEPTED; or BINMODE_REFUSED_NOT_WRITABLE, for the card or else for the defaults; or BINMODE_REFUSED_NO_MEMBER,
 * if either row is no Struct, if neither has the key, or if the member found is no String. Each has place 0.
 */
#define BINMODE_FROM_CARD 0
#define BINMODE_FROM_DEFAULTS 1
uint8_t binmode_default_text(const uint32_t *table, size_t table_words, size_t rows, const uint8_t *text, size_t text_len,
                             size_t row, const uint32_t *defaults_table, size_t defaults_words, size_t defaults_rows,
                             const uint8_t *defaults_text, size_t defaults_len, size_t defaults_row, const uint8_t *key,
                             size_t key_len, uint8_t *source, size_t *offset, size_t *length) BINMODE_NO_NULL;

/*
 * Messages in pieces, as a serial port or a pipe brings them. The pieces are held in a room that the caller lends, and after
 * each the answer is BINMODE_MORE_WANTED, BINMODE_ACCEPTED or the number of a refusal, as soon as it is settled:
 *
 *     struct binmode_pieces state;
 *     binmode_pieces_start(&state);
 *     while (state.answer == BINMODE_MORE_WANTED && (a piece comes))
 *         binmode_pieces_next(&state, piece, piece_len, room, room_len, table, table_words);
 *     binmode_pieces_end(&state, room, room_len, table, table_words);
 *
 * The caller hands back the state as it was last given, with one room and one table that are left alone in between. Then the
 * answer and the table are those of binmode_read on all the bytes at once, however they are cut, if they are at most 65,536.
 *
 * The state of a message in pieces: the answer so far, with its numbers.
 */
struct binmode_pieces {
    size_t answer; /* BINMODE_MORE_WANTED, BINMODE_ACCEPTED or the number of a refusal */
    size_t rows;   /* the number of rows; 0 unless accepted */
    size_t used;   /* the number of bytes used; 0 unless accepted */
    size_t place;  /* the place of a refusal; where more is wanted, the place that BINMODE_REFUSED_ENDED would have if it ended here */
    size_t held;   /* where more is wanted, how many bytes are held in the room; else 0 */
    size_t wanted; /* where more is wanted: with fewer bytes than this held no other answer comes (it may be no more than are held, and is at
                      most 65,537, the byte with which there is an answer in any case); else 0 */
};

/*
 * Sets the state for a message of which nothing has come: more is wanted. The calls below take a state of zeros, which was never started, for
 * such a one too, and so any that says BINMODE_ACCEPTED with 0 rows, since no message has none.
 */
void binmode_pieces_start(struct binmode_pieces *state) BINMODE_NO_NULL;

/*
 * Takes the next piece.
 *
 *   state                 as the last call left it; it is set to what stands after this piece
 *   piece, piece_len      the bytes of the piece; there may be none
 *   room, room_len        where the bytes are held, of at least 65,536 bytes. It begins with the bytes of the pieces up to the
 *                         one that decides, cut at 65,536; no other byte of it is ever changed. Offsets in rows count from its
 *                         first byte
 *   table, table_words    the table, as for binmode_read. While more is wanted it is zeros
 *
 * Gives state->answer. Once it is not BINMODE_MORE_WANTED, later pieces change nothing. Refusals are those of binmode_read on the
 * bytes so far, but for:
 *   BINMODE_REFUSED_ENDED       is not given: it says that more is wanted
 *   BINMODE_REFUSED_TOO_LONG    only if the first 65,536 bytes have no answer and another byte comes. A message that is accepted
 *                               or refused within them stays so, however far its last piece goes on
 *   BINMODE_REFUSED_SHORT_ROOM  before all else, whatever the state: the room is shorter than 65,536. The room is unchanged, the
 *                               table zeros, the place 0
 * Nothing is read again until state->wanted bytes are held. Any other state that no call gave, or a room or table that was changed in
 * between, has an answer too, but it says nothing of any message. The limit of nesting is 8.
 */
uint8_t binmode_pieces_next(struct binmode_pieces *state, const uint8_t *piece, size_t piece_len, uint8_t *room,
                            size_t room_len, uint32_t *table, size_t table_words) BINMODE_NO_NULL;

/*
 * Says that no more pieces come. Where more is wanted the answer becomes BINMODE_REFUSED_ENDED, at its place, and the table is
 * zeros; any other answer stays, and so does the table. BINMODE_REFUSED_SHORT_ROOM comes before all else here too. The room's bytes
 * are not looked at. Gives state->answer.
 */
uint8_t binmode_pieces_end(struct binmode_pieces *state, const uint8_t *room, size_t room_len, uint32_t *table,
                           size_t table_words) BINMODE_NO_NULL;

/*
 * binmode_pieces_next and binmode_pieces_end at another limit of nesting, 1 to 32, which is to be the same in all calls for one message: with
 * more than one, the answers say nothing of any message. Any other limit gives BINMODE_REFUSED_NO_LIMIT, before all else and whatever the
 * state, also BINMODE_REFUSED_SHORT_ROOM: the room is unchanged, the table zeros, the place 0.
 */
uint8_t binmode_pieces_next_within(struct binmode_pieces *state, const uint8_t *piece, size_t piece_len, uint8_t *room,
                                   size_t room_len, uint32_t *table, size_t table_words, size_t limit) BINMODE_NO_NULL;

uint8_t binmode_pieces_end_within(struct binmode_pieces *state, const uint8_t *room, size_t room_len, uint32_t *table,
                                  size_t table_words, size_t limit) BINMODE_NO_NULL;

/*
 * Two stations on one table. The table is split at a row: the rows below it are station four's share, the rest of the whole rows
 * station five's. On its share a station's call does and tells what the call without a station does and tells for a table that is
 * as long as the share: the share's room is its own rows, 4,096 at most, its columns are inside its own words and as long as its
 * room, its rows are counted from its first, and all its words are settled. No other word of the table is changed, neither of the other's share nor beyond the last whole row.
 *
 *     uint32_t table[BINMODE_TABLE_WORDS];
 *     binmode_station_read(message, length, table, BINMODE_TABLE_WORDS, 1024, BINMODE_STATION_FOUR, &rows, &used, &place);
 *
 *   split                 the row: from 1 to table_words / 4 - 1
 *   station               BINMODE_STATION_FOUR or BINMODE_STATION_FIVE
 *
 * With any other row or station every call gives BINMODE_REFUSED_NOT_SPLIT, before all other refusals. Then nothing that was lent
 * is changed, no word of the table and no byte of an output or a room; the numbers that are reported are those of a refusal, with
 * place 0.
 *
 * During a call only the station's share is written, but the whole table counts as lent: two calls on one table at the same time
 * are not allowed. Who wants that lends each station its own share, by binmode_share, to the functions above.
 */
#define BINMODE_STATION_FOUR 4
#define BINMODE_STATION_FIVE 5

/*
 * Where a station's share lies in a table of so many words: `first` is set to its first word, `length` to how many words it has;
 * both to 0 on a refusal. `table + first` with `length` words is a table of its own, for any function of this header and for the
 * helpers below.
 */
uint8_t binmode_share(size_t table_words, size_t split, uint8_t station, size_t *first, size_t *length) BINMODE_NO_NULL;

/* binmode_read into a station's share. */
uint8_t binmode_station_read(const uint8_t *message, size_t message_len, uint32_t *table, size_t table_words, size_t split,
                             uint8_t station, size_t *rows, size_t *used, size_t *place) BINMODE_NO_NULL;

/* binmode_read_within into a station's share. BINMODE_REFUSED_NO_LIMIT comes behind BINMODE_REFUSED_NOT_SPLIT, and makes the share zeros. */
uint8_t binmode_station_read_within(const uint8_t *message, size_t message_len, uint32_t *table, size_t table_words,
                                    size_t split, uint8_t station, size_t limit, size_t *rows, size_t *used,
                                    size_t *place) BINMODE_NO_NULL;

/* binmode_read_hyperglyph and binmode_read_glyph into a station's share. */
uint8_t binmode_station_read_hyperglyph(const uint8_t *message, size_t message_len, uint32_t *table, size_t table_words,
                                        size_t split, uint8_t station, size_t limit, size_t *rows, size_t *used,
                                        size_t *place) BINMODE_NO_NULL;

uint8_t binmode_station_read_glyph(const uint8_t *message, size_t message_len, uint32_t *table, size_t table_words,
                                   size_t split, uint8_t station, size_t limit, size_t *rows, size_t *used,
                                   size_t *place) BINMODE_NO_NULL;

/* binmode_read_card into a station's share. */
uint8_t binmode_station_read_card(const uint8_t *file, size_t file_len, size_t number, uint32_t *table, size_t table_words,
                                  size_t split, uint8_t station, size_t *rows, size_t *used, size_t *place,
                                  size_t *body) BINMODE_NO_NULL;

/*
 * binmode_pieces_next and binmode_pieces_end into a station's share, with a state that binmode_pieces_start set. In between the
 * other station may use the table: it is the share that has to be left alone. On BINMODE_REFUSED_NOT_SPLIT, which comes before
 * BINMODE_REFUSED_SHORT_ROOM, the state is as it was too, so that the message can go on; the result is then not state->answer.
 */
uint8_t binmode_station_pieces_next(struct binmode_pieces *state, const uint8_t *piece, size_t piece_len, uint8_t *room,
                                    size_t room_len, uint32_t *table, size_t table_words, size_t split,
                                    uint8_t station) BINMODE_NO_NULL;

uint8_t binmode_station_pieces_end(struct binmode_pieces *state, const uint8_t *room, size_t room_len, uint32_t *table,
                                   size_t table_words, size_t split, uint8_t station) BINMODE_NO_NULL;

/* binmode_pieces_next_within and binmode_pieces_end_within into a station's share; BINMODE_REFUSED_NOT_SPLIT comes first here too. */
uint8_t binmode_station_pieces_next_within(struct binmode_pieces *state, const uint8_t *piece, size_t piece_len, uint8_t *room,
                                           size_t room_len, uint32_t *table, size_t table_words, size_t split, uint8_t station,
                                           size_t limit) BINMODE_NO_NULL;

uint8_t binmode_station_pieces_end_within(struct binmode_pieces *state, const uint8_t *room, size_t room_len, uint32_t *table,
                                          size_t table_words, size_t split, uint8_t station, size_t limit) BINMODE_NO_NULL;

/* binmode_write of a station's share: `rows` are stated from the share's first row on. */
uint8_t binmode_station_write(const uint32_t *table, size_t table_words, size_t split, uint8_t station, size_t rows,
                              const uint8_t *text, size_t text_len, uint8_t *output, size_t output_len,
                              size_t *length) BINMODE_NO_NULL;

/* binmode_write_within of a station's share. */
uint8_t binmode_station_write_within(const uint32_t *table, size_t table_words, size_t split, uint8_t station, size_t rows,
                                     const uint8_t *text, size_t text_len, size_t limit, uint8_t *output, size_t output_len,
                                     size_t *length) BINMODE_NO_NULL;

/* binmode_write_hyperglyph and binmode_write_glyph of a station's share. */
uint8_t binmode_station_write_hyperglyph(const uint32_t *table, size_t table_words, size_t split, uint8_t station, size_t rows,
                                         const uint8_t *text, size_t text_len, size_t limit, uint8_t *output,
                                         size_t output_len, size_t *length) BINMODE_NO_NULL;

uint8_t binmode_station_write_glyph(const uint32_t *table, size_t table_words, size_t split, uint8_t station, size_t rows,
                                    const uint8_t *text, size_t text_len, size_t limit, uint8_t *output, size_t output_len,
                                    size_t *length) BINMODE_NO_NULL;

/* binmode_write_planned of a station's share. */
uint8_t binmode_station_write_planned(const uint32_t *table, size_t table_words, size_t split, uint8_t station, size_t rows,
                                      const uint8_t *text, size_t text_len, const uint8_t *plan, size_t plan_len,
                                      uint8_t *output, size_t output_len, size_t *length) BINMODE_NO_NULL;

/* binmode_write_planned_within of a station's share. */
uint8_t binmode_station_write_planned_within(const uint32_t *table, size_t table_words, size_t split, uint8_t station,
                                             size_t rows, const uint8_t *text, size_t text_len, const uint8_t *plan,
                                             size_t plan_len, size_t limit, uint8_t *output, size_t output_len,
                                             size_t *length) BINMODE_NO_NULL;

/* binmode_lookup in a station's share: `row` is counted from the share's first, and so is a row that is the answer. */
uint8_t binmode_station_lookup(const uint32_t *table, size_t table_words, size_t split, uint8_t station, size_t rows,
                               const uint8_t *text, size_t text_len, size_t row, const uint8_t *key, size_t key_len,
                               uint8_t *sort, int64_t *number, double *decimal, size_t *offset,
                               size_t *length) BINMODE_NO_NULL;

/* binmode_position in a station's share. */
uint8_t binmode_station_position(const uint32_t *table, size_t table_words, size_t split, uint8_t station, size_t rows,
                                 const uint8_t *text, size_t text_len, size_t row, double *x, double *y,
                                 double *turn) BINMODE_NO_NULL;

/*
 * Helpers, compiled into the program that uses them. They take any table, also one that no call filled: a row that is not there is four
 * zeros, content that lies outside the text bytes is none, and going from child to child comes to an end.
 *
 * What they look at: a table, its stated number of rows, and the bytes in which its contents lie.
 *
 *     struct binmode_view card = {table, BINMODE_TABLE_WORDS, rows, message, used};
 *     for (size_t key = binmode_first_child(&card, row); key != 0; key = binmode_next_member(&card, row, key))
 *         (the value is at row key + 1)
 */
struct binmode_view {
    const uint32_t *table;
    size_t table_words;
    size_t rows;
    const uint8_t *text;
    size_t text_len;
};

struct binmode_row {
    uint32_t kind; /* BINMODE_KIND_*; no row that was read has kind 0 */
    uint32_t a;
    uint32_t b;
    uint32_t end;
};

/* Bytes that a call may be lent: a null pointer is made the address of a byte, which is good for a length of 0. */
static inline const uint8_t *binmode_bytes(const void *bytes)
{
    return (const uint8_t *)(bytes == NULL ? "" : bytes);
}

/* How many rows a table of so many words has room for. */
static inline size_t binmode_room(size_t table_words)
{
    size_t rows = table_words / BINMODE_ROW_WORDS;
    return rows < BINMODE_MOST_ROWS ? rows : BINMODE_MOST_ROWS;
}

/* Where the word of a row stands, 0 to 3 for kind, a, b and end. The one place that knows the layout of a table. */
static inline size_t binmode_word_place(size_t table_words, size_t row, size_t word)
{
    return binmode_room(table_words) * word + row;
}

/* A column of a table, 0 to 3 for kind, a, b and end: word r of it is that of row r. It has binmode_room(table_words) words. */
static inline const uint32_t *binmode_column(const uint32_t *table, size_t table_words, size_t word)
{
    return table + binmode_word_place(table_words, 0, word);
}

/* The row of that number; four zeros if it is past the stated rows or the table's room. */
static inline struct binmode_row binmode_row_at(const struct binmode_view *view, size_t row)
{
    struct binmode_row found = {0, 0, 0, 0};
    if (row >= view->rows || row >= binmode_room(view->table_words))
        return found;
    found.kind = view->table[binmode_word_place(view->table_words, row, 0)];
    found.a = view->table[binmode_word_place(view->table_words, row, 1)];
    found.b = view->table[binmode_word_place(view->table_words, row, 2)];
    found.end = view->table[binmode_word_place(view->table_words, row, 3)];
    return found;
}

/* Sets a row of a table that is to be written. Gives 1, or 0 if the table has no room for it, and nothing is set then. */
static inline int binmode_set_row(uint32_t *table, size_t table_words, size_t row, struct binmode_row words)
{
    if (row >= binmode_room(table_words))
        return 0;
    table[binmode_word_place(table_words, row, 0)] = words.kind;
    table[binmode_word_place(table_words, row, 1)] = words.a;
    table[binmode_word_place(table_words, row, 2)] = words.b;
    table[binmode_word_place(table_words, row, 3)] = words.end;
    return 1;
}

/* The first child of an item, by rows; 0 if it has none (row 0 is no one's child). */
static inline size_t binmode_first_child(const struct binmode_view *view, size_t row)
{
    return row + 1 < binmode_row_at(view, row).end ? row + 1 : 0;
}

/* The child of an item that comes after another child of it; 0 if there is none. */
static inline size_t binmode_next_sibling(const struct binmode_view *view, size_t parent, size_t child)
{
    size_t next = binmode_row_at(view, child).end;
    return child < next && next < binmode_row_at(view, parent).end ? next : 0;
}

/* The key of a Struct's next member, after a key; its value is one row behind it. 0 if there is none. */
static inline size_t binmode_next_member(const struct binmode_view *view, size_t parent, size_t key)
{
    return binmode_next_sibling(view, parent, key + 1);
}

/*
 * Where the content of a String, Double, DateTime or Binary lies, and how long it is; NULL and 0 for another item, and for content outside
 * the text bytes. A String's is UTF-8, if the table was read or is writable.
 */
static inline const uint8_t *binmode_content(const struct binmode_view *view, size_t row, size_t *length)
{
    struct binmode_row found = binmode_row_at(view, row);
    *length = 0;
    if (found.kind != BINMODE_KIND_STRING && found.kind != BINMODE_KIND_DOUBLE && found.kind != BINMODE_KIND_DATE_TIME &&
        found.kind != BINMODE_KIND_BINARY)
        return NULL;
    if (found.a > view->text_len || found.b > view->text_len - found.a)
        return NULL;
    *length = found.b;
    return view->text + found.a;
}

/* The value of an Integer, with its sign; 0 for another item. */
static inline int32_t binmode_integer(const struct binmode_view *view, size_t row)
{
    struct binmode_row found = binmode_row_at(view, row);
    if (found.kind != BINMODE_KIND_INTEGER)
        return 0;
    return found.a <= INT32_MAX ? (int32_t)found.a : -1 - (int32_t)(UINT32_MAX - found.a);
}

/* What binmode_lookup reports, together. */
struct binmode_found {
    uint8_t sort; /* BINMODE_SORT_* */
    int64_t number;
    double decimal;
    size_t offset;
    size_t length;
};

/* binmode_lookup in a table that is looked at, by the bytes of a key. */
static inline uint8_t binmode_find(const struct binmode_view *view, size_t row, const void *key, size_t key_len,
                                   struct binmode_found *found)
{
    return binmode_lookup(view->table, view->table_words, view->rows, binmode_bytes(view->text), view->text_len, row,
                          binmode_bytes(key), key_len, &found->sort, &found->number, &found->decimal, &found->offset,
                          &found->length);
}

/* The name of a kind: "Integer"; "?" for a number that is none. */
static inline const char *binmode_kind_name(uint32_t kind)
{
    switch (kind) {
    case BINMODE_KIND_CALL: return "Call";
    case BINMODE_KIND_RESPONSE: return "Response";
    case BINMODE_KIND_FAULT: return "Response with fault";
    case BINMODE_KIND_INTEGER: return "Integer";
    case BINMODE_KIND_BOOLEAN: return "Boolean";
    case BINMODE_KIND_DOUBLE: return "Double";
    case BINMODE_KIND_DATE_TIME: return "DateTime";
    case BINMODE_KIND_BINARY: return "Binary";
    case BINMODE_KIND_ARRAY: return "Array";
    case BINMODE_KIND_STRUCT: return "Struct";
    case BINMODE_KIND_STRING: return "String";
    case BINMODE_KIND_OTHER: return "Other";
    case BINMODE_KIND_NIL: return "Nil";
    case BINMODE_KIND_ORDERED_DICT: return "OrderedDict";
    case BINMODE_KIND_EXTENSION: return "Extension";
    case BINMODE_KIND_NODE: return "Node";
    default: return "?";
    }
}

/* An answer in words, a refusal's above all, in ASCII and without a line's end. */
static inline const char *binmode_answer_words(size_t answer)
{
    switch (answer) {
    case BINMODE_ACCEPTED: return "accepted";
    case BINMODE_REFUSED_ENDED: return "the bytes end inside an item, or before one that is needed";
    case BINMODE_REFUSED_WRONG_PREFIX: return "the first bytes differ from binmode-rpc:";
    case BINMODE_REFUSED_UNEXPECTED_BYTE: return "a byte that begins nothing allowed here";
    case BINMODE_REFUSED_SHORT_ROOM: return "the room for a message in pieces is shorter than 65,536 bytes";
    case BINMODE_REFUSED_BAD_TEXT: return "a text that is not UTF-8, or a Double or DateTime that is not ASCII";
    case BINMODE_REFUSED_UNSET_POSITION: return "a position of the codebook is recalled that this message has not set";
    case BINMODE_REFUSED_STANDARD_NAME: return "an Other has the name of a standard type";
    case BINMODE_REFUSED_TOO_DEEP: return "Arrays and Structs nested deeper than the limit";
    case BINMODE_REFUSED_NO_ROW: return "the table has no row left; the most is 4,096";
    case BINMODE_REFUSED_TOO_LONG: return "over 65,536 bytes";
    case BINMODE_REFUSED_NOT_WRITABLE: return "the table is not writable";
    case BINMODE_REFUSED_FORM_TOO_LONG: return "the written form is over 65,536 bytes";
    case BINMODE_REFUSED_OUTPUT_TOO_SHORT: return "the output is shorter than the written form";
    case BINMODE_REFUSED_BAD_FAULT: return "a fault's Struct is not faultCode, an Integer, and faultString, a String";
    case BINMODE_REFUSED_FILE_ENDED: return "the job file ends before or inside a record, with no record of kind 2 yet";
    case BINMODE_REFUSED_WRONG_END: return "the record of kind 2 has the wrong length or the wrong number of cards";
    case BINMODE_REFUSED_BAD_VALUE: return "the text of a Double or DateTime is no decimal or no date";
    case BINMODE_REFUSED_NO_MEMBER: return "the row is no Struct, or the member is absent or of the wrong sort";
    case BINMODE_REFUSED_TOO_MANY_DIGITS: return "a Double has more than 15 digits, or more than 22 after the point";
    case BINMODE_REFUSED_REPEATED_KEY: return "a key that its Struct has already";
    case BINMODE_REFUSED_SHORT_LIST: return "the list is shorter than the number of members";
    case BINMODE_REFUSED_NOT_SPLIT: return "the row number does not split the table, or there is no such station";
    case BINMODE_REFUSED_NO_LIMIT: return "the limit of nesting is not 1 to 32";
    case BINMODE_REFUSED_NOT_TAKEN: return "the plan does not send the table's strings";
    case BINMODE_REFUSED_OUT_OF_RANGE: return "an integer that is not of 32 bits, with its sign";
    case BINMODE_REFUSED_NO_CARD: return "the job has no card of this number";
    case BINMODE_MORE_WANTED: return "more bytes are wanted";
    default: return "an unknown answer";
    }
}

#ifdef __cplusplus
}
#endif

#endif
