/* Bad calls: every call with nothing lent, with profiles out of range and with numbers as large as they get.
 * Each must give its number and place, and leave what it was lent as it was. Prints how many calls were made,
 * or names the first that differs and ends with 1. This is the list of bad calls; what Rust's safe calls make of
 * a refusal is tried in rust/remizutogya/tests/bad_calls.rs. */
#include "remizutogya.h"

#include <stdio.h>
#include <stdlib.h>
#include <string.h>

#define MARK 0xa5
#define BORDER 64
#define CELL_ROOM 64
#define LIMB_ROOM REMI_TABLE_LIMBS(5)

/* At q = 4, x = 1 there are N(5) = 889 words of 5 cells, and s is 9. */
static const remi_profile GOOD = {.q = 4, .m = 5, .x = 1};
#define GOOD_COUNT 889
#define GOOD_BITS 9
static const uint8_t WORD[] = {0, 1, 2, 3, 3};

/* What is lent to a call: a table, cells or bytes to read, and outputs. */
typedef struct {
    const char *name;
    const uint64_t *table;
    size_t table_limbs;
    const uint8_t *cells;
    size_t n;
    uint64_t *out_limbs;
    size_t n_out_limbs;
    uint8_t *out;
    size_t n_out;
} lending;

/* All that is lent, the outputs with a border on either side, and a copy of how it was. The table ends where
 * its heap block ends. */
typedef struct {
    uint64_t limbs[BORDER + LIMB_ROOM + BORDER];
    uint8_t cells[BORDER + CELL_ROOM + BORDER];
    uint64_t table[LIMB_ROOM];
} buffers;

static buffers *lent;
static buffers kept;

/* The whole table and the whole output of cells, as a call takes them: pointer and length. */
#define TABLE lent->table, LIMB_ROOM
#define OUT lent->cells + BORDER, CELL_ROOM

static const char *situation = "before any call";
static size_t calls_made;

/* Names the call and ends the program unless what was seen is right. */
static void must(int right, const char *call)
{
    if (!right) {
        printf("%s differs: %s\n", call, situation);
        exit(1);
    }
}

/* A reply must be this one, and all that is lent as it was. */
static void replied(const char *call, remi_reply got, uint8_t number, size_t place)
{
    calls_made++;
    must(got.number == number && got.place == place, call);
    must(memcmp(lent, &kept, sizeof kept) == 0, call);
}

/* A call that writes is refused at a place, or done with nothing to write: either way it counts 0. */
static void wrote_nothing_at(const char *call, remi_written got, uint8_t number, size_t place)
{
    replied(call, got.reply, number, place);
    must(got.count == 0, call);
}

static void wrote_nothing(const char *call, remi_written got, uint8_t number)
{
    wrote_nothing_at(call, got, number, 0);
}

/* A call is done and has written one word. */
static void wrote_word(const char *call, remi_written got)
{
    uint8_t *out = lent->cells + BORDER;
    must(got.count == sizeof WORD && memcmp(out, WORD, sizeof WORD) == 0, call);
    memset(out, MARK, sizeof WORD);
    replied(call, got.reply, REMI_DONE, 0);
}

/* An index is refused, and so 0. */
static void index_refused(const char *call, remi_indexed got, uint8_t number, size_t place)
{
    static const remi_index zero;
    replied(call, got.reply, number, place);
    must(memcmp(&got.index, &zero, sizeof zero) == 0, call);
}

/* A rate is refused, or that of no words. */
static void rated_nothing(const char *call, remi_rated got, uint8_t number)
{
    replied(call, got.reply, number, 0);
    must(got.bits == 0 && got.cells == 0, call);
}

static void row_refused(const char *call, size_t row)
{
    remi_published got = remi_published_profile(row);
    replied(call, got.reply, REMI_NO_SUCH, 0);
    must(got.q == 0 && got.x == 0 && got.m == 0 && got.s == 0, call);
}

static remi_index all_ones(void)
{
    remi_index i;
    memset(&i, 0xff, sizeof i);
    return i;
}

static remi_index small_index(uint64_t number)
{
    remi_index i = {{number}};
    return i;
}

/* Every call that takes a profile refuses this one with one number, whatever is lent. */
static void lend_with_profile(lending l, remi_profile p, uint8_t number)
{
    situation = l.name;
    wrote_nothing("build_table", remi_build_table(p, l.out_limbs, l.n_out_limbs), number);
    index_refused("index_of_word", remi_index_of_word(p, l.table, l.table_limbs, l.cells, l.n), number, 0);
    wrote_nothing("word_of_index", remi_word_of_index(p, l.table, l.table_limbs, all_ones(), l.out, l.n_out),
                  number);
    wrote_nothing("write_stream",
                  remi_write_stream(p, l.table, l.table_limbs, l.cells, l.n, SIZE_MAX, l.out, l.n_out), number);
    wrote_nothing("read_stream", remi_read_stream(p, l.table, l.table_limbs, l.cells, l.n, l.out, l.n_out),
                  number);
    wrote_nothing("join_streams", remi_join_streams(p, l.cells, l.n, l.cells, l.n, l.out, l.n_out), number);
    wrote_nothing("turn_stream", remi_turn_stream(p, l.cells, l.n, l.out, l.n_out), number);
    rated_nothing("rate_of_words", remi_rate_of_words(p, l.table, l.table_limbs, SIZE_MAX), number);
    if (number == REMI_LENGTH)
        wrote_nothing("shipped_table", remi_shipped_table(p.m, l.out_limbs, l.n_out_limbs), number);
    else
        replied("find_pattern", remi_find_pattern(p.q, p.x, l.cells, l.n), number, 0);
}

/* Of several numbers out of range the lowest number is given. */
static void bad_profiles(lending l)
{
    static const size_t q_out[] = {0, 1, 33, SIZE_MAX};
    static const size_t m_out[] = {0, 129, SIZE_MAX};
    static const size_t x_out[] = {0, 9, SIZE_MAX};
    for (size_t i = 0; i < 4; i++) {
        lend_with_profile(l, (remi_profile){.q = q_out[i], .m = 5, .x = 1}, REMI_LEVELS);
        lend_with_profile(l, (remi_profile){.q = q_out[i], .m = m_out[i % 3], .x = x_out[i % 3]}, REMI_LEVELS);
    }
    for (size_t i = 0; i < 3; i++) {
        lend_with_profile(l, (remi_profile){.q = 4, .m = m_out[i], .x = 1}, REMI_LENGTH);
        lend_with_profile(l, (remi_profile){.q = 4, .m = m_out[i], .x = x_out[i]}, REMI_LENGTH);
        lend_with_profile(l, (remi_profile){.q = 4, .m = 5, .x = x_out[i]}, REMI_REACH);
    }
}

/* A good profile and nothing lent at all: 4 comes before the table, 5 before what is written; an empty stream
 * and no cells are in order. */
static void nothing_lent(lending l)
{
    static const remi_profile silent[] = {{.q = 2, .m = 1, .x = 1}, {.q = 3, .m = 1, .x = 8}};
    situation = l.name;
    wrote_nothing("build_table", remi_build_table(GOOD, l.out_limbs, 0), REMI_OUTPUT_SHORT);
    wrote_nothing("shipped_table", remi_shipped_table(5, l.out_limbs, 0), REMI_OUTPUT_SHORT);
    index_refused("index_of_word", remi_index_of_word(GOOD, l.table, 0, l.cells, 0), REMI_TABLE_SHORT, 0);
    wrote_nothing("word_of_index", remi_word_of_index(GOOD, l.table, 0, all_ones(), l.out, 0),
                  REMI_TABLE_SHORT);
    wrote_nothing("write_stream", remi_write_stream(GOOD, l.table, 0, l.cells, 0, 0, l.out, 0),
                  REMI_TABLE_SHORT);
    wrote_nothing("read_stream", remi_read_stream(GOOD, l.table, 0, l.cells, 0, l.out, 0), REMI_TABLE_SHORT);
    wrote_nothing("join_streams", remi_join_streams(GOOD, l.cells, 0, l.cells, 0, l.out, 0), REMI_DONE);
    wrote_nothing("turn_stream", remi_turn_stream(GOOD, l.cells, 0, l.out, 0), REMI_DONE);
    replied("find_pattern", remi_find_pattern(4, 1, l.cells, 0), REMI_DONE, 0);
    rated_nothing("rate_of_words", remi_rate_of_words(GOOD, l.table, 0, 0), REMI_TABLE_SHORT);
    wrote_nothing("list_code", remi_list_code(l.cells, 0, l.out, 0), REMI_OUTPUT_SHORT);
    wrote_nothing("reply_text", remi_reply_text((remi_reply){.number = REMI_PATTERN, .place = 345}, l.out, 0),
                  REMI_OUTPUT_SHORT);
    for (size_t i = 0; i < 2; i++) {
        remi_profile p = silent[i];
        wrote_nothing("write_stream", remi_write_stream(p, l.table, 0, l.cells, 0, 0, l.out, 0),
                      REMI_NO_MESSAGE);
        wrote_nothing("read_stream", remi_read_stream(p, l.table, 0, l.cells, 0, l.out, 0), REMI_NO_MESSAGE);
        rated_nothing("rate_of_words", remi_rate_of_words(p, l.table, 0, 0), REMI_NO_MESSAGE);
        index_refused("index_of_word", remi_index_of_word(p, l.table, 0, l.cells, 0), REMI_TABLE_SHORT, 0);
        wrote_nothing("turn_stream", remi_turn_stream(p, l.cells, 0, l.out, 0), REMI_DONE);
    }
}

/* One buffer is empty, as `none` lends it, and the others are whole. */
static void one_buffer_empty(lending none)
{
    situation = none.name;
    index_refused("table of index_of_word", remi_index_of_word(GOOD, none.table, 0, WORD, 5), REMI_TABLE_SHORT,
                  0);
    index_refused("cells of index_of_word", remi_index_of_word(GOOD, TABLE, none.cells, 0), REMI_INPUT_LENGTH,
                  0);
    wrote_nothing("table of word_of_index", remi_word_of_index(GOOD, none.table, 0, small_index(0), OUT),
                  REMI_TABLE_SHORT);
    wrote_nothing("out of word_of_index", remi_word_of_index(GOOD, TABLE, all_ones(), none.out, 0),
                  REMI_OUTPUT_SHORT);
    wrote_nothing("table of read_stream", remi_read_stream(GOOD, none.table, 0, WORD, 5, OUT),
                  REMI_TABLE_SHORT);
    wrote_nothing("cells of read_stream", remi_read_stream(GOOD, TABLE, none.cells, 0, OUT), REMI_DONE);
    wrote_nothing("out of read_stream", remi_read_stream(GOOD, TABLE, WORD, 5, none.out, 0), REMI_OUTPUT_SHORT);
    wrote_word("first of join_streams", remi_join_streams(GOOD, none.cells, 0, WORD, 5, OUT));
    wrote_word("second of join_streams", remi_join_streams(GOOD, WORD, 5, none.cells, 0, OUT));
    wrote_nothing("out of join_streams", remi_join_streams(GOOD, WORD, 5, WORD, 5, none.out, 0),
                  REMI_OUTPUT_SHORT);
    wrote_nothing("cells of turn_stream", remi_turn_stream(GOOD, none.cells, 0, OUT), REMI_DONE);
    wrote_nothing("out of turn_stream", remi_turn_stream(GOOD, WORD, 5, none.out, 0), REMI_OUTPUT_SHORT);
    rated_nothing("table of rate_of_words", remi_rate_of_words(GOOD, none.table, 0, SIZE_MAX),
                  REMI_TABLE_SHORT);
}

/* Writing with a bit count and bytes of which some are missing or wrong. */
static void bad_bits(lending none)
{
    static const size_t no_count[] = {1, 8, 10, (REMI_MOST_WORDS + 1) * GOOD_BITS, SIZE_MAX,
                                      SIZE_MAX - SIZE_MAX % GOOD_BITS};
    static const uint8_t good[] = {0, 0}, last_bit[] = {0, 1};
    situation = none.name;
    wrote_nothing("table of write_stream", remi_write_stream(GOOD, none.table, 0, good, 2, GOOD_BITS, OUT),
                  REMI_TABLE_SHORT);
    wrote_nothing("no bits of write_stream", remi_write_stream(GOOD, TABLE, none.cells, 0, 0, none.out, 0),
                  REMI_DONE);
    wrote_nothing("bytes of write_stream", remi_write_stream(GOOD, TABLE, none.cells, 0, GOOD_BITS, OUT),
                  REMI_INPUT_LENGTH);
    wrote_nothing("one byte of write_stream", remi_write_stream(GOOD, TABLE, good, 1, GOOD_BITS, OUT),
                  REMI_INPUT_LENGTH);
    wrote_nothing("out of write_stream", remi_write_stream(GOOD, TABLE, good, 2, GOOD_BITS, none.out, 0),
                  REMI_OUTPUT_SHORT);
    wrote_nothing_at("bit behind in write_stream",
                     remi_write_stream(GOOD, TABLE, last_bit, 2, GOOD_BITS, none.out, 0), REMI_BIT_BEHIND, 15);
    for (size_t i = 0; i < sizeof no_count / sizeof no_count[0]; i++)
        wrote_nothing("bits of write_stream", remi_write_stream(GOOD, TABLE, good, 2, no_count[i], OUT),
                      REMI_INPUT_LENGTH);
}

/* Numbers that are too large, with everything lent. */
static void bad_numbers(void)
{
    situation = "all lent";
    wrote_nothing("word_of_index of all ones", remi_word_of_index(GOOD, TABLE, all_ones(), OUT), REMI_NO_SUCH);
    wrote_nothing("word_of_index of N(m)", remi_word_of_index(GOOD, TABLE, small_index(GOOD_COUNT), OUT),
                  REMI_NO_SUCH);
    rated_nothing("rate_of_words of 257", remi_rate_of_words(GOOD, TABLE, REMI_MOST_WORDS + 1),
                  REMI_INPUT_LENGTH);
    rated_nothing("rate_of_words of SIZE_MAX", remi_rate_of_words(GOOD, TABLE, SIZE_MAX), REMI_INPUT_LENGTH);
    rated_nothing("rate_of_words of none", remi_rate_of_words(GOOD, TABLE, 0), REMI_DONE);
    row_refused("published_profile of 40", REMI_PUBLISHED_ROWS);
    row_refused("published_profile of SIZE_MAX", SIZE_MAX);
}

/* A table or a cell that is wrong in one place, and a run of one cell too many. */
static void bad_cells(void)
{
    static const uint8_t above[] = {0, 0, 4, 0, 0}, pattern[] = {1, 3, 0, 3, 1};
    const remi_profile reach_2 = {.q = 4, .m = 5, .x = 2};
    uint8_t *run = calloc(REMI_MOST_FOUND_CELLS + 1, 1);
    must(run != NULL, "calloc");
    situation = "all lent";
    index_refused("table short by a limb", remi_index_of_word(GOOD, lent->table, LIMB_ROOM - 1, WORD, 5),
                  REMI_TABLE_SHORT, 0);
    index_refused("table of another reach", remi_index_of_word(reach_2, TABLE, WORD, 5), REMI_TABLE_WRONG, 4);
    index_refused("word of 4 cells", remi_index_of_word(GOOD, TABLE, WORD, 4), REMI_INPUT_LENGTH, 0);
    index_refused("cell at q", remi_index_of_word(GOOD, TABLE, above, 5), REMI_CELL, 2);
    index_refused("pattern", remi_index_of_word(GOOD, TABLE, pattern, 5), REMI_PATTERN, 1);
    wrote_nothing("stream of 4 cells", remi_turn_stream(GOOD, WORD, 4, OUT), REMI_INPUT_LENGTH);
    wrote_nothing_at("cell in the second stream", remi_join_streams(GOOD, pattern, 5, above, 5, OUT), REMI_CELL,
                     7);
    replied("65,536 cells", remi_find_pattern(4, 1, run, REMI_MOST_FOUND_CELLS), REMI_DONE, 0);
    replied("65,537 cells", remi_find_pattern(4, 1, run, REMI_MOST_FOUND_CELLS + 1), REMI_INPUT_LENGTH, 0);
    free(run);
}

/* No line at all is a refused line, where there is room to say so. */
static void no_line(const uint8_t *line)
{
    static const uint8_t good[] = "2 3 1\n";
    static const char refused[] = "refused line\n";
    static uint8_t text[REMI_LISTING_BYTES], right[REMI_LISTING_BYTES];
    memset(text, MARK, sizeof text);
    memset(right, MARK, sizeof right);
    wrote_nothing("list_code", remi_list_code(line, 0, text, sizeof text - 1), REMI_OUTPUT_SHORT);
    wrote_nothing("list_code", remi_list_code(good, sizeof good - 1, text, sizeof text - 1), REMI_OUTPUT_SHORT);
    must(memcmp(text, right, sizeof text) == 0, "list_code");

    memcpy(right, refused, strlen(refused));
    remi_written got = remi_list_code(line, 0, text, sizeof text);
    replied("list_code", got.reply, REMI_DONE, 0);
    must(got.count == strlen(refused) && memcmp(text, right, sizeof text) == 0, "list_code");
}

/* A reply of any number is told, where there is room for the longest text; nothing after the text is touched. */
static void replies_told(void)
{
    static const char unknown[] = "refused 255 at 18446744073709551615: number that has no meaning";
    const remi_reply largest = {.number = 255, .place = SIZE_MAX};
    uint8_t text[REMI_REPLY_BYTES], right[REMI_REPLY_BYTES];
    memset(text, MARK, sizeof text);
    memset(right, MARK, sizeof right);
    wrote_nothing("reply_text", remi_reply_text(largest, text, sizeof text - 1), REMI_OUTPUT_SHORT);
    must(memcmp(text, right, sizeof text) == 0, "reply_text");

    memcpy(right, unknown, strlen(unknown));
    remi_written got = remi_reply_text(largest, text, sizeof text);
    replied("reply_text", got.reply, REMI_DONE, 0);
    must(got.count == strlen(unknown) && memcmp(text, right, sizeof text) == 0, "reply_text");
}

/* Makes the buffers: outputs marked, and the table of the good profile. */
static void make_buffers(void)
{
    lent = malloc(sizeof *lent);
    must(lent != NULL, "malloc");
    memset(lent, MARK, sizeof *lent);
    must(remi_build_table(GOOD, lent->table, LIMB_ROOM).reply.number == REMI_DONE, "build_table");
    kept = *lent;
}

int main(void)
{
    make_buffers();
    uint64_t *end = lent->table + LIMB_ROOM;
    lending all = {"all lent", TABLE, WORD, sizeof WORD, lent->limbs + BORDER, LIMB_ROOM, OUT};
    lending nothing[] = {
        {.name = "NULL and length 0"},
        {.name = "length 0", .table = end, .cells = (uint8_t *)end, .out_limbs = end, .out = (uint8_t *)end},
    };
    bad_profiles(all);
    bad_numbers();
    bad_cells();
    replies_told();
    for (size_t i = 0; i < 2; i++) {
        bad_profiles(nothing[i]);
        nothing_lent(nothing[i]);
        one_buffer_empty(nothing[i]);
        bad_bits(nothing[i]);
        no_line(nothing[i].cells);
    }
    free(lent);
    printf("%zu bad calls answered\n", calls_made);
    return 0;
}
