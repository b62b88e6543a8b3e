/* The cells of flash cartridges, for C and C++: tables of counts, words and their indices, streams written,
 * read, joined and turned, a pattern finder, the published profiles and their rates, the listing of a small
 * code, replies in words. Link libremizutogya.a; it is for x86-64 Linux and needs the C library alone.
 *
 * THE CODE. A cell is a byte that holds a level, 0 to q - 1; top is level q - 1. A forbidden pattern is a top,
 * then 1 to x cells below top, then a top; two tops side by side are allowed. A legal word has m cells, each
 * below q, and no forbidden pattern. N(i) is the number of legal words of i cells. Words are ordered by their
 * leftmost differing level; the index of a word is the number of legal words before it. The message length s is
 * the largest number with 2^s at most N(m)-2; the words of index 1 to 2^s carry messages of s bits, and the
 * message is the index less one. A stream is empty, or n words with a bridge of x cells between neighbours, nm
 * + (n-1)x cells in all. A bridge is all top if the cell before it and the cell after it are both top;
 * otherwise all 0.
 *
 * WHAT IS LENT. Every buffer is the caller's: it is lent as a pointer and a length for the time of the call,
 * and no call keeps a pointer, allocates or frees. The length counts elements: limbs of 8 bytes, cells, or
 * bytes. A pointer must be aligned for its type and point to as many elements as its length says; it may be
 * NULL only where the length is 0. A lent output must not overlap any other lent buffer; inputs may overlap
 * each other. An output may be longer than the answer: what stands after the answer is left as it was.
 *
 * WHAT IS ANSWERED. Every call ends and answers for every input that is lent as said above. The reply has a
 * number: REMI_DONE, or why the call is refused. Of all numbers that apply the lowest is given, with the first
 * place. A refusal writes to no lent buffer, and everything in the answer but number and place is 0. Done
 * writes exactly the answer, from the front of the output.
 *
 * Calls keep no state, so any number of threads may make them at once. No call takes more than 128 KiB of
 * stack; what each takes is in docs/PERFORMANCE.md.
 */
#ifndef REMIZUTOGYA_H
#define REMIZUTOGYA_H

#include <stddef.h>
#include <stdint.h>

#ifdef __cplusplus
extern "C" {
#endif

/* The limbs of an index and of a row of a table: 64-bit limbs, least significant first. */
#define REMI_LIMBS 10

/* The limbs of a table for words of length m. */
#define REMI_TABLE_LIMBS(m) (REMI_LIMBS * ((m) + 1))

/* The cells of a stream of n words. */
#define REMI_STREAM_CELLS(m, x, n) ((n) == 0 ? 0 : (n) * (m) + ((n) - 1) * (x))

/* The bytes that hold so many bits. */
#define REMI_BIT_BYTES(bits) ((bits) / 8 + ((bits) % 8 != 0))

/* The largest word length m, and the largest reach x. */
#define REMI_MOST_LENGTH 128
#define REMI_MOST_REACH 8

/* The most words of a stream, and of a rate. */
#define REMI_MOST_WORDS 256

/* The most cells that remi_find_pattern takes. */
#define REMI_MOST_FOUND_CELLS 65536

/* The number of published profiles. */
#define REMI_PUBLISHED_ROWS 40

/* The bytes that remi_list_code must be lent; no listing is longer. */
#define REMI_LISTING_BYTES 262144

/* The bytes that remi_reply_text must be lent; no text is longer. */
#define REMI_REPLY_BYTES 256

/* The numbers of a reply. The place is 0 where none is named. */
enum remi_number {
    REMI_DONE = 0,          /* done */
    REMI_LEVELS = 1,        /* q is outside its range, 2 to 32 */
    REMI_LENGTH = 2,        /* m is outside its range, 1 to 128 */
    REMI_REACH = 3,         /* x is outside its range, 1 to 8 */
    REMI_NO_MESSAGE = 4,    /* no words carry messages: s is 0, or N(m)-2 is 0, which is m = 1 with q at most 3 */
    REMI_TABLE_SHORT = 5,   /* the table is shorter than 10(m+1) limbs */
    REMI_TABLE_WRONG = 6,   /* the table does not belong to the profile; place: its first wrong row */
    REMI_INPUT_LENGTH = 7,  /* an input length fits no word, stream or bit count, or is over the most */
    REMI_BIT_BEHIND = 8,    /* a bit after the last message bit, in the same byte, is 1; place: its bit place */
    REMI_OUTPUT_SHORT = 9,  /* the lent output is too short */
    REMI_CELL = 10,         /* a cell is at or above q; place: the cell's */
    REMI_PATTERN = 11,      /* a forbidden pattern; place: its first top */
    REMI_NO_SUCH = 12,      /* the index is at or above N(m), or the row of the list at or above 40 */
    REMI_BRIDGE = 13,       /* a wrong bridge cell; place: the cell's */
    REMI_ALL_ZERO = 14,     /* reading: a word of all 0; place: its first cell */
    REMI_INDEX_ABOVE = 15,  /* reading: an index above 2^s; place: the word's first cell */
    REMI_ALL_TOP = 16       /* reading: a word of all top; never given, for 15 applies to each such word and is lower */
};

/* A profile: q levels, word length m, reach x. Any numbers may be handed in; what is out of range is refused. */
typedef struct {
    size_t q, m, x;
} remi_profile;

/* A reply: its number, and its place where the number has one. */
typedef struct {
    uint8_t number;
    size_t place;
} remi_reply;

/* The answer of a call that writes. What `count` counts is said at each call. */
typedef struct {
    remi_reply reply;
    size_t count;
} remi_written;

/* The index of a word. */
typedef struct {
    uint64_t limbs[REMI_LIMBS];
} remi_index;

typedef struct {
    remi_reply reply;
    remi_index index;
} remi_indexed;

/* A published profile, with its message length s. */
typedef struct {
    remi_reply reply;
    size_t q, x, m, s;
} remi_published;

typedef struct {
    remi_reply reply;
    size_t bits, cells;
} remi_rated;

/* A table holds rows N(0) to N(m), REMI_LIMBS limbs a row: REMI_TABLE_LIMBS(m) limbs. Every call that is lent
 * one tests all its rows before it looks at a cell; a longer table is taken, and what follows row m is ignored.
 *
 * At each call stand the numbers that it can give besides REMI_DONE. 1 to 6 and 9 mean at every call what is
 * said above; what the others mean for a call is said there.
 */

/* Builds the table of a profile.
 * Out: REMI_TABLE_LIMBS(p.m) limbs or more; count: limbs written.
 * Numbers: 1 2 3, 9. */
remi_written remi_build_table(remi_profile p, uint64_t *out, size_t out_limbs);

/* Hands out the shipped table: that of q = 4 and x = 1 for words of length m.
 * Out: REMI_TABLE_LIMBS(m) limbs or more; count: limbs written.
 * Numbers: 2, 9. */
remi_written remi_shipped_table(size_t m, uint64_t *out, size_t out_limbs);

/* Gives the index of a word. In: the word, exactly p.m cells.
 * Numbers: 1 2 3, 5 6; 7 where there are not m cells; 10, 11 with the place in the word. */
remi_indexed remi_index_of_word(remi_profile p, const uint64_t *table, size_t table_limbs, const uint8_t *cells,
                                size_t n_cells);

/* Writes the word of an index, which is taken by value.
 * Out: p.m cells or more; count: cells written, p.m.
 * Numbers: 1 2 3, 5 6, 9; 12 where the index is at or above N(m). */
remi_written remi_word_of_index(remi_profile p, const uint64_t *table, size_t table_limbs, remi_index i, uint8_t *out,
                                size_t out_cells);

/* Writes message bits as a stream. In: bytes that hold the bits, high bit first, s bits a message with no gap
 * between messages; bytes after those of the bits are ignored. Zero bits write the empty stream.
 * Out: REMI_STREAM_CELLS(p.m, p.x, bits / s) cells or more; count: cells written.
 * Numbers: 1 2 3, 4, 5 6; 7 where the bits are no multiple of s, carry over 256 words, or are not all there; 8
 * with the place of the first such bit, counted from the first byte's high bit; 9. */
remi_written remi_write_stream(remi_profile p, const uint64_t *table, size_t table_limbs, const uint8_t *bytes,
                               size_t n_bytes, size_t bits, uint8_t *out, size_t out_cells);

/* Reads a stream back to its message bits. The empty stream reads as zero bits.
 * Out: REMI_BIT_BYTES(n s) bytes or more for n words, with zero bits to the end of the last byte; count: BITS
 * written, n s.
 * Numbers: 1 2 3, 4, 5 6; 7 where no stream of at most 256 words has so many cells; 9; 10 in any cell, bridges
 * included; 11 inside a word; 13, also for a bridge that makes a pattern; 14; 15. Places are in the stream. */
remi_written remi_read_stream(remi_profile p, const uint64_t *table, size_t table_limbs, const uint8_t *cells,
                              size_t n_cells, uint8_t *out, size_t out_bytes);

/* Joins two streams: the words of the first, then those of the second, bridged anew where both have words.
 * Out: n_first + n_second cells, and p.x more where both have words, or more; count: cells written.
 * Numbers: 1 2 3; 7 where either is as long as no stream is, or both together have over 256 words; 9; 10, 11,
 * 13 as in reading, where a place in the second stream counts on from n_first. */
remi_written remi_join_streams(remi_profile p, const uint8_t *first, size_t n_first, const uint8_t *second,
                               size_t n_second, uint8_t *out, size_t out_cells);

/* Turns a stream end for end: the same cells, last first.
 * Out: n_cells cells or more; count: cells written.
 * Numbers: 1 2 3; 7, 10, 11, 13 as in reading, with places in the stream as lent; 9. */
remi_written remi_turn_stream(remi_profile p, const uint8_t *cells, size_t n_cells, uint8_t *out, size_t out_cells);

/* Finds the first forbidden pattern in a run of up to REMI_MOST_FOUND_CELLS cells. Done says that there is
 * none.
 * Numbers: 1 3; 7 for more cells; 10, wherever it stands; 11 at the first top of the leftmost pattern. */
remi_reply remi_find_pattern(size_t q, size_t x, const uint8_t *cells, size_t n_cells);

/* Gives the published profile of a row, 0 to REMI_PUBLISHED_ROWS - 1, and its message length s.
 * Numbers: 12 for any other row. */
remi_published remi_published_profile(size_t row);

/* Gives the rate of n words: bits n s and cells n (m + x).
 * Numbers: 1 2 3, 4, 5 6; 7 where n is above REMI_MOST_WORDS. */
remi_rated remi_rate_of_words(remi_profile p, const uint64_t *table, size_t table_limbs, size_t n);

/* Writes what the listing program prints for a line, q m x as decimals with single spaces and a newline: q m x
 * N s, then for each index in order the index, the levels of its word joined by commas, and its message or a
 * hyphen, each on a line of its own. A line that is not of this form, a profile out of range and a code of over
 * 4,096 words are answered by text, `refused line`, `refused` and the number, or `too many`, and the call is
 * done.
 * Out: REMI_LISTING_BYTES bytes or more, whatever the line; count: bytes of text written, with no zero byte
 * after them.
 * Numbers: 9. */
remi_written remi_list_code(const uint8_t *line, size_t n_line, uint8_t *out, size_t out_bytes);

/* Writes what a reply says in words, as the program remi prints it: `done`; or, as in `refused 11 at 345: forbidden
 * pattern (top at 345)`, the number, the place, what the number means, and what stands at the place where the
 * number has one. Any reply may be handed in; of a number that is not in use `number that has no meaning` is said.
 * Out: REMI_REPLY_BYTES bytes or more, whatever the reply; count: bytes of text written, with no zero byte
 * after them.
 * Numbers: 9. */
remi_written remi_reply_text(remi_reply reply, uint8_t *out, size_t out_bytes);

#ifdef __cplusplus
}
#endif

#endif
