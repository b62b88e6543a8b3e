/* The library called from C: bits are written as a stream and read back, a damaged stream is refused, two
 * streams are joined, and the table of another reach is refused. Ends with 0 only if every answer is right. */
#include "remizutogya.h"

#include <stdio.h>
#include <stdlib.h>

/* Room for the table of any profile, and for the streams below and their bits. */
#define TABLE_ROOM REMI_TABLE_LIMBS(REMI_MOST_LENGTH)
#define CELL_ROOM REMI_STREAM_CELLS(REMI_MOST_LENGTH, REMI_MOST_REACH, 3)
#define BYTE_ROOM 16

/* Message bits, high bit first, in as many bytes as they take. */
typedef struct {
    const uint8_t *bytes;
    size_t bits;
} message_bits;

typedef struct {
    uint8_t cells[CELL_ROOM];
    size_t n;
} stream;

/* Prints a reply, and ends the program if it is not the right one. */
static void expect(const char *what, remi_reply reply, uint8_t number, size_t place)
{
    printf("%s: number %u, place %zu\n", what, reply.number, reply.place);
    if (reply.number != number || reply.place != place)
        exit(1);
}

/* Writes bits as a stream and prints its cells. */
static stream written(remi_profile p, const uint64_t *table, message_bits from)
{
    stream to;
    remi_written answer = remi_write_stream(p, table, TABLE_ROOM, from.bytes, REMI_BIT_BYTES(from.bits),
                                            from.bits, to.cells, CELL_ROOM);
    expect("written", answer.reply, REMI_DONE, 0);
    to.n = answer.count;
    for (size_t i = 0; i < to.n; i++)
        printf("%s%u", i == 0 ? "" : " ", to.cells[i]);
    printf("\n");
    return to;
}

/* The bit at a place, counted from the first byte's high bit. */
static unsigned bit(const uint8_t *bytes, size_t place)
{
    return bytes[place / 8] >> (7 - place % 8) & 1;
}

/* Reads a stream, which must give the first bits and then the second. */
static void read_back(remi_profile p, const uint64_t *table, const stream *from, message_bits first,
                      message_bits second)
{
    uint8_t bytes[BYTE_ROOM];
    remi_written answer = remi_read_stream(p, table, TABLE_ROOM, from->cells, from->n, bytes, BYTE_ROOM);
    expect("read", answer.reply, REMI_DONE, 0);
    printf("%zu bits of %zu cells\n", answer.count, from->n);
    if (answer.count != first.bits + second.bits)
        exit(1);
    for (size_t i = 0; i < answer.count; i++) {
        unsigned right = i < first.bits ? bit(first.bytes, i) : bit(second.bytes, i - first.bits);
        if (bit(bytes, i) != right)
            exit(1);
    }
}

/* A bridge cell of the stream is damaged, and reading says which. */
static void read_damaged(remi_profile p, const uint64_t *table, stream damaged)
{
    uint8_t bytes[BYTE_ROOM];
    damaged.cells[p.m] = 1;
    expect("damaged bridge",
           remi_read_stream(p, table, TABLE_ROOM, damaged.cells, damaged.n, bytes, BYTE_ROOM).reply,
           REMI_BRIDGE, p.m);
}

/* The table of reach 2 has the same rows 0 to 3 as that of reach 1; the first wrong one is row 4. */
static void lend_other_reach(remi_profile p)
{
    uint64_t other[TABLE_ROOM];
    remi_profile reach_2 = {.q = p.q, .m = p.m, .x = 2};
    expect("table of reach 2", remi_build_table(reach_2, other, TABLE_ROOM).reply, REMI_DONE, 0);
    expect("lent for reach 1", remi_rate_of_words(p, other, TABLE_ROOM, 1).reply, REMI_TABLE_WRONG, 4);
}

int main(void)
{
    remi_published row = remi_published_profile(0);
    expect("row 0", row.reply, REMI_DONE, 0);
    remi_profile p = {.q = row.q, .m = row.m, .x = row.x};
    printf("q %zu, m %zu, x %zu: %zu bits a word\n", p.q, p.m, p.x, row.s);

    uint64_t table[TABLE_ROOM];
    expect("table", remi_build_table(p, table, TABLE_ROOM).reply, REMI_DONE, 0);

    /* Two messages and one, of 27 bits each; the bits after the last are 0 to the end of its byte. */
    message_bits none = {NULL, 0};
    message_bits first = {(const uint8_t[]){'r', 'e', 'm', 'i', 'z', 'u', 0}, 2 * row.s};
    message_bits second = {(const uint8_t[]){'t', 'o', 'g', 0}, row.s};
    stream one = written(p, table, first);
    stream two = written(p, table, second);
    read_back(p, table, &one, first, none);
    read_damaged(p, table, one);

    stream joined;
    remi_written answer = remi_join_streams(p, one.cells, one.n, two.cells, two.n, joined.cells, CELL_ROOM);
    expect("joined", answer.reply, REMI_DONE, 0);
    joined.n = answer.count;
    read_back(p, table, &joined, first, second);

    lend_other_reach(p);
    return 0;
}
