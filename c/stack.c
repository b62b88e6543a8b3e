/* The stack that each call takes, measured: the call is made on a thread whose stack was filled with one byte
 * before, and what no longer holds that byte was used; what a thread uses that makes no call is taken off. The
 * inputs are the longest ones, of the profiles below: streams as they are written, of words with as many tops as a
 * message allows, and with the last cell damaged; what takes most counts. Ends with 1 if a call takes more than the
 * header says. */
#define _POSIX_C_SOURCE 200809L
#include "remizutogya.h"

#include <pthread.h>
#include <stdio.h>
#include <stdlib.h>
#include <string.h>

#define STACK ((size_t)1 << 20)
#define PAGE 4096
#define FILL 0xa5
#define MOST (128 * 1024)

#define TABLE_ROOM REMI_TABLE_LIMBS(REMI_MOST_LENGTH)
#define CELL_ROOM REMI_STREAM_CELLS(REMI_MOST_LENGTH, REMI_MOST_REACH, REMI_MOST_WORDS)
#define BYTE_ROOM (REMI_MOST_WORDS * REMI_LIMBS * 8)

static const remi_profile profiles[] = {
    {.q = 2, .m = 128, .x = 1},
    {.q = 4, .m = 97, .x = 1},
    {.q = 4, .m = 128, .x = 8},
    {.q = 32, .m = 117, .x = 1},
    {.q = 32, .m = 128, .x = 8},
};

/* What the calls are handed. */
static remi_profile p;
static uint64_t table[TABLE_ROOM], rows[TABLE_ROOM];
static uint8_t bytes[BYTE_ROOM], cells[CELL_ROOM], out[CELL_ROOM];
static uint8_t run[REMI_MOST_FOUND_CELLS], text[REMI_LISTING_BYTES];
static size_t bits, whole, half;

static void no_call(void) {}
static void build_table(void) { remi_build_table(p, rows, TABLE_ROOM); }
static void shipped_table(void) { remi_shipped_table(REMI_MOST_LENGTH, rows, TABLE_ROOM); }
static void index_of_word(void) { remi_index_of_word(p, table, TABLE_ROOM, cells, p.m); }
static void word_of_index(void) { remi_word_of_index(p, table, TABLE_ROOM, (remi_index){{12345}}, out, CELL_ROOM); }
static void write_stream(void) { remi_write_stream(p, table, TABLE_ROOM, bytes, BYTE_ROOM, bits, out, CELL_ROOM); }
static void read_stream(void) { remi_read_stream(p, table, TABLE_ROOM, cells, whole, out, CELL_ROOM); }
static void join_streams(void) { remi_join_streams(p, cells, half, cells + whole - half, half, out, CELL_ROOM); }
static void turn_stream(void) { remi_turn_stream(p, cells, whole, out, CELL_ROOM); }
static void find_pattern(void) { remi_find_pattern(p.q, p.x, run, REMI_MOST_FOUND_CELLS); }
static void published_profile(void) { remi_published_profile(REMI_PUBLISHED_ROWS - 1); }
static void rate_of_words(void) { remi_rate_of_words(p, table, TABLE_ROOM, REMI_MOST_WORDS); }
static void list_code(void) { remi_list_code((const uint8_t *)"4 6 1\n", 6, text, REMI_LISTING_BYTES); }
static void reply_text(void)
{
    remi_reply_text((remi_reply){.number = REMI_PATTERN, .place = SIZE_MAX}, text, REMI_REPLY_BYTES);
}

static const struct {
    const char *name;
    void (*call)(void);
} calls[] = {
    {"remi_build_table", build_table},     {"remi_shipped_table", shipped_table},
    {"remi_index_of_word", index_of_word}, {"remi_word_of_index", word_of_index},
    {"remi_write_stream", write_stream},   {"remi_read_stream", read_stream},
    {"remi_join_streams", join_streams},   {"remi_turn_stream", turn_stream},
    {"remi_find_pattern", find_pattern},   {"remi_published_profile", published_profile},
    {"remi_rate_of_words", rate_of_words}, {"remi_list_code", list_code},
    {"remi_reply_text", reply_text},
};
#define CALLS (sizeof calls / sizeof *calls)

/* Ends the program where something that has to be right is not. */
static void must(int right, const char *what)
{
    if (!right) {
        printf("%s\n", what);
        exit(1);
    }
}

static void *on_thread(void *call)
{
    (*(void (**)(void))call)();
    return NULL;
}

/* The bytes of stack that a thread uses which makes the call. */
static size_t used(uint8_t *stack, void (*call)(void))
{
    pthread_attr_t attributes;
    pthread_t thread;
    size_t left = 0;

    memset(stack, FILL, STACK);
    must(pthread_attr_init(&attributes) == 0 && pthread_attr_setstack(&attributes, stack, STACK) == 0 &&
             pthread_create(&thread, &attributes, on_thread, &call) == 0 && pthread_join(thread, NULL) == 0,
         "no thread can be had");
    pthread_attr_destroy(&attributes);
    while (left < STACK && stack[left] == FILL)
        left++;
    return STACK - left;
}

/* Table, message bits and streams of a profile. */
static void make_ready(remi_profile profile)
{
    p = profile;
    must(remi_build_table(p, table, TABLE_ROOM).reply.number == REMI_DONE, "no table");
    bits = remi_rate_of_words(p, table, TABLE_ROOM, REMI_MOST_WORDS).bits;
    whole = remi_write_stream(p, table, TABLE_ROOM, bytes, BYTE_ROOM, bits, cells, CELL_ROOM).count;
    half = REMI_STREAM_CELLS(p.m, p.x, REMI_MOST_WORDS / 2);
    must(whole == REMI_STREAM_CELLS(p.m, p.x, REMI_MOST_WORDS), "no stream");
}

/* A stream whose words are two cells of 0 and then all top: the bridges are 0. */
static void fill_with_tops(void)
{
    for (size_t i = 0; i < whole; i++) {
        size_t in_word = i % (p.m + p.x);
        cells[i] = in_word < 2 || in_word >= p.m ? 0 : (uint8_t)(p.q - 1);
    }
    must(remi_read_stream(p, table, TABLE_ROOM, cells, whole, out, CELL_ROOM).reply.number == REMI_DONE, "no such stream");
}

/* Raises what each call takes at most to what it takes now. */
static void measure(uint8_t *stack, size_t most[CALLS])
{
    for (size_t c = 0; c < CALLS; c++) {
        size_t taken = used(stack, calls[c].call) - used(stack, no_call);
        most[c] = taken > most[c] ? taken : most[c];
    }
}

int main(void)
{
    uint8_t *stack = aligned_alloc(PAGE, STACK);
    size_t most[CALLS] = {0};

    must(stack != NULL, "no memory");
    for (size_t i = 0; i < BYTE_ROOM; i++)
        bytes[i] = (uint8_t)(i * i / 7 + i);
    for (size_t k = 0; k < sizeof profiles / sizeof *profiles; k++) {
        make_ready(profiles[k]);
        measure(stack, most);
        fill_with_tops();
        measure(stack, most);
        cells[whole - 1] = UINT8_MAX;
        measure(stack, most);
    }
    for (size_t c = 0; c < CALLS; c++) {
        printf("%-24s %6zu bytes of stack\n", calls[c].name, most[c]);
        must(most[c] <= MOST, "more than the header says");
    }
    free(stack);
    return 0;
}
