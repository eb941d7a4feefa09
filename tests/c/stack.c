/* How much stack each call takes, with its arguments and the caller's room for the answer: a thread runs on memory that is painted
 * below its own frame, and the lowest byte that lost its paint tells. Prints a line for each call; ends with 1 at 8 KiB or more. */
#define _XOPEN_SOURCE 700
#include "g719.h"

#include <pthread.h>
#include <stdbool.h>
#include <stdio.h>
#include <stdlib.h>
#include <string.h>

enum { PAINT = 0x5C, STACK = 262144, OWN_FRAME = 256, MOST = 8192 };

static uint8_t *stack;

/* The largest frame there is, and what reading it gives. */
static g719_record record;
static uint16_t codes[G719_CODES];
static uint8_t tail[G719_TAIL_BYTES];
static uint8_t frame[G719_FRAME_BYTES];
/* Eight such frames: as a block, and as recordings of one frame each. */
static g719_records records;
static uint16_t all_codes[8 * G719_CODES];
static uint8_t all_tails[8 * G719_TAIL_BYTES];
static uint8_t block[8 * G719_FRAME_BYTES];
static uint8_t copy[8 * G719_FRAME_BYTES];
static uint32_t lengths[8];
static uint16_t index[8] = { 1, 2, 3, 4, 5, 6, 7, 8 };
static int16_t point[8];
static uint8_t reply;

static void read_prefix(void) { reply = g719_read_prefix(frame, sizeof frame).reply; }
static void write_prefix(void) { reply = g719_write_prefix(19).reply; }
static void read(void) { reply = g719_read(frame, sizeof frame, codes, G719_CODES, tail, G719_TAIL_BYTES).reply; }
static void write(void) { reply = g719_write(record, codes, G719_CODES, tail, G719_TAIL_BYTES, frame, sizeof frame).reply; }
static void layout(void) { reply = g719_layout(record, codes, G719_CODES).reply; }
static void write_empty(void) { uint8_t out; reply = g719_write_empty(&out, 1).reply; }
static void choose_flag_n(void) { reply = g719_choose_flag_n(1, record.norms).reply; }
static void choose_flag_c(void) { reply = g719_choose_flag_c(record, codes, G719_CODES).reply; }
static void legalise(void) { reply = g719_legalise(1, record.norms).reply; }
static void weigh(void) { reply = g719_weigh(1, record.norms).reply; }
static void allot(void) { reply = g719_allot(1, 1, record.norms, G719_MOST_BUDGET).reply; }
static void lattice_point(void) { reply = g719_lattice_point(4, index).reply; }
static void lattice_index(void) { reply = g719_lattice_index(4, point).reply; }
static void codebook_point(void) { reply = g719_codebook_point(1, 255).reply; }
static void codebook_index(void) { reply = g719_codebook_index(1, point).reply; }
static void check_file(void) { reply = g719_check_file(frame, sizeof frame, 1).reply; }
static void read_block(void)
{
    reply = g719_read_block(block, sizeof block, 8, all_codes, 8 * G719_CODES, all_tails, sizeof all_tails).reply;
}
static void write_block(void)
{
    reply = g719_write_block(records, 8, all_codes, 8 * G719_CODES, all_tails, sizeof all_tails, block, sizeof block).reply;
}
static void check_blocks(void) { reply = g719_check_blocks(block, sizeof block, 8, 1).reply; }
static void extract(void) { reply = g719_extract(block, sizeof block, 8, 7, copy, sizeof copy).reply; }
static void join(void) { reply = g719_join(block, sizeof block, lengths, 8, copy, sizeof copy).reply; }

static const struct {
    const char *name;
    void (*call)(void);
} calls[] = {
    { "read_prefix", read_prefix },       { "write_prefix", write_prefix },     { "read", read },
    { "write", write },                   { "layout", layout },                 { "write_empty", write_empty },
    { "choose_flag_n", choose_flag_n },   { "choose_flag_c", choose_flag_c },   { "legalise", legalise },
    { "weigh", weigh },                   { "allot", allot },                   { "lattice_point", lattice_point },
    { "lattice_index", lattice_index },   { "codebook_point", codebook_point }, { "codebook_index", codebook_index },
    { "check_file", check_file },         { "read_block", read_block },         { "write_block", write_block },
    { "check_blocks", check_blocks },     { "extract", extract },               { "join", join },
};

static void *measure(void *failed)
{
    uint8_t here;
    for (size_t i = 0; i < sizeof calls / sizeof calls[0]; i++) {
        memset(stack, PAINT, (size_t)(&here - stack) - OWN_FRAME);
        calls[i].call();
        size_t clean = 0;
        while (stack[clean] == PAINT)
            clean++;
        size_t taken = (size_t)(&here - stack) - clean;
        printf("%-15s %5zu bytes\n", calls[i].name, taken);
        if (reply != G719_DONE || taken >= MOST)
            *(bool *)failed = true;
    }
    return NULL;
}

/* A record of mode 19 that uses all its parts, and its point; false if it cannot be written. */
static bool prepare(void)
{
    record.mode = 19;
    record.flag_c = 1;
    memset(record.norms, 20, sizeof record.norms);
    memcpy(point, g719_codebook_point(1, 200).at, sizeof point);
    record.tail_bits = g719_layout(record, codes, G719_CODES).tail_bits;
    for (int c = 0; c < 8; c++) {
        records.at[c] = record;
        lengths[c] = G719_FRAME_BYTES;
    }
    write_block();
    return reply == G719_DONE
        && g719_write(record, codes, G719_CODES, tail, G719_TAIL_BYTES, frame, sizeof frame).reply == G719_DONE;
}

int main(void)
{
    bool failed = !prepare();
    void *memory;
    pthread_attr_t on;
    pthread_t thread;
    if (posix_memalign(&memory, 4096, STACK) != 0)
        return 1;
    stack = memory;
    if (pthread_attr_init(&on) != 0 || pthread_attr_setstack(&on, stack, STACK) != 0
        || pthread_create(&thread, &on, measure, &failed) != 0 || pthread_join(thread, NULL) != 0)
        return 1;
    free(memory);
    return failed;
}
