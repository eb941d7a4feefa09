/* Calls every function of include/g719.h: layout of each struct, the paper's examples, every reply, what a refusal leaves alone,
 * frames written, read, laid out and written again, blocks of several channels too, recordings joined and taken apart, and every
 * value of every flag. Prints how many checks passed; ends with 1 at the first that does not. */
#include "g719.h"

#include <stdbool.h>
#include <stdio.h>
#include <stdlib.h>
#include <string.h>

static int checks;

#define CHECK(is) check((is), #is, __LINE__)

static void check(bool is, const char *text, int line)
{
    if (!is) {
        printf("tests/c/main.c:%d: not so: %s\n", line, text);
        exit(1);
    }
    checks++;
}

/* ---- what the tests share */

enum { KEPT = 0xA5, EXCESS = 9 };

/* Room for a frame, larger than needed, so that the excess is seen to stay. */
typedef struct room {
    uint16_t codes[G719_CODES + EXCESS];
    uint8_t tail[G719_TAIL_BYTES + EXCESS];
    uint8_t out[G719_FRAME_BYTES + EXCESS];
} room;

static room marked_room(void)
{
    room r;
    memset(&r, KEPT, sizeof r);
    return r;
}

static bool all_bytes(const void *at, size_t count, uint8_t byte)
{
    const uint8_t *b = at;
    for (size_t i = 0; i < count; i++)
        if (b[i] != byte)
            return false;
    return true;
}

static bool room_kept(const room *r)
{
    return all_bytes(r, sizeof *r, KEPT);
}

static bool same_record(const g719_record *a, const g719_record *b)
{
    return a->mode == b->mode && a->transient == b->transient && a->flag_l == b->flag_l && a->flag_n == b->flag_n
        && a->flag_c == b->flag_c && memcmp(a->norms, b->norms, sizeof a->norms) == 0 && a->noise == b->noise
        && a->tail_bits == b->tail_bits;
}

static bool same_parts(const g719_parts *a, const g719_parts *b)
{
    return a->reply == b->reply && a->budget == b->budget && memcmp(a->rates, b->rates, sizeof a->rates) == 0
        && a->code_bits == b->code_bits && a->tail_bits == b->tail_bits;
}

static bool no_record(const g719_record *a)
{
    g719_record none;
    memset(&none, 0, sizeof none);
    return same_record(a, &none);
}

static uint32_t drawn_state = 719;

/* A number below n, the same in every run. */
static uint32_t drawn(uint32_t n)
{
    drawn_state = drawn_state * 1664525u + 1013904223u;
    return (uint32_t)(((uint64_t)drawn_state * n) >> 32);
}

static size_t body_bytes(uint8_t mode)
{
    return mode < 15 ? 80 + 10u * mode : 240 + 20u * (mode - 15u);
}

/* 01's example: stationary, 80 bytes, all indices 20, FlagL 1. */
static g719_record example(uint8_t flag_n)
{
    g719_record r;
    memset(&r, 0, sizeof r);
    r.flag_l = 1;
    r.flag_n = flag_n;
    memset(r.norms, 20, sizeof r.norms);
    r.tail_bits = flag_n ? 4 : 6;
    return r;
}

/* ---- layout of the structs */

#define FIELD(type, field, offset, bytes) \
    CHECK(offsetof(type, field) == (offset) && sizeof(((type *)0)->field) == (bytes))

static void structs(void)
{
    CHECK(sizeof(g719_prefix) == 6 && sizeof(g719_byte) == 2 && sizeof(g719_record) == 52);
    CHECK(sizeof(g719_reading) == 72 && sizeof(g719_writing) == 16 && sizeof(g719_choice) == 2);
    CHECK(sizeof(g719_norms) == 45 && sizeof(g719_weights) == 134 && sizeof(g719_shares) == 50);
    CHECK(sizeof(g719_point) == 18 && sizeof(g719_index) == 18 && sizeof(g719_row) == 2 && sizeof(g719_check) == 16);
    CHECK(sizeof(g719_parts) == 52);
    CHECK(sizeof(g719_block) == 592 && sizeof(g719_records) == 424 && sizeof(g719_copied) == 24);
    FIELD(g719_prefix, length, 1, 1);
    FIELD(g719_prefix, bytes, 2, 2);
    FIELD(g719_prefix, next, 4, 1);
    FIELD(g719_byte, byte, 1, 1);
    FIELD(g719_record, mode, 0, 1);
    FIELD(g719_record, transient, 1, 1);
    FIELD(g719_record, flag_l, 2, 1);
    FIELD(g719_record, flag_n, 3, 1);
    FIELD(g719_record, flag_c, 4, 1);
    FIELD(g719_record, norms, 5, 44);
    FIELD(g719_record, noise, 49, 1);
    FIELD(g719_record, tail_bits, 50, 2);
    FIELD(g719_reading, next, 8, 8);
    FIELD(g719_reading, record, 16, 52);
    FIELD(g719_writing, next, 8, 8);
    FIELD(g719_parts, budget, 2, 2);
    FIELD(g719_parts, rates, 4, 44);
    FIELD(g719_parts, code_bits, 48, 2);
    FIELD(g719_parts, tail_bits, 50, 2);
    FIELD(g719_choice, flag, 1, 1);
    FIELD(g719_norms, norms, 1, 44);
    FIELD(g719_weights, weights, 1, 44);
    FIELD(g719_weights, scores, 46, 88);
    FIELD(g719_shares, rates, 1, 44);
    FIELD(g719_shares, left, 46, 2);
    FIELD(g719_shares, rounds, 48, 2);
    FIELD(g719_point, at, 2, 16);
    FIELD(g719_index, at, 2, 16);
    FIELD(g719_row, index, 1, 1);
    FIELD(g719_check, count, 4, 4);
    FIELD(g719_check, place, 8, 8);
    FIELD(g719_block, next, 8, 8);
    FIELD(g719_block, frames, 16, 576);
    FIELD(g719_records, at, 0, 416);
    FIELD(g719_records, empty, 416, 8);
    FIELD(g719_copied, which, 1, 1);
    FIELD(g719_copied, count, 4, 4);
    FIELD(g719_copied, place, 8, 8);
    FIELD(g719_copied, length, 16, 8);
}

/* ---- prefix byte */

static void prefix_read(void)
{
    for (unsigned b = 0; b < 256; b++) {
        uint8_t src[2] = { (uint8_t)b, 0xFF };
        g719_prefix p = g719_read_prefix(src, 2);
        unsigned l = b / 4 % 32;
        if (b >= 128)
            CHECK(p.reply == G719_MARKED && p.length == 0 && p.bytes == 0 && p.next == 0);
        else if (l == 0)
            CHECK(p.reply == G719_NO_DATA && p.length == 0 && p.bytes == 0 && p.next == 1);
        else if (l < 8 || l > 27)
            CHECK(p.reply == G719_RESERVED && p.length == 0 && p.bytes == 0 && p.next == 0);
        else
            CHECK(p.reply == G719_DONE && p.length == l && p.bytes == body_bytes((uint8_t)(l - 8)) && p.next == 1);
    }
    g719_prefix none = g719_read_prefix(NULL, 0);
    CHECK(none.reply == G719_NO_BYTE && none.length == 0 && none.bytes == 0 && none.next == 0);
    uint8_t largest = 0x6C;
    g719_prefix p = g719_read_prefix(&largest, 1);
    CHECK(p.reply == G719_DONE && p.length == 27 && p.bytes == 320);
}

static void prefix_written(void)
{
    for (unsigned mode = 0; mode < 256; mode++) {
        g719_byte b = g719_write_prefix((uint8_t)mode);
        if (mode > 19)
            CHECK(b.reply == G719_OUT_OF_RANGE && b.byte == 0);
        else
            CHECK(b.reply == G719_DONE && b.byte == (mode + 8) * 4);
    }
}

/* ---- norms */

static void flag_n(void)
{
    uint8_t norms[G719_BANDS];
    memset(norms, 20, sizeof norms);
    g719_choice c = g719_choose_flag_n(0, norms);
    CHECK(c.reply == G719_DONE && c.flag == 1);
    for (int b = 0; b < G719_BANDS; b++)
        norms[b] = b % 2 ? 15 : 0;
    c = g719_choose_flag_n(0, norms);
    CHECK(c.reply == G719_DONE && c.flag == 0);
    norms[43] = 16;
    CHECK(g719_choose_flag_n(0, norms).reply == G719_DONE);
    norms[43] = 17;
    c = g719_choose_flag_n(0, norms);
    CHECK(c.reply == G719_FAR_APART && c.flag == 0);
    norms[43] = 15;
    norms[41] = 16;
    CHECK(g719_choose_flag_n(0, norms).reply == G719_FAR_APART);
    norms[0] = 32;
    CHECK(g719_choose_flag_n(0, norms).reply == G719_OUT_OF_RANGE);
    norms[0] = 0;
    norms[43] = 40;
    CHECK(g719_choose_flag_n(1, norms).reply == G719_OUT_OF_RANGE);
}

static void legal_norms(void)
{
    uint8_t norms[G719_BANDS];
    memset(norms, 39, sizeof norms);
    norms[1] = 0;
    g719_norms n = g719_legalise(0, norms);
    CHECK(n.reply == G719_DONE && n.norms[0] == 15 && n.norms[1] == 0 && n.norms[2] == 16 && n.norms[3] == 32);
    CHECK(all_bytes(n.norms + 4, 40, 39));
    n = g719_legalise(1, norms);
    CHECK(n.reply == G719_DONE && n.norms[0] == 15 && n.norms[1] == 0 && n.norms[8] == 16 && n.norms[9] == 32);
    CHECK(all_bytes(n.norms + 2, 6, 39) && all_bytes(n.norms + 10, 34, 39));
    memset(norms, 35, sizeof norms);
    n = g719_legalise(0, norms);
    CHECK(n.reply == G719_DONE && n.norms[0] == 31 && all_bytes(n.norms + 1, 43, 35));
    norms[43] = 40;
    n = g719_legalise(0, norms);
    CHECK(n.reply == G719_OUT_OF_RANGE && all_bytes(n.norms, 44, 0));
}

/* which bands fall, and to what; no other does, and none of them could stand one higher */
struct fall {
    uint8_t band, to;
};

static void fallen(uint8_t transient, const uint8_t norms[G719_BANDS], const struct fall *falls, size_t count)
{
    uint8_t expected[G719_BANDS];
    memcpy(expected, norms, sizeof expected);
    for (size_t i = 0; i < count; i++)
        expected[falls[i].band] = falls[i].to;
    g719_norms legal = g719_legalise(transient, norms);
    CHECK(legal.reply == G719_DONE && memcmp(legal.norms, expected, sizeof expected) == 0);
    CHECK(g719_choose_flag_n(transient, legal.norms).reply == G719_DONE);
    g719_norms again = g719_legalise(transient, legal.norms);
    CHECK(again.reply == G719_DONE && memcmp(again.norms, legal.norms, sizeof again.norms) == 0);
    for (size_t i = 0; i < count; i++) {
        expected[falls[i].band]++;
        CHECK(g719_choose_flag_n(transient, expected).reply != G719_DONE);
        expected[falls[i].band]--;
    }
}

/* the cases of docs/LOUD-PEAKS.md */
static void loud_peaks(void)
{
    static const struct fall stationary[4] = { { 18, 30 }, { 19, 15 }, { 21, 16 }, { 22, 32 } };
    static const struct fall transient[4] = { { 9, 30 }, { 16, 15 }, { 24, 16 }, { 28, 32 } };
    static const struct fall between[7] = { { 0, 31 }, { 8, 35 }, { 9, 20 }, { 11, 21 }, { 12, 15 }, { 14, 16 }, { 15, 32 } };
    uint8_t norms[G719_BANDS];
    memset(norms, 36, sizeof norms);
    norms[0] = 31;
    norms[20] = 0;
    fallen(0, norms, stationary, 4);
    fallen(1, norms, transient, 4);
    memset(norms, 39, sizeof norms);
    norms[10] = 5;
    norms[13] = 0;
    fallen(0, norms, between, 7);
}

/* ---- sharing the bits */

static void weights(void)
{
    static const uint8_t front[5] = { 0, 12, 25, 38, 51 };
    uint8_t norms[G719_BANDS];
    memset(norms, 20, sizeof norms);
    norms[0] = 0;
    g719_weights w = g719_weigh(0, norms);
    CHECK(w.reply == G719_DONE && memcmp(w.weights, front, 5) == 0 && all_bytes(w.weights + 5, 39, 64));
    CHECK(w.scores[0] == 544 && w.scores[1] == 236 && w.scores[43] == 288);
    memset(norms, 39, sizeof norms);
    CHECK(g719_weigh(0, norms).scores[0] == -80);
    w = g719_weigh(1, norms);
    for (int b = 0; b < G719_BANDS; b++)
        CHECK(w.reply == G719_DONE && w.weights[b] <= 64 && w.scores[b] == w.weights[b] - 80);
    norms[7] = 40;
    w = g719_weigh(0, norms);
    CHECK(w.reply == G719_OUT_OF_RANGE && all_bytes(w.weights, sizeof w.weights, 0) && all_bytes(w.scores, sizeof w.scores, 0));
}

static void shares(void)
{
    uint8_t norms[G719_BANDS];
    memset(norms, 20, sizeof norms);
    g719_shares s = g719_allot(0, 1, norms, 414);
    CHECK(s.reply == G719_DONE && s.rates[0] == 2 && all_bytes(s.rates + 1, 29, 1) && all_bytes(s.rates + 30, 14, 0));
    CHECK(s.left == 6 && s.rounds == 75);
    s = g719_allot(0, 1, norms, 500);
    CHECK(s.reply == G719_DONE && all_bytes(s.rates, 34, 1) && all_bytes(s.rates + 34, 10, 0));
    CHECK(s.left == 4 && s.rounds == 78);
    s = g719_allot(1, 0, norms, G719_MOST_BUDGET);
    CHECK(s.reply == G719_DONE && s.rates[35] > 0 && all_bytes(s.rates + 36, 8, 0));
    s = g719_allot(0, 1, norms, G719_MOST_BUDGET);
    CHECK(s.reply == G719_DONE && s.rates[43] > 0);
    s = g719_allot(0, 1, norms, G719_MOST_BUDGET + 1);
    CHECK(s.reply == G719_OUT_OF_RANGE && all_bytes(s.rates, 44, 0) && s.left == 0 && s.rounds == 0);
    CHECK(g719_allot(0, 1, norms, UINT32_MAX).reply == G719_OUT_OF_RANGE);
    norms[0] = 40;
    s = g719_allot(0, 1, norms, 414);
    CHECK(s.reply == G719_OUT_OF_RANGE && s.left == 0 && s.rounds == 0);
}

/* Rounds by the rates: one for each step, and one for each competing band that ends below the largest rate. */
static unsigned rounds_of(const g719_shares *s, unsigned competing)
{
    unsigned rounds = 0;
    for (unsigned b = 0; b < G719_BANDS; b++)
        rounds += s->rates[b] + (b < competing && s->rates[b] < G719_MOST_RATE);
    return rounds;
}

/* Sixteen loud bands: the bound budget / 8 + 44 is reached up to 1,031 bits and not beyond; who does not compete takes no round. */
static void rounds(void)
{
    uint8_t norms[G719_BANDS];
    memset(norms, G719_MOST_NORM, sizeof norms);
    memset(norms, 0, 16);
    for (uint32_t budget = 0; budget <= G719_MOST_BUDGET; budget++) {
        g719_shares s = g719_allot(0, 1, norms, budget);
        CHECK(s.reply == G719_DONE && s.rounds == rounds_of(&s, G719_BANDS));
        CHECK((s.rounds == budget / 8 + 44) == (budget <= 1031) && s.rounds <= budget / 8 + 44);
        s = g719_allot(1, 0, norms, budget);
        CHECK(s.reply == G719_DONE && s.rounds == rounds_of(&s, 36));
    }
}

/* ---- points */

static void lattice_examples(void)
{
    static const int16_t firsts[4] = { 0, 2, 4, -2 };
    for (uint16_t k = 1; k < 4; k++) {
        uint16_t index[8] = { k };
        g719_point p = g719_lattice_point(2, index);
        CHECK(p.reply == G719_DONE && p.at[0] == firsts[k] && all_bytes(p.at + 1, 14, 0));
    }
    uint16_t second[8] = { 0, 3 };
    g719_point p = g719_lattice_point(2, second);
    CHECK(p.reply == G719_DONE && p.at[0] == -1 && p.at[1] == -1 && all_bytes(p.at + 2, 12, 0));
    uint16_t large[8] = { 0, 0, 0, 0, 0, 0, 0, 4 };
    p = g719_lattice_point(2, large);
    CHECK(p.reply == G719_OUT_OF_RANGE && all_bytes(p.at, sizeof p.at, 0));
    CHECK(g719_lattice_point(1, second).reply == G719_OUT_OF_RANGE && g719_lattice_point(10, second).reply == G719_OUT_OF_RANGE);
    int16_t odd[8] = { 1 };
    g719_index k = g719_lattice_index(2, odd);
    CHECK(k.reply == G719_OUT_OF_RANGE && all_bytes(k.at, sizeof k.at, 0));
    int16_t zero[8] = { 0 };
    CHECK(g719_lattice_index(1, zero).reply == G719_OUT_OF_RANGE && g719_lattice_index(9, zero).reply == G719_DONE);
}

static void lattice_there_and_back(void)
{
    for (uint8_t rate = 2; rate <= 9; rate++)
        for (int turn = 0; turn < 200; turn++) {
            uint16_t index[8];
            for (int i = 0; i < 8; i++)
                index[i] = (uint16_t)drawn(1u << rate);
            g719_point p = g719_lattice_point(rate, index);
            CHECK(p.reply == G719_DONE);
            g719_index k = g719_lattice_index(rate, p.at);
            CHECK(k.reply == G719_DONE && memcmp(k.at, index, sizeof index) == 0);
        }
}

static void codebook(void)
{
    for (uint16_t n = 0; n < 256; n++) {
        g719_point p = g719_codebook_point(1, n);
        CHECK(p.reply == G719_DONE);
        g719_row r = g719_codebook_index(1, p.at);
        CHECK(r.reply == G719_DONE && r.index == n);
    }
    g719_point last = g719_codebook_point(1, 254);
    for (int i = 0; i < 8; i++)
        CHECK(last.at[i] == -1);
    g719_point none = g719_codebook_point(1, 256);
    CHECK(none.reply == G719_OUT_OF_RANGE && all_bytes(none.at, sizeof none.at, 0));
    CHECK(g719_codebook_point(2, 0).reply == G719_OUT_OF_RANGE);
    int16_t no_row[8] = { 3 };
    g719_row r = g719_codebook_index(1, no_row);
    CHECK(r.reply == G719_OUT_OF_RANGE && r.index == 0 && g719_codebook_index(0, last.at).reply == G719_OUT_OF_RANGE);
}

/* ---- frames */

/* Reads a frame that must be sound, and sees that record, codes, tail and excess are as they should be. */
static void read_as(const uint8_t *src, size_t count, const g719_record *record, const uint16_t *codes, const uint8_t *tail)
{
    room got = marked_room();
    g719_reading r = g719_read(src, count, got.codes, G719_CODES + EXCESS, got.tail, G719_TAIL_BYTES + EXCESS);
    CHECK(r.reply == G719_DONE && r.next == body_bytes(record->mode) + 1 && same_record(&r.record, record));
    CHECK(memcmp(got.codes, codes, 2 * G719_CODES) == 0 && memcmp(got.tail, tail, G719_TAIL_BYTES) == 0);
    CHECK(all_bytes(got.codes + G719_CODES, 2 * EXCESS, KEPT) && all_bytes(got.tail + G719_TAIL_BYTES, EXCESS, KEPT));
}

/* Sees that a record with these codes and a tail of zeros is written with this tail count alone, among some. */
static void written_alone(g719_record record, const uint16_t *codes, uint16_t tail_bits)
{
    static const uint8_t zeros[G719_TAIL_BYTES];
    const uint16_t counts[6] = { tail_bits, (uint16_t)(tail_bits - 1), (uint16_t)(tail_bits + 1), 0, 2560, 65535 };
    for (int i = 0; i < 6; i++) {
        uint8_t out[G719_FRAME_BYTES];
        record.tail_bits = counts[i];
        g719_writing w = g719_write(record, codes, G719_CODES, zeros, G719_TAIL_BYTES, out, sizeof out);
        CHECK(w.reply == (counts[i] == tail_bits ? G719_DONE : G719_WRONG_TAIL));
    }
}

/* Sees that a sound record parts as it should: its own tail count, the rates of its budget, whatever noise and tail count say. */
static void laid_out(const g719_record *record, const uint16_t *codes)
{
    g719_parts p = g719_layout(*record, codes, G719_CODES);
    CHECK(p.reply == G719_DONE && p.budget == p.code_bits + p.tail_bits && p.tail_bits == record->tail_bits);
    CHECK(record->flag_n || p.budget == 8 * body_bytes(record->mode) - 224 - (record->transient ? 0 : 2));
    g719_shares s = g719_allot(record->transient, record->mode > 0 || record->flag_l, record->norms, p.budget);
    CHECK(s.reply == G719_DONE && memcmp(p.rates, s.rates, sizeof p.rates) == 0);
    CHECK(record->flag_c || p.tail_bits == s.left);
    g719_record other = *record;
    other.noise = (uint8_t)drawn(256);
    other.tail_bits = (uint16_t)drawn(65536);
    g719_parts q = g719_layout(other, codes, G719_CODES);
    CHECK(same_parts(&p, &q));
    written_alone(*record, codes, p.tail_bits);
}

/* Writes a record that must be written, reads the bytes, lays out what was read and writes it. */
static void there_and_back(const g719_record *record, const uint16_t *codes, const uint8_t *tail)
{
    size_t bytes = body_bytes(record->mode) + 1;
    room made = marked_room();
    g719_writing w = g719_write(*record, codes, G719_CODES, tail, G719_TAIL_BYTES, made.out, sizeof made.out);
    CHECK(w.reply == G719_DONE && w.next == bytes && all_bytes(made.out + bytes, sizeof made.out - bytes, KEPT));
    CHECK(made.out[0] == g719_write_prefix(record->mode).byte);
    read_as(made.out, bytes, record, codes, tail);
    made.out[0] |= 3;
    read_as(made.out, sizeof made.out, record, codes, tail);
    laid_out(record, codes);
    g719_check c = g719_check_file(made.out, bytes, 1);
    CHECK(c.reply == G719_DONE && c.count == 1 && c.place == bytes);
    c = g719_check_file(made.out, bytes - 1, 1);
    CHECK(c.reply == G719_CUT && c.count == 0 && c.place == 0);
}

static void frame_example(void)
{
    static const uint8_t begin[6] = { 0x20, 0x6A, 0x6D, 0xB6, 0xDB, 0x6D };
    g719_record r = example(1);
    r.noise = 2;
    uint16_t codes[G719_CODES] = { 0 };
    uint8_t tail[G719_TAIL_BYTES] = { 0xB0 };
    codes[0] = 255;
    uint8_t out[81];
    g719_writing w = g719_write(r, codes, G719_CODES, tail, G719_TAIL_BYTES, out, sizeof out);
    CHECK(w.reply == G719_DONE && w.next == 81 && memcmp(out, begin, sizeof begin) == 0);
    CHECK((out[80] & 0x3F) == 0x2B);
    there_and_back(&r, codes, tail);
}

/* The codes of a frame without words, from its rates. */
static void draw_codes(const uint8_t rates[44], uint16_t codes[G719_CODES])
{
    int at = 0;
    for (int band = 0; band < G719_BANDS; band++) {
        int length = band < 16 ? 8 : band < 24 ? 16 : band < 36 ? 24 : 32;
        for (int i = 0; i < length; i++, at++) {
            codes[at] = 0;
            if (rates[band] == 1 && i % 8 == 0)
                codes[at] = (uint16_t)drawn(256);
            if (rates[band] > 1)
                codes[at] = (uint16_t)drawn(1u << rates[band]);
        }
    }
}

static void draw_tail(unsigned bits, uint8_t tail[G719_TAIL_BYTES])
{
    memset(tail, 0, G719_TAIL_BYTES);
    for (unsigned i = 0; i < bits; i++)
        if (drawn(2))
            tail[i / 8] |= (uint8_t)(128u >> i % 8);
}

/* A drawn record with FlagN 0 and FlagC 0, whose norm part is 220 bits. */
static g719_record draw_record(uint8_t mode, uint16_t codes[G719_CODES], uint8_t tail[G719_TAIL_BYTES])
{
    g719_record r;
    memset(&r, 0, sizeof r);
    r.mode = mode;
    r.transient = (uint8_t)drawn(2);
    r.flag_l = (uint8_t)drawn(2);
    r.noise = r.transient ? 0 : (uint8_t)drawn(4);
    for (int b = 0; b < G719_BANDS; b++)
        r.norms[b] = (uint8_t)drawn(40);
    g719_norms legal = g719_legalise(r.transient, r.norms);
    CHECK(legal.reply == G719_DONE && g719_choose_flag_n(r.transient, legal.norms).reply == G719_DONE);
    memcpy(r.norms, legal.norms, sizeof r.norms);
    uint32_t budget = (uint32_t)(8 * body_bytes(mode) - 224 - (r.transient ? 0 : 2));
    g719_shares s = g719_allot(r.transient, mode > 0 || r.flag_l, r.norms, budget);
    CHECK(s.reply == G719_DONE);
    r.tail_bits = s.left;
    draw_codes(s.rates, codes);
    draw_tail(s.left, tail);
    return r;
}

/* Each flag alone stands at its own bit of the body's first byte, transient at the top. */
static void flags(void)
{
    static const uint16_t codes[G719_CODES];
    static const uint8_t tail[G719_TAIL_BYTES];
    for (int flag = 0; flag < 4; flag++) {
        g719_record r = example(0);
        r.transient = flag == 0;
        r.flag_l = flag == 1;
        r.flag_n = flag == 2;
        r.flag_c = flag == 3;
        r.tail_bits = g719_layout(r, codes, G719_CODES).tail_bits;
        uint8_t out[81];
        g719_writing w = g719_write(r, codes, G719_CODES, tail, G719_TAIL_BYTES, out, sizeof out);
        CHECK(w.reply == G719_DONE && out[1] >> 4 == 8 >> flag);
        there_and_back(&r, codes, tail);
    }
}

static void drawn_frames(void)
{
    for (int turn = 0; turn < 5; turn++)
        for (uint8_t mode = 0; mode < 20; mode++) {
            uint16_t codes[G719_CODES];
            uint8_t tail[G719_TAIL_BYTES];
            g719_record r = draw_record(mode, codes, tail);
            there_and_back(&r, codes, tail);
        }
}

/* Sees that a frame is refused and that nothing lent is changed. */
static void read_refused(uint8_t reply, size_t next, const uint8_t *src, size_t count, size_t codes, size_t tail)
{
    room got = marked_room();
    g719_reading r = g719_read(src, count, got.codes, codes, got.tail, tail);
    CHECK(r.reply == reply && r.next == next && no_record(&r.record) && room_kept(&got));
}

/* Norms for which band 0 has rate 5 in an 80-byte stationary frame with FlagN 0. */
static g719_record five_bits(void)
{
    g719_record r = example(0);
    r.flag_c = 1;
    g719_shares s;
    do {
        r.norms[0]--;
        s = g719_allot(0, 1, r.norms, 414);
    } while (s.rates[0] != 5);
    return r;
}

static void refused_frames(void)
{
    static const uint8_t heads[5] = { 0x20, 0x04, 0x80, 0x70, 0x00 };
    read_refused(G719_CUT, 0, heads, 1, G719_CODES, G719_TAIL_BYTES);
    read_refused(G719_RESERVED, 0, heads + 1, 1, G719_CODES, G719_TAIL_BYTES);
    read_refused(G719_MARKED, 0, heads + 2, 1, G719_CODES, G719_TAIL_BYTES);
    read_refused(G719_RESERVED, 0, heads + 3, 1, G719_CODES, G719_TAIL_BYTES);
    read_refused(G719_NO_DATA, 1, heads + 4, 1, G719_CODES, G719_TAIL_BYTES);
    read_refused(G719_NO_BYTE, 0, NULL, 0, G719_CODES, G719_TAIL_BYTES);
    read_refused(G719_SHORT_ROOM, 0, heads + 4, 1, G719_CODES - 1, G719_TAIL_BYTES);
    read_refused(G719_SHORT_ROOM, 0, heads + 4, 1, G719_CODES, G719_TAIL_BYTES - 1);
    g719_reading r = g719_read(NULL, 0, NULL, 0, NULL, 0);
    CHECK(r.reply == G719_SHORT_ROOM && r.next == 0 && no_record(&r.record));
    room got = marked_room();
    CHECK(g719_read(heads, 5, NULL, 0, got.tail, G719_TAIL_BYTES).reply == G719_SHORT_ROOM && room_kept(&got));
    CHECK(g719_read(heads, 5, got.codes, G719_CODES, NULL, 0).reply == G719_SHORT_ROOM && room_kept(&got));
    uint8_t frame[81] = { 0x20, 0x0F };
    memset(frame + 2, 0xFF, sizeof frame - 2);
    read_refused(G719_NORM_OUTSIDE, 0, frame, sizeof frame, G719_CODES, G719_TAIL_BYTES);
}

/* Words of band 0 begin at byte 28 of the body: 4 flags and 220 norm bits come before. */
static void refused_words(void)
{
    g719_record r = five_bits();
    uint16_t codes[G719_CODES] = { 0 };
    uint8_t tail[G719_TAIL_BYTES] = { 0 };
    r.tail_bits = g719_layout(r, codes, G719_CODES).tail_bits;
    uint8_t out[81];
    g719_writing w = g719_write(r, codes, G719_CODES, tail, G719_TAIL_BYTES, out, sizeof out);
    CHECK(w.reply == G719_DONE && r.tail_bits > 6);
    there_and_back(&r, codes, tail);
    out[29] = 0xFC;
    read_refused(G719_NO_WORD, 0, out, sizeof out, G719_CODES, G719_TAIL_BYTES);
    memset(out + 29, 0xFF, 52);
    read_refused(G719_PAST_BUDGET, 0, out, sizeof out, G719_CODES, G719_TAIL_BYTES);
}

/* Sees that a record is refused and that nothing lent is changed. */
static void write_refused(uint8_t reply, g719_record r, const uint16_t *codes, size_t codes_count, const uint8_t *tail,
                          size_t tail_count, size_t out_count)
{
    room made = marked_room();
    g719_writing w = g719_write(r, codes, codes_count, tail, tail_count, made.out, out_count);
    CHECK(w.reply == reply && w.next == 0 && room_kept(&made));
}

static void refused_records(void)
{
    uint16_t codes[G719_CODES] = { 0 };
    uint8_t tail[G719_TAIL_BYTES] = { 0 };
    g719_record r = example(1);
    write_refused(G719_SHORT_ROOM, r, codes, 799, tail, 320, 81);
    write_refused(G719_SHORT_ROOM, r, codes, 800, tail, 319, 81);
    write_refused(G719_SHORT_ROOM, r, codes, 800, tail, 320, 80);
    write_refused(G719_SHORT_ROOM, r, NULL, 0, NULL, 0, 81);
    CHECK(g719_write(r, codes, 800, tail, 320, NULL, 0).reply == G719_SHORT_ROOM);
    r.mode = 20;
    write_refused(G719_OUT_OF_RANGE, r, NULL, 0, NULL, 0, 0);
    r = example(1);
    r.noise = 4;
    write_refused(G719_OUT_OF_RANGE, r, codes, 800, tail, 320, 81);
    r.noise = 1;
    r.transient = 1;
    write_refused(G719_OUT_OF_RANGE, r, codes, 800, tail, 320, 81);
    r = example(1);
    r.norms[43] = 40;
    write_refused(G719_OUT_OF_RANGE, r, codes, 800, tail, 320, 81);
    r.norms[43] = 37;
    write_refused(G719_FAR_APART, r, codes, 800, tail, 320, 81);
    r = example(1);
    r.tail_bits = 5;
    write_refused(G719_WRONG_TAIL, r, codes, 800, tail, 320, 81);
    r.tail_bits = 4;
    tail[0] = 0x08;
    write_refused(G719_WRONG_TAIL, r, codes, 800, tail, 320, 81);
    codes[0] = 256;
    write_refused(G719_WIDE_CODE, r, codes, 800, tail, 320, 81);
    codes[0] = 0;
    codes[1] = 1;
    write_refused(G719_WIDE_CODE, r, codes, 800, tail, 320, 81);
}

/* ---- how a record's bits part */

/* 01's example with FlagN 0, which leaves 6 bits; only that tail count is written, of all. */
static void layout_example(void)
{
    static const uint16_t codes[G719_CODES + 1] = { [G719_CODES] = 65535 };
    static const uint8_t tail[G719_TAIL_BYTES];
    g719_record r = example(0);
    g719_parts p = g719_layout(r, codes, G719_CODES + 1);
    CHECK(p.reply == G719_DONE && p.budget == 414 && p.code_bits == 408 && p.tail_bits == 6);
    CHECK(p.rates[0] == 2 && all_bytes(p.rates + 1, 29, 1) && all_bytes(p.rates + 30, 14, 0));
    for (uint16_t count = 0; count <= G719_MOST_BUDGET; count++) {
        uint8_t out[81];
        r.tail_bits = count;
        CHECK((g719_write(r, codes, G719_CODES, tail, G719_TAIL_BYTES, out, sizeof out).reply == G719_DONE) == (count == 6));
    }
    r.flag_c = 1;
    p = g719_layout(r, codes, G719_CODES);
    CHECK(p.reply == G719_DONE && p.budget == 414 && p.code_bits == 400 && p.tail_bits == 14 && p.rates[0] == 2);
}

static bool unlaid(g719_record r, const uint16_t *codes, size_t codes_count, uint8_t reply)
{
    g719_parts none;
    memset(&none, 0, sizeof none);
    none.reply = reply;
    g719_parts p = g719_layout(r, codes, codes_count);
    return same_parts(&p, &none);
}

/* A record that comes to be wrong in all ways: what stands first in the list is told. */
static void refused_layouts(void)
{
    g719_record r = five_bits();
    uint16_t codes[G719_CODES] = { 0 };
    for (int i = 0; i < 8; i++)
        codes[i] = 16;
    CHECK(unlaid(r, codes, G719_CODES, G719_PAST_BUDGET));
    codes[0] = 32;
    CHECK(unlaid(r, codes, G719_CODES, G719_WIDE_CODE));
    codes[0] = 16;
    codes[799] = 1;
    CHECK(unlaid(r, codes, G719_CODES, G719_WIDE_CODE));
    r.norms[43] = 37;
    CHECK(unlaid(r, codes, G719_CODES, G719_FAR_APART));
    r.norms[42] = 40;
    CHECK(unlaid(r, codes, G719_CODES, G719_OUT_OF_RANGE));
    r.norms[42] = 20;
    r.norms[0] = 32;
    CHECK(unlaid(r, codes, G719_CODES, G719_OUT_OF_RANGE));
    CHECK(unlaid(r, codes, G719_CODES - 1, G719_SHORT_ROOM));
    CHECK(unlaid(r, NULL, 0, G719_SHORT_ROOM));
    r.mode = 20;
    CHECK(unlaid(r, codes, G719_CODES, G719_OUT_OF_RANGE));
    CHECK(unlaid(r, NULL, 0, G719_OUT_OF_RANGE));
}

static void empty_frames(void)
{
    room made = marked_room();
    g719_writing w = g719_write_empty(made.out, 0);
    CHECK(w.reply == G719_SHORT_ROOM && w.next == 0 && room_kept(&made));
    CHECK(g719_write_empty(NULL, 0).reply == G719_SHORT_ROOM);
    w = g719_write_empty(made.out, sizeof made.out);
    CHECK(w.reply == G719_DONE && w.next == 1 && made.out[0] == 0 && all_bytes(made.out + 1, sizeof made.out - 1, KEPT));
}

/* FlagC with band 0 at rate 5: the words of small numbers are shorter than five bits, those of large ones longer. */
static void flag_c(void)
{
    g719_record r = five_bits();
    uint16_t codes[G719_CODES] = { 0 };
    g719_choice c = g719_choose_flag_c(r, codes, G719_CODES);
    CHECK(c.reply == G719_DONE && c.flag == 1);
    for (int i = 0; i < 8; i++)
        codes[i] = 16;
    r.noise = 200;
    r.tail_bits = 60000;
    c = g719_choose_flag_c(r, codes, G719_CODES);
    CHECK(c.reply == G719_DONE && c.flag == 0);
    uint8_t tail[G719_TAIL_BYTES] = { 0 };
    r.noise = 0;
    r.tail_bits = 0;
    write_refused(G719_PAST_BUDGET, r, codes, 800, tail, 320, 81);
    codes[0] = 32;
    c = g719_choose_flag_c(r, codes, G719_CODES);
    CHECK(c.reply == G719_WIDE_CODE && c.flag == 0);
    r.norms[43] = 37;
    CHECK(g719_choose_flag_c(r, codes, G719_CODES).reply == G719_FAR_APART);
    r.norms[43] = 40;
    CHECK(g719_choose_flag_c(r, codes, G719_CODES).reply == G719_OUT_OF_RANGE);
    CHECK(g719_choose_flag_c(r, codes, G719_CODES - 1).reply == G719_SHORT_ROOM);
    CHECK(g719_choose_flag_c(r, NULL, 0).reply == G719_SHORT_ROOM);
    r.mode = 20;
    CHECK(g719_choose_flag_c(r, NULL, 0).reply == G719_OUT_OF_RANGE);
}

/* ---- every value of every flag */

/* Norms that differ by no more than 14, so that they can be sent in both orders. */
static g719_record near_norms(uint8_t mode, uint8_t others)
{
    g719_record r;
    memset(&r, 0, sizeof r);
    r.mode = mode;
    r.transient = r.flag_l = r.flag_n = r.flag_c = others;
    for (int b = 0; b < G719_BANDS; b++)
        r.norms[b] = (uint8_t)(10 + drawn(15));
    return r;
}

static uint8_t *flag_of(g719_record *r, int flag)
{
    uint8_t *const flags[4] = { &r->transient, &r->flag_l, &r->flag_n, &r->flag_c };
    return flags[flag];
}

/* What the calls on a record make of it. Behind the lent part of out its bytes must stay. */
typedef struct made {
    g719_parts parts;
    g719_choice choice;
    g719_writing writing;
    uint8_t out[G719_FRAME_BYTES + EXCESS];
} made;

static made make_all(g719_record r)
{
    static const uint16_t codes[G719_CODES];
    static const uint8_t tail[G719_TAIL_BYTES];
    made m;
    memset(m.out, KEPT, sizeof m.out);
    m.parts = g719_layout(r, codes, G719_CODES);
    m.choice = g719_choose_flag_c(r, codes, G719_CODES);
    m.writing = g719_write(r, codes, G719_CODES, tail, G719_TAIL_BYTES, m.out, body_bytes(r.mode) + 1);
    return m;
}

/* What a flag of 0 or 1 makes: a frame, whose flag is read as that number. */
static made make_frame(g719_record *r, int flag)
{
    static const uint16_t codes[G719_CODES];
    size_t bytes = body_bytes(r->mode) + 1;
    r->tail_bits = g719_layout(*r, codes, G719_CODES).tail_bits;
    made m = make_all(*r);
    CHECK(m.parts.reply == G719_DONE && m.choice.reply == G719_DONE && m.choice.flag <= 1);
    CHECK(m.writing.reply == G719_DONE && m.writing.next == bytes && (m.out[1] >> (7 - flag)) % 2 == *flag_of(r, flag));
    CHECK(all_bytes(m.out + bytes, sizeof m.out - bytes, KEPT));
    room got = marked_room();
    g719_reading back = g719_read(m.out, bytes, got.codes, G719_CODES, got.tail, G719_TAIL_BYTES);
    CHECK(back.reply == G719_DONE && same_record(&back.record, r));
    return m;
}

/* A flag of a record: every number but 0 makes what 1 makes. */
static void flag_values(uint8_t mode, uint8_t others, int flag)
{
    g719_record r = near_norms(mode, others);
    for (unsigned is = 0; is < 2; is++) {
        *flag_of(&r, flag) = (uint8_t)is;
        made as = make_frame(&r, flag);
        for (unsigned value = is; value <= 255 * is; value++) {
            *flag_of(&r, flag) = (uint8_t)value;
            made m = make_all(r);
            CHECK(same_parts(&m.parts, &as.parts) && m.choice.reply == as.choice.reply && m.choice.flag == as.choice.flag);
            CHECK(m.writing.reply == as.writing.reply && m.writing.next == as.writing.next);
            CHECK(memcmp(m.out, as.out, sizeof m.out) == 0);
        }
    }
}

static void record_flags(void)
{
    for (int flag = 0; flag < 4; flag++)
        for (uint8_t others = 0; others < 2; others++) {
            flag_values(0, others, flag);
            flag_values(19, others, flag);
        }
}

/* A record whose codes fit with this flag and, being of other rates, not without: the first of 100 that is so. */
static g719_record telling_record(int flag, uint16_t codes[G719_CODES])
{
    static const uint16_t zeros[G719_CODES];
    g719_record r;
    for (int turn = 0; turn < 100; turn++) {
        r = near_norms(0, 0);
        *flag_of(&r, flag) = 1;
        draw_codes(g719_layout(r, zeros, G719_CODES).rates, codes);
        *flag_of(&r, flag) = 0;
        if (g719_choose_flag_c(r, codes, G719_CODES).reply == G719_WIDE_CODE)
            break;
    }
    return r;
}

/* The choice of FlagC, which looks at all flags but FlagC. */
static void choice_flags(void)
{
    for (int flag = 0; flag < 4; flag++) {
        uint16_t codes[G719_CODES] = { 0 };
        g719_record r = flag < 3 ? telling_record(flag, codes) : near_norms(0, 0);
        g719_choice as[2];
        for (unsigned value = 0; value < 256; value++) {
            *flag_of(&r, flag) = (uint8_t)value;
            g719_choice c = g719_choose_flag_c(r, codes, G719_CODES);
            if (value < 2)
                as[value] = c;
            CHECK(c.flag <= 1 && c.reply == as[value != 0].reply && c.flag == as[value != 0].flag);
        }
        CHECK(as[1].reply == G719_DONE && (as[0].reply == G719_DONE) == (flag == 3) && (flag < 3 || as[0].flag == as[1].flag));
    }
}

/* The argument transient of the calls on norms, for which 0 and 1 are answered differently. */
static void norm_arguments(void)
{
    uint8_t norms[G719_BANDS], steep[G719_BANDS];
    for (int b = 0; b < G719_BANDS; b++) {
        norms[b] = b % 2 ? 15 : 0;
        steep[b] = b == 1 ? 0 : 39;
    }
    const g719_choice choices[2] = { g719_choose_flag_n(0, norms), g719_choose_flag_n(1, norms) };
    const g719_norms legal[2] = { g719_legalise(0, steep), g719_legalise(1, steep) };
    const g719_weights weights[2] = { g719_weigh(0, steep), g719_weigh(1, steep) };
    CHECK(choices[0].flag == 0 && choices[1].flag == 1);
    CHECK(memcmp(legal[0].norms, legal[1].norms, 44) != 0 && memcmp(weights[0].weights, weights[1].weights, 44) != 0);
    for (unsigned value = 0; value < 256; value++) {
        unsigned is = value != 0;
        g719_choice c = g719_choose_flag_n((uint8_t)value, norms);
        CHECK(c.reply == G719_DONE && c.flag == choices[is].flag);
        g719_norms n = g719_legalise((uint8_t)value, steep);
        CHECK(n.reply == G719_DONE && memcmp(n.norms, legal[is].norms, sizeof n.norms) == 0);
        g719_weights w = g719_weigh((uint8_t)value, steep);
        CHECK(w.reply == G719_DONE && memcmp(w.weights, weights[is].weights, sizeof w.weights) == 0);
        CHECK(memcmp(w.scores, weights[is].scores, sizeof w.scores) == 0);
    }
}

/* Every pair of transient and wide. */
static void allot_arguments(void)
{
    g719_record r = near_norms(0, 0);
    g719_shares shares[2][2];
    for (unsigned t = 0; t < 2; t++)
        for (unsigned w = 0; w < 2; w++)
            shares[t][w] = g719_allot((uint8_t)t, (uint8_t)w, r.norms, 2000);
    CHECK(memcmp(shares[0][0].rates, shares[0][1].rates, 44) != 0 && memcmp(shares[1][0].rates, shares[1][1].rates, 44) != 0);
    CHECK(memcmp(shares[0][0].rates, shares[1][0].rates, 44) != 0 && memcmp(shares[0][1].rates, shares[1][1].rates, 44) != 0);
    for (unsigned t = 0; t < 256; t++)
        for (unsigned w = 0; w < 256; w++) {
            g719_shares s = g719_allot((uint8_t)t, (uint8_t)w, r.norms, 2000);
            const g719_shares *as = &shares[t != 0][w != 0];
            CHECK(s.reply == G719_DONE && memcmp(s.rates, as->rates, sizeof s.rates) == 0);
            CHECK(s.left == as->left && s.rounds == as->rounds);
        }
}

/* ---- recordings */

static bool checked(const uint8_t *src, size_t count, uint32_t booking, uint8_t reply, uint32_t frames, size_t place)
{
    g719_check c = g719_check_file(src, count, booking);
    return c.reply == reply && c.count == frames && c.place == place;
}

static void recordings(void)
{
    static const uint8_t zeros[G719_MOST_FRAMES + 1];
    static const uint8_t cut[2] = { 0x00, 0x20 };
    CHECK(checked(cut, 2, 1, G719_CUT, 1, 1));
    CHECK(checked(NULL, 0, 0, G719_DONE, 0, 0));
    CHECK(checked(NULL, 0, 1, G719_NOT_AS_BOOKED, 0, 0));
    CHECK(checked(zeros, 3000, 3000, G719_DONE, 3000, 3000));
    CHECK(checked(zeros, 3000, UINT32_MAX, G719_NOT_AS_BOOKED, 3000, 3000));
    CHECK(checked(zeros, 3001, 3000, G719_TOO_MANY, 3000, 3000));
    uint8_t file[1000];
    size_t at = 0;
    uint16_t codes[G719_CODES];
    uint8_t tail[G719_TAIL_BYTES];
    for (uint8_t mode = 0; mode < 6; mode++) {
        g719_record r = draw_record(mode, codes, tail);
        at += g719_write(r, codes, G719_CODES, tail, G719_TAIL_BYTES, file + at, sizeof file - at).next;
        at += g719_write_empty(file + at, sizeof file - at).next;
    }
    CHECK(at == 642 && checked(file, at, 12, G719_DONE, 12, 642));
    CHECK(checked(file, 641, 12, G719_NOT_AS_BOOKED, 11, 641));
    CHECK(checked(file, 640, 12, G719_CUT, 10, 510));
    file[82] = 0x80;
    CHECK(checked(file, at, 12, G719_MARKED, 2, 82));
}

/* ---- several channels */

enum { MOST = G719_MOST_CHANNELS };

/* Room for a block, larger than needed. */
typedef struct block_room {
    uint16_t codes[MOST * G719_CODES + EXCESS];
    uint8_t tails[MOST * G719_TAIL_BYTES + EXCESS];
    uint8_t out[MOST * G719_FRAME_BYTES + EXCESS];
} block_room;

/* A block in parts, with junk where nothing may be looked at. */
typedef struct parted {
    g719_records records;
    uint16_t codes[MOST * G719_CODES];
    uint8_t tails[MOST * G719_TAIL_BYTES];
} parted;

static void draw_bytes(void *at, size_t count)
{
    uint8_t *b = at;
    for (size_t i = 0; i < count; i++)
        b[i] = (uint8_t)drawn(256);
}

/* Draws the parts of a block; each frame is empty once in three times, by any number but 0. */
static void draw_parts(parted *p, uint8_t channels)
{
    draw_bytes(p, sizeof *p);
    for (uint8_t c = 0; c < channels; c++) {
        p->records.empty[c] = drawn(3) == 0 ? (uint8_t)(1 + drawn(255)) : 0;
        if (!p->records.empty[c])
            p->records.at[c] = draw_record((uint8_t)drawn(20), p->codes + c * G719_CODES, p->tails + c * G719_TAIL_BYTES);
    }
}

/* The frames of a block, each written by its own call; how many bytes they have. */
static size_t frame_by_frame(const parted *p, uint8_t channels, uint8_t *out)
{
    size_t at = 0;
    for (uint8_t c = 0; c < channels; c++) {
        g719_writing w = p->records.empty[c]
            ? g719_write_empty(out + at, 1)
            : g719_write(p->records.at[c], p->codes + c * G719_CODES, G719_CODES, p->tails + c * G719_TAIL_BYTES, G719_TAIL_BYTES,
                         out + at, G719_FRAME_BYTES);
        CHECK(w.reply == G719_DONE);
        at += w.next;
    }
    return at;
}

static bool no_frame(const g719_reading *r)
{
    return r->reply == 0 && r->next == 0 && no_record(&r->record);
}

/* Sees that a frame of a block is what reading it alone gives, in its own part of the rooms; an empty one leaves its part alone. */
static void frame_as_alone(const g719_reading *frame, const uint8_t *src, size_t bytes, const uint16_t *codes, const uint8_t *tail)
{
    room got = marked_room();
    g719_reading alone = g719_read(src, bytes, got.codes, G719_CODES, got.tail, G719_TAIL_BYTES);
    CHECK(frame->reply == alone.reply && frame->next == alone.next && same_record(&frame->record, &alone.record));
    CHECK(memcmp(codes, got.codes, 2 * G719_CODES) == 0 && memcmp(tail, got.tail, G719_TAIL_BYTES) == 0);
}

/* Reads a block that must be sound, R set or not, and sees that its frames, rooms and excess are as they should be. */
static void block_read_as(const uint8_t *src, size_t bytes, uint8_t channels)
{
    static block_room got;
    memset(&got, KEPT, sizeof got);
    g719_block b = g719_read_block(src, bytes, channels, got.codes, MOST * G719_CODES + EXCESS, got.tails,
                                   MOST * G719_TAIL_BYTES + EXCESS);
    CHECK(b.reply == G719_DONE && b.next == bytes);
    size_t at = 0;
    for (uint8_t c = 0; c < MOST; c++) {
        if (c < channels)
            frame_as_alone(&b.frames[c], src + at, bytes - at, got.codes + c * G719_CODES, got.tails + c * G719_TAIL_BYTES);
        else
            CHECK(no_frame(&b.frames[c]));
        at += b.frames[c].next;
    }
    CHECK(at == bytes);
    size_t codes = (size_t)channels * G719_CODES, tails = (size_t)channels * G719_TAIL_BYTES;
    CHECK(all_bytes(got.codes + codes, sizeof got.codes - 2 * codes, KEPT));
    CHECK(all_bytes(got.tails + tails, sizeof got.tails - tails, KEPT) && all_bytes(got.out, sizeof got.out, KEPT));
}

static bool blocks_checked(const uint8_t *src, size_t count, uint8_t channels, uint32_t booking, uint8_t reply, uint32_t blocks,
                           size_t place)
{
    g719_check c = g719_check_blocks(src, count, channels, booking);
    return c.reply == reply && c.count == blocks && c.place == place;
}

static void drawn_blocks(void)
{
    static parted p;
    static block_room made;
    static uint8_t alone[MOST * G719_FRAME_BYTES + G719_FRAME_BYTES];
    for (int turn = 0; turn < 40; turn++) {
        uint8_t channels = (uint8_t)(1 + turn % MOST);
        draw_parts(&p, channels);
        size_t bytes = frame_by_frame(&p, channels, alone);
        memset(&made, KEPT, sizeof made);
        g719_writing w = g719_write_block(p.records, channels, p.codes, MOST * G719_CODES, p.tails, MOST * G719_TAIL_BYTES, made.out,
                                          sizeof made.out);
        CHECK(w.reply == G719_DONE && w.next == bytes && memcmp(made.out, alone, bytes) == 0);
        CHECK(all_bytes(made.out + bytes, sizeof made.out - bytes, KEPT));
        made.out[0] |= 3;
        block_read_as(made.out, bytes, channels);
        CHECK(blocks_checked(made.out, bytes, channels, 1, G719_DONE, 1, bytes));
        CHECK(blocks_checked(made.out, bytes, channels, 2, G719_NOT_AS_BOOKED, 1, bytes));
        CHECK(blocks_checked(made.out, bytes - 1, channels, 1, bytes == 1 ? G719_NOT_AS_BOOKED : G719_CUT, 0, 0));
    }
}

/* A frame of 80 bytes that is read with this reply: 0, 5, 6 or 7 (refused_frames, refused_words). */
static void frame_with(uint8_t reply, uint8_t frame[81])
{
    static const uint16_t codes[G719_CODES];
    static const uint8_t tail[G719_TAIL_BYTES];
    g719_record r = five_bits();
    r.tail_bits = g719_layout(r, codes, G719_CODES).tail_bits;
    CHECK(g719_write(r, codes, G719_CODES, tail, G719_TAIL_BYTES, frame, 81).reply == G719_DONE);
    if (reply == G719_NORM_OUTSIDE) {
        frame[1] = 0x0F;
        memset(frame + 2, 0xFF, 79);
    }
    if (reply == G719_NO_WORD)
        frame[29] = 0xFC;
    if (reply == G719_PAST_BUDGET)
        memset(frame + 29, 0xFF, 52);
}

/* Sees that a block is refused, that nothing else is told and that nothing lent is changed. */
static void block_refused(uint8_t reply, const uint8_t *src, size_t count, uint8_t channels, size_t codes, size_t tails)
{
    static block_room got;
    memset(&got, KEPT, sizeof got);
    g719_block b = g719_read_block(src, count, channels, got.codes, codes, got.tails, tails);
    CHECK(b.reply == reply && b.next == 0 && all_bytes(&got, sizeof got, KEPT));
    for (int c = 0; c < MOST; c++)
        CHECK(no_frame(&b.frames[c]));
}

static void refused_blocks(void)
{
    static const uint8_t heads[6] = { 0x00, 0x80, 0x04, 0x20, 0x03, 0x00 };
    for (unsigned channels = 0; channels < 256; channels++)
        if (channels < 1 || channels > MOST)
            block_refused(G719_WRONG_CHANNELS, NULL, 0, (uint8_t)channels, 0, 0);
    block_refused(G719_SHORT_ROOM, NULL, 0, 2, 1599, 640);
    block_refused(G719_SHORT_ROOM, NULL, 0, 2, 1600, 639);
    CHECK(g719_read_block(NULL, 0, 2, NULL, 0, NULL, 0).reply == G719_SHORT_ROOM);
    block_refused(G719_NO_BYTE, NULL, 0, 2, 1600, 640);
    block_refused(G719_CUT, heads, 1, 2, 1600, 640);
    block_refused(G719_MARKED, heads, 2, 2, 1600, 640);
    block_refused(G719_MARKED, heads + 1, 5, 2, 1600, 640);
    block_refused(G719_RESERVED, heads + 2, 4, 2, 1600, 640);
    block_refused(G719_CUT, heads + 3, 3, 2, 1600, 640);
    block_refused(G719_CUT, heads + 4, 2, 3, 2400, 960);
    CHECK(g719_read_block(heads + 4, 2, 2, (uint16_t[1600]) { 0 }, 1600, (uint8_t[640]) { 0 }, 640).reply == G719_DONE);
    static const uint8_t replies[3] = { G719_NORM_OUTSIDE, G719_NO_WORD, G719_PAST_BUDGET };
    uint8_t block[163];
    for (int i = 0; i < 3; i++) {
        frame_with(G719_DONE, block);
        frame_with(replies[i], block + 81);
        block_refused(replies[i], block, 162, 2, 1600, 640);
    }
    frame_with(G719_DONE, block + 81);
    block[162] = 0x00;
    block_read_as(block, 163, 3);
    for (size_t cut = 1; cut < 163; cut++)
        block_refused(G719_CUT, block, cut, 3, 2400, 960);
}

/* Sees that a block is not written and that nothing lent is changed. */
static void block_unwritten(uint8_t reply, const parted *p, uint8_t channels, size_t codes, size_t tails, size_t out)
{
    static block_room made;
    memset(&made, KEPT, sizeof made);
    g719_writing w = g719_write_block(p->records, channels, p->codes, codes, p->tails, tails, made.out, out);
    CHECK(w.reply == reply && w.next == 0 && all_bytes(&made, sizeof made, KEPT));
}

/* Two frames of 01's example; what is wrong with the second comes last, but for the output's room. */
static void unwritten_blocks(void)
{
    static parted p;
    memset(&p, 0, sizeof p);
    p.records.at[0] = p.records.at[1] = example(0);
    block_unwritten(G719_WRONG_CHANNELS, &p, 0, 0, 0, 0);
    block_unwritten(G719_WRONG_CHANNELS, &p, 9, MOST * G719_CODES, MOST * G719_TAIL_BYTES, 200);
    block_unwritten(G719_SHORT_ROOM, &p, 2, 1599, 640, 162);
    block_unwritten(G719_SHORT_ROOM, &p, 2, 1600, 639, 162);
    block_unwritten(G719_SHORT_ROOM, &p, 2, 1600, 640, 161);
    p.records.at[1].tail_bits = 5;
    block_unwritten(G719_WRONG_TAIL, &p, 2, 1600, 640, 0);
    p.records.at[1].flag_c = 1;
    for (int i = 0; i < 8; i++)
        p.codes[800 + i] = 2;
    block_unwritten(G719_PAST_BUDGET, &p, 2, 1600, 640, 0);
    p.codes[1599] = 1;
    block_unwritten(G719_WIDE_CODE, &p, 2, 1600, 640, 0);
    p.records.at[1].norms[43] = 37;
    block_unwritten(G719_FAR_APART, &p, 2, 1600, 640, 0);
    p.records.at[1].noise = 4;
    block_unwritten(G719_OUT_OF_RANGE, &p, 2, 1600, 640, 0);
    p.records.at[1].mode = 20;
    p.records.at[0].tail_bits = 7;
    block_unwritten(G719_WRONG_TAIL, &p, 2, 1600, 640, 0);
    p.records.at[0].tail_bits = 6;
    block_unwritten(G719_OUT_OF_RANGE, &p, 2, 1600, 640, 0);
    CHECK(g719_write_block(p.records, 1, NULL, 0, NULL, 0, NULL, 0).reply == G719_SHORT_ROOM);
    CHECK(g719_write_block(p.records, 1, p.codes, 800, p.tails, 320, NULL, 0).reply == G719_SHORT_ROOM);
}

/* The second frame is empty by every number but 0; then nothing of it is looked at but its part of the rooms. */
static void empty_values(void)
{
    static parted p;
    static block_room made;
    draw_bytes(&p, sizeof p);
    p.records.at[0] = example(0);
    p.records.empty[0] = 0;
    memset(p.codes, 0, 2 * G719_CODES);
    memset(p.tails, 0, G719_TAIL_BYTES);
    p.records.at[1].mode = 20;
    for (unsigned value = 0; value < 256; value++) {
        p.records.empty[1] = (uint8_t)value;
        if (value == 0) {
            block_unwritten(G719_OUT_OF_RANGE, &p, 2, 1600, 640, 82);
            continue;
        }
        memset(&made, KEPT, sizeof made);
        g719_writing w = g719_write_block(p.records, 2, p.codes, 1600, p.tails, 640, made.out, 82);
        CHECK(w.reply == G719_DONE && w.next == 82 && made.out[0] == 0x20 && made.out[81] == 0x00);
        CHECK(all_bytes(made.out + 82, sizeof made.out - 82, KEPT));
        block_unwritten(G719_SHORT_ROOM, &p, 2, 1600, 640, 81);
        block_unwritten(G719_SHORT_ROOM, &p, 2, 1599, 640, 82);
    }
    p.records.empty[0] = 1;
    block_unwritten(G719_SHORT_ROOM, &p, 2, 1599, 640, 2);
    block_unwritten(G719_SHORT_ROOM, &p, 2, 1600, 639, 2);
    block_unwritten(G719_SHORT_ROOM, &p, 2, 1600, 640, 1);
}

static void checked_blocks(void)
{
    static uint8_t zeros[MOST * G719_MOST_FRAMES + 1];
    for (uint8_t channels = 1; channels <= MOST; channels++) {
        size_t most = (size_t)G719_MOST_FRAMES * channels;
        CHECK(blocks_checked(zeros, most, channels, 3000, G719_DONE, 3000, most));
        CHECK(blocks_checked(zeros, most, channels, 2999, G719_NOT_AS_BOOKED, 3000, most));
        CHECK(blocks_checked(zeros, most + 1, channels, 3000, G719_TOO_MANY, 3000, most));
        CHECK(blocks_checked(zeros, most - 1, channels, 2999, channels == 1 ? G719_DONE : G719_CUT, 2999, most - channels));
        CHECK(blocks_checked(NULL, 0, channels, 0, G719_DONE, 0, 0));
    }
    CHECK(blocks_checked(zeros, 4, 0, 4, G719_WRONG_CHANNELS, 0, 0) && blocks_checked(zeros, 9, 9, 1, G719_WRONG_CHANNELS, 0, 0));
    static const uint8_t replies[3] = { G719_NORM_OUTSIDE, G719_NO_WORD, G719_PAST_BUDGET };
    static const uint8_t heads[3] = { 0x80, 0x04, 0x20 };
    uint8_t file[164] = { 0x00, 0x01 };
    frame_with(G719_DONE, file + 2);
    for (int i = 0; i < 3; i++) {
        frame_with(replies[i], file + 83);
        CHECK(blocks_checked(file, 164, 2, 2, replies[i], 1, 2));
    }
    frame_with(G719_DONE, file + 83);
    CHECK(blocks_checked(file, 164, 2, 2, G719_DONE, 2, 164) && blocks_checked(file, 83, 2, 2, G719_CUT, 1, 2));
    for (int i = 0; i < 3; i++) {
        file[83] = heads[i];
        CHECK(blocks_checked(file, 84, 2, 2, (uint8_t)(G719_MARKED + i), 1, 2));
    }
}

static bool same_copied(g719_copied c, uint8_t reply, uint8_t which, uint32_t count, size_t place, size_t length)
{
    return c.reply == reply && c.which == which && c.count == count && c.place == place && c.length == length;
}

/* Sees that a channel is not taken out and that nothing lent is changed. */
static void not_taken(uint8_t reply, uint32_t count, size_t place, const uint8_t *src, size_t bytes, uint8_t channels, uint8_t channel,
                      size_t room)
{
    uint8_t out[EXCESS];
    memset(out, KEPT, sizeof out);
    CHECK(same_copied(g719_extract(src, bytes, channels, channel, out, room), reply, 0, count, place, 0));
    CHECK(all_bytes(out, sizeof out, KEPT));
}

static void refused_extracts(void)
{
    static const uint8_t zeros[2 * G719_MOST_FRAMES + 1];
    static const uint8_t replies[3] = { G719_NORM_OUTSIDE, G719_NO_WORD, G719_PAST_BUDGET };
    static const uint8_t heads[3] = { 0x80, 0x04, 0x20 };
    not_taken(G719_WRONG_CHANNELS, 0, 0, heads, 1, 0, 0, 0);
    not_taken(G719_WRONG_CHANNELS, 0, 0, heads, 1, 9, 0, 0);
    for (uint8_t channels = 1; channels <= MOST; channels++)
        not_taken(G719_WRONG_CHANNELS, 0, 0, heads, 1, channels, channels, 0);
    not_taken(G719_WRONG_CHANNELS, 0, 0, heads, 1, 2, 255, 0);
    uint8_t file[83] = { 0x00, 0x01 };
    for (int i = 0; i < 3; i++) {
        frame_with(replies[i], file + 2);
        not_taken(replies[i], 1, 2, file, 83, 2, 0, 0);
    }
    for (int i = 0; i < 3; i++) {
        file[2] = heads[i];
        not_taken((uint8_t)(G719_MARKED + i), 1, 2, file, 3, 2, 0, 0);
    }
    not_taken(G719_CUT, 1, 2, zeros, 3, 2, 0, 0);
    not_taken(G719_TOO_MANY, 3000, 6000, zeros, 6001, 2, 0, 0);
    not_taken(G719_SHORT_ROOM, 0, 0, zeros, 6, 2, 1, 2);
    uint8_t out[4] = { KEPT, KEPT, KEPT, KEPT };
    CHECK(same_copied(g719_extract(zeros, 6, 2, 1, out, 4), G719_DONE, 0, 3, 6, 3) && all_bytes(out, 3, 0) && out[3] == KEPT);
    CHECK(same_copied(g719_extract(NULL, 0, 8, 7, NULL, 0), G719_DONE, 0, 0, 0, 0));
}

/* Sees that recordings are not joined and that nothing lent is changed. */
static void not_joined(g719_copied as, const uint8_t *src, size_t bytes, const uint32_t *lengths, size_t count, size_t room)
{
    uint8_t out[EXCESS];
    memset(out, KEPT, sizeof out);
    g719_copied c = g719_join(src, bytes, lengths, count, out, room);
    CHECK(same_copied(c, as.reply, as.which, as.count, as.place, 0) && all_bytes(out, sizeof out, KEPT));
}

static g719_copied refusal(uint8_t reply, uint8_t which, uint32_t count, size_t place)
{
    g719_copied c = { reply, which, count, place, 0 };
    return c;
}

/* Two recordings; what is wrong with the second is told from its own start. */
static void refused_joins(void)
{
    static const uint8_t zeros[G719_MOST_FRAMES + 2];
    static const uint8_t replies[3] = { G719_NORM_OUTSIDE, G719_NO_WORD, G719_PAST_BUDGET };
    static const uint8_t heads[3] = { 0x80, 0x04, 0x20 };
    static const uint32_t nine[9] = { 1, 1, 1, 1, 1, 1, 1, 1, 1 };
    const uint32_t long_one[2] = { 2, 82 }, short_one[2] = { 2, 2 }, unequal[3] = { 1, 2, 1 };
    not_joined(refusal(G719_WRONG_CHANNELS, 0, 0, 0), heads, 3, NULL, 0, 0);
    not_joined(refusal(G719_WRONG_CHANNELS, 0, 0, 0), heads, 3, nine, 9, 0);
    not_joined(refusal(G719_SHORT_ROOM, 0, 0, 0), heads, 3, short_one, 2, 0);
    not_joined(refusal(G719_SHORT_ROOM, 0, 0, 0), heads, 3, (const uint32_t[2]) { UINT32_MAX, UINT32_MAX }, 2, 0);
    uint8_t file[84] = { 0x00, 0x01, 0x02 };
    for (int i = 0; i < 3; i++) {
        frame_with(replies[i], file + 3);
        not_joined(refusal(replies[i], 2, 1, 1), file, 84, long_one, 2, 0);
        not_joined(refusal(replies[i], 1, 0, 0), file + 3, 81, (const uint32_t[2]) { 81, 0 }, 2, 0);
    }
    for (int i = 0; i < 3; i++) {
        file[3] = heads[i];
        not_joined(refusal((uint8_t)(G719_MARKED + i), 2, 1, 1), file, 4, short_one, 2, 0);
    }
    not_joined(refusal(G719_TOO_MANY, 2, 3000, 3000), zeros, sizeof zeros, (const uint32_t[2]) { 1, 3001 }, 2, 0);
    not_joined(refusal(G719_WRONG_CHANNELS, 0, 0, 0), zeros, 3, unequal, 2, 0);
    not_joined(refusal(G719_WRONG_CHANNELS, 0, 0, 0), zeros, 3, unequal + 1, 2, 0);
    not_joined(refusal(G719_SHORT_ROOM, 0, 0, 0), zeros, 4, short_one, 2, 3);
    CHECK(same_copied(g719_join(NULL, 0, (const uint32_t[8]) { 0 }, 8, NULL, 0), G719_DONE, 0, 0, 0, 0));
}

/* Draws a recording of one channel, frames of any R among them; how many bytes it has. */
static size_t draw_recording(uint8_t *out, int frames)
{
    uint16_t codes[G719_CODES];
    uint8_t tail[G719_TAIL_BYTES];
    size_t at = 0;
    for (int i = 0; i < frames; i++) {
        g719_record r = draw_record((uint8_t)drawn(20), codes, tail);
        g719_writing w = drawn(3) == 0 ? g719_write_empty(out + at, 1)
                                       : g719_write(r, codes, G719_CODES, tail, G719_TAIL_BYTES, out + at, G719_FRAME_BYTES);
        out[at] |= (uint8_t)drawn(4);
        at += w.next;
    }
    return at;
}

/* Joins one to eight recordings and takes each out again; the join is sound. What follows the recordings is not looked at. */
static void joined_and_taken(void)
{
    enum { FRAMES = 5, BYTES = MOST * FRAMES * G719_FRAME_BYTES };
    static uint8_t src[BYTES + 1], join[BYTES + EXCESS], alone[BYTES];
    for (uint8_t channels = 1; channels <= MOST; channels++) {
        uint32_t lengths[MOST];
        size_t bytes = 0;
        for (uint8_t c = 0; c < channels; bytes += lengths[c++])
            lengths[c] = (uint32_t)draw_recording(src + bytes, FRAMES);
        src[bytes] = 0x80;
        memset(join, KEPT, sizeof join);
        g719_copied all = g719_join(src, bytes + 1, lengths, channels, join, sizeof join);
        CHECK(same_copied(all, G719_DONE, 0, FRAMES, 0, bytes) && all_bytes(join + bytes, sizeof join - bytes, KEPT));
        CHECK(blocks_checked(join, bytes, channels, FRAMES, G719_DONE, FRAMES, bytes));
        size_t at = 0;
        for (uint8_t c = 0; c < channels; at += lengths[c++]) {
            memset(alone, KEPT, sizeof alone);
            g719_copied one = g719_extract(join, bytes, channels, c, alone, sizeof alone);
            CHECK(same_copied(one, G719_DONE, 0, FRAMES, bytes, lengths[c]) && memcmp(alone, src + at, lengths[c]) == 0);
            CHECK(all_bytes(alone + lengths[c], sizeof alone - lengths[c], KEPT));
        }
    }
}

int main(void)
{
    structs();
    prefix_read();
    prefix_written();
    flag_n();
    legal_norms();
    loud_peaks();
    weights();
    shares();
    rounds();
    lattice_examples();
    lattice_there_and_back();
    codebook();
    frame_example();
    flags();
    drawn_frames();
    refused_frames();
    refused_words();
    refused_records();
    layout_example();
    refused_layouts();
    empty_frames();
    flag_c();
    record_flags();
    choice_flags();
    norm_arguments();
    allot_arguments();
    recordings();
    drawn_blocks();
    refused_blocks();
    unwritten_blocks();
    empty_values();
    checked_blocks();
    refused_extracts();
    refused_joins();
    joined_and_taken();
    printf("%d\n", checks);
    return 0;
}
