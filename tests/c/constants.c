/* Ties each constant of include/g719.h to the library: at its bound a call still answers 0, one further it does not. And each reply has
 * a text of its own. tests/c/names sees that no constant is left out here. Prints how many checks passed; ends with 1 at the first that
 * does not. */
#include "g719.h"

#include <limits.h>
#include <stdbool.h>
#include <stdio.h>
#include <stdlib.h>
#include <string.h>

static int checks;

#define CHECK(is) check((is), #is, __LINE__)

static void check(bool is, const char *text, int line)
{
    if (!is) {
        printf("tests/c/constants.c:%d: not so: %s\n", line, text);
        exit(1);
    }
    checks++;
}

enum { KEPT = 0xA5 };

static uint16_t codes[G719_CODES + 1];
static uint8_t tail[G719_TAIL_BYTES + 1];
static uint8_t out[G719_FRAME_BYTES + 1];

/* A stationary frame of the mode, all indices 20, all codes 0; written with 0 if the tail count is not changed. */
static g719_record plain(uint8_t mode)
{
    g719_record r;
    memset(&r, 0, sizeof r);
    r.mode = mode;
    memset(r.norms, 20, sizeof r.norms);
    memset(codes, 0, sizeof codes);
    memset(tail, 0, sizeof tail);
    g719_parts p = g719_layout(r, codes, G719_CODES);
    CHECK(p.reply == G719_DONE);
    r.tail_bits = p.tail_bits;
    return r;
}

static uint8_t write_reply(g719_record r)
{
    return g719_write(r, codes, G719_CODES, tail, G719_TAIL_BYTES, out, G719_FRAME_BYTES).reply;
}

/* ---- version */

#if G719_VERSION_MAJOR < 0 || G719_VERSION_MINOR < 0 || G719_VERSION_PATCH < 0
#error "the version's numbers are not for #if"
#endif

static void version(void)
{
    char text[40];
    snprintf(text, sizeof text, "%d.%d.%d", G719_VERSION_MAJOR, G719_VERSION_MINOR, G719_VERSION_PATCH);
    CHECK(strcmp(text, G719_VERSION) == 0);
    CHECK(sizeof "g719 " G719_VERSION == sizeof "g719 " + strlen(text));
}

/* ---- modes and sizes */

static void modes(void)
{
    for (unsigned mode = 0; mode < 256; mode++) {
        g719_byte b = g719_write_prefix((uint8_t)mode);
        CHECK(b.reply == (mode <= G719_MOST_MODE ? G719_DONE : G719_OUT_OF_RANGE));
        g719_prefix p = g719_read_prefix(&b.byte, 1);
        CHECK(p.reply == (mode <= G719_MOST_MODE ? G719_DONE : G719_NO_DATA) && p.bytes == G719_BODY_BYTES(mode));
        g719_record r = plain(mode <= G719_MOST_MODE ? (uint8_t)mode : 0);
        r.mode = (uint8_t)mode;
        CHECK(write_reply(r) == (mode <= G719_MOST_MODE ? G719_DONE : G719_OUT_OF_RANGE));
    }
}

/* A number of any type; a constant where a constant must stand. */
static void body_bytes(void)
{
    static uint8_t frame[1 + G719_BODY_BYTES(3)];
    enum { LARGEST = G719_BODY_BYTES(G719_MOST_MODE), NONE = G719_BODY_BYTES(G719_MOST_MODE + 1) };
    g719_record r = plain(3);
    g719_writing w = g719_write(r, codes, G719_CODES, tail, G719_TAIL_BYTES, frame, sizeof frame);
    CHECK(w.reply == G719_DONE && w.next == sizeof frame);
    CHECK(LARGEST == 320 && NONE == 0 && sizeof G719_BODY_BYTES(0) == sizeof(size_t));
    uint8_t byte = 14;
    signed char small = -1;
    long long wide = (1LL << 32) + 3;
    CHECK(G719_BODY_BYTES(byte) == 220 && G719_BODY_BYTES(byte + 1) == 240 && G719_BODY_BYTES(small) == 0 && G719_BODY_BYTES(wide) == 0);
    CHECK(G719_BODY_BYTES(0) == 80 && G719_BODY_BYTES(-1) == 0 && G719_BODY_BYTES(256) == 0 && G719_BODY_BYTES(1 ? 2 : 3) == 100);
    CHECK(G719_BODY_BYTES(INT_MIN) == 0 && G719_BODY_BYTES(LLONG_MIN) == 0 && G719_BODY_BYTES(ULLONG_MAX) == 0);
}

/* The largest frame fills the room to its last byte, and less is not enough. */
static void frame_bytes(void)
{
    g719_record r = plain(G719_MOST_MODE);
    memset(out, KEPT, sizeof out);
    g719_writing w = g719_write(r, codes, G719_CODES, tail, G719_TAIL_BYTES, out, G719_FRAME_BYTES - 1);
    CHECK(w.reply == G719_SHORT_ROOM && out[0] == KEPT);
    w = g719_write(r, codes, G719_CODES, tail, G719_TAIL_BYTES, out, G719_FRAME_BYTES);
    CHECK(w.reply == G719_DONE && w.next == G719_FRAME_BYTES && w.next == 1 + G719_BODY_BYTES(G719_MOST_MODE));
    CHECK(out[G719_FRAME_BYTES - 1] != KEPT && out[G719_FRAME_BYTES] == KEPT);
}

/* Codes and tail: one less is refused, as many are filled, the next stays as it was. */
static void codes_and_tail(void)
{
    g719_record r = plain(0);
    CHECK(write_reply(r) == G719_DONE);
    CHECK(g719_write(r, codes, G719_CODES - 1, tail, G719_TAIL_BYTES, out, G719_FRAME_BYTES).reply == G719_SHORT_ROOM);
    CHECK(g719_write(r, codes, G719_CODES, tail, G719_TAIL_BYTES - 1, out, G719_FRAME_BYTES).reply == G719_SHORT_ROOM);
    CHECK(g719_layout(r, codes, G719_CODES - 1).reply == G719_SHORT_ROOM);
    memset(codes, KEPT, sizeof codes);
    memset(tail, KEPT, sizeof tail);
    CHECK(g719_read(out, 81, codes, G719_CODES - 1, tail, G719_TAIL_BYTES).reply == G719_SHORT_ROOM);
    CHECK(g719_read(out, 81, codes, G719_CODES, tail, G719_TAIL_BYTES - 1).reply == G719_SHORT_ROOM);
    CHECK(codes[0] != 0 && tail[0] != 0);
    CHECK(g719_read(out, 81, codes, G719_CODES, tail, G719_TAIL_BYTES).reply == G719_DONE);
    CHECK(codes[G719_CODES - 1] == 0 && codes[G719_CODES] != 0 && tail[G719_TAIL_BYTES - 1] == 0 && tail[G719_TAIL_BYTES] == KEPT);
    codes[G719_CODES - 1] = 1;
    CHECK(g719_layout(r, codes, G719_CODES).reply == G719_WIDE_CODE);
}

/* ---- norms */

/* Of the norms each is looked at, and none behind the last. */
static void norms(void)
{
    uint8_t n[G719_BANDS + 1];
    memset(n, G719_MOST_NORM, sizeof n);
    n[G719_BANDS] = 255;
    g719_weights w = g719_weigh(0, n);
    CHECK(w.reply == G719_DONE && w.scores[G719_BANDS - 1] == 16 * (34 - G719_MOST_NORM) + w.weights[G719_BANDS - 1]);
    CHECK(g719_legalise(0, n).reply == G719_DONE && g719_legalise(0, n).norms[G719_BANDS - 1] == G719_MOST_NORM);
    CHECK(g719_allot(0, 1, n, G719_MOST_BUDGET).reply == G719_DONE);
    for (int band = 0; band < G719_BANDS; band++) {
        n[band] = G719_MOST_NORM + 1;
        CHECK(g719_weigh(0, n).reply == G719_OUT_OF_RANGE && g719_legalise(0, n).reply == G719_OUT_OF_RANGE);
        CHECK(g719_allot(0, 1, n, 0).reply == G719_OUT_OF_RANGE && g719_choose_flag_n(0, n).reply == G719_OUT_OF_RANGE);
        n[band] = G719_MOST_NORM;
    }
    CHECK(sizeof((g719_record *)0)->norms == G719_BANDS && sizeof((g719_norms *)0)->norms == G719_BANDS);
    CHECK(sizeof((g719_parts *)0)->rates == G719_BANDS && sizeof((g719_shares *)0)->rates == G719_BANDS);
    CHECK(sizeof((g719_weights *)0)->weights == G719_BANDS && sizeof((g719_weights *)0)->scores == 2 * G719_BANDS);
}

/* The first norm alone has a bound of its own. */
static void first_norm(void)
{
    uint8_t n[G719_BANDS];
    memset(n, G719_MOST_FIRST_NORM + 1, sizeof n);
    n[0] = G719_MOST_FIRST_NORM;
    for (uint8_t transient = 0; transient < 2; transient++) {
        CHECK(g719_choose_flag_n(transient, n).reply == G719_DONE);
        n[0] = G719_MOST_FIRST_NORM + 1;
        CHECK(g719_choose_flag_n(transient, n).reply == G719_OUT_OF_RANGE);
        CHECK(g719_legalise(transient, n).norms[0] == G719_MOST_FIRST_NORM);
        n[0] = G719_MOST_FIRST_NORM;
    }
}

static void noise(void)
{
    g719_record r = plain(0);
    for (unsigned value = 0; value < 256; value++) {
        r.noise = (uint8_t)value;
        CHECK(write_reply(r) == (value <= G719_MOST_NOISE ? G719_DONE : G719_OUT_OF_RANGE));
    }
}

/* ---- sharing the bits, points */

/* A loud band among quiet ones comes to the largest rate and no further. The most rounds are taken where the 24 shortest
 * bands are loud, and what they leave goes to the next twelve. */
static void budget_and_rate(void)
{
    uint8_t n[G719_BANDS];
    memset(n, G719_MOST_NORM, sizeof n);
    n[0] = 0;
    g719_shares s = g719_allot(0, 1, n, G719_MOST_BUDGET);
    CHECK(s.reply == G719_DONE && s.rates[0] == G719_MOST_RATE && s.rates[G719_BANDS - 1] > 0);
    CHECK(g719_allot(0, 1, n, G719_MOST_BUDGET + 1).reply == G719_OUT_OF_RANGE);
    memset(n, 0, 24);
    memset(n + 24, 14, 12);
    CHECK(g719_allot(0, 1, n, G719_MOST_BUDGET).rounds == G719_MOST_ROUNDS);
    CHECK(8 * G719_BODY_BYTES(G719_MOST_MODE) == G719_MOST_BUDGET);
    static const uint16_t zeros[G719_POINT_PLACES];
    static const int16_t origin[G719_POINT_PLACES];
    for (unsigned rate = 0; rate < 256; rate++) {
        uint8_t reply = rate >= 2 && rate <= G719_MOST_RATE ? G719_DONE : G719_OUT_OF_RANGE;
        CHECK(g719_lattice_point((uint8_t)rate, zeros).reply == reply && g719_lattice_index((uint8_t)rate, origin).reply == reply);
    }
}

/* Of the places each is looked at, and none behind the last. */
static void point_places(void)
{
    uint16_t index[G719_POINT_PLACES + 1] = { 0 };
    index[G719_POINT_PLACES] = 65535;
    CHECK(g719_lattice_point(2, index).reply == G719_DONE);
    for (int place = 0; place < G719_POINT_PLACES; place++) {
        index[place] = 4;
        CHECK(g719_lattice_point(2, index).reply == G719_OUT_OF_RANGE);
        index[place] = 0;
    }
    index[G719_POINT_PLACES - 1] = 3;
    g719_point p = g719_lattice_point(2, index);
    int16_t point[G719_POINT_PLACES + 1];
    memcpy(point, p.at, sizeof p.at);
    point[G719_POINT_PLACES] = 32767;
    CHECK(point[G719_POINT_PLACES - 1] == -1 && g719_lattice_index(2, point).at[G719_POINT_PLACES - 1] == 3);
    memcpy(point, g719_codebook_point(1, 255).at, sizeof p.at);
    CHECK(point[G719_POINT_PLACES - 1] == 1 && g719_codebook_index(1, point).index == 255);
    point[G719_POINT_PLACES - 1] = 3;
    CHECK(g719_codebook_index(1, point).reply == G719_OUT_OF_RANGE);
    CHECK(sizeof p.at == 2 * G719_POINT_PLACES && sizeof((g719_index *)0)->at == 2 * G719_POINT_PLACES);
}

/* ---- recordings */

static void most_frames(void)
{
    static const uint8_t zeros[G719_MOST_FRAMES + 1];
    g719_check c = g719_check_file(zeros, G719_MOST_FRAMES, G719_MOST_FRAMES);
    CHECK(c.reply == G719_DONE && c.count == G719_MOST_FRAMES);
    c = g719_check_file(zeros, G719_MOST_FRAMES + 1, G719_MOST_FRAMES + 1);
    CHECK(c.reply == G719_TOO_MANY && c.count == G719_MOST_FRAMES && c.place == G719_MOST_FRAMES);
}

/* The last channel of the most is read, written and taken out. */
static void most_channels(void)
{
    static const uint8_t zeros[G719_MOST_CHANNELS];
    static uint16_t all_codes[G719_MOST_CHANNELS * G719_CODES];
    static uint8_t all_tails[G719_MOST_CHANNELS * G719_TAIL_BYTES];
    for (unsigned channels = 0; channels < 256; channels++) {
        uint8_t reply = channels >= 1 && channels <= G719_MOST_CHANNELS ? G719_DONE : G719_WRONG_CHANNELS;
        CHECK(g719_check_blocks(NULL, 0, (uint8_t)channels, 0).reply == reply);
    }
    CHECK(g719_check_blocks(zeros, G719_MOST_CHANNELS, G719_MOST_CHANNELS, 1).reply == G719_DONE);
    uint8_t one;
    CHECK(g719_extract(zeros, G719_MOST_CHANNELS, G719_MOST_CHANNELS, G719_MOST_CHANNELS - 1, &one, 1).reply == G719_DONE);
    CHECK(g719_extract(zeros, G719_MOST_CHANNELS, G719_MOST_CHANNELS, G719_MOST_CHANNELS, &one, 1).reply == G719_WRONG_CHANNELS);
    g719_block b = g719_read_block(zeros, sizeof zeros, G719_MOST_CHANNELS, all_codes, G719_MOST_CHANNELS * G719_CODES, all_tails,
                                   sizeof all_tails);
    CHECK(b.reply == G719_DONE && b.next == G719_MOST_CHANNELS && b.frames[G719_MOST_CHANNELS - 1].reply == G719_NO_DATA);
    g719_records r;
    memset(&r, 1, sizeof r);
    uint8_t block[G719_MOST_CHANNELS];
    g719_writing w = g719_write_block(r, G719_MOST_CHANNELS, all_codes, G719_MOST_CHANNELS * G719_CODES, all_tails, sizeof all_tails,
                                      block, sizeof block);
    CHECK(w.reply == G719_DONE && w.next == G719_MOST_CHANNELS);
    CHECK(sizeof b.frames == G719_MOST_CHANNELS * sizeof b.frames[0] && sizeof r.empty == G719_MOST_CHANNELS);
    CHECK(sizeof r.at == G719_MOST_CHANNELS * sizeof r.at[0]);
}

/* ---- words */

static const uint8_t replies[] = {
    G719_DONE,       G719_NO_BYTE,       G719_MARKED,        G719_RESERVED,      G719_CUT,        G719_NORM_OUTSIDE,
    G719_NO_WORD,    G719_PAST_BUDGET,   G719_OUT_OF_RANGE,  G719_FAR_APART,     G719_SHORT_ROOM, G719_NOT_AS_BOOKED,
    G719_WIDE_CODE,  G719_WRONG_TAIL,    G719_NO_DATA,       G719_TOO_MANY,      G719_WRONG_CHANNELS,
};

/* Every number has a text; those of the replies differ from each other and from that of the other numbers. */
static void words(void)
{
    const size_t count = sizeof replies;
    for (unsigned number = 0; number < 256; number++) {
        const char *text = g719_reply_text((uint8_t)number);
        CHECK(text != NULL && text[0] != '\0' && text == g719_reply_text((uint8_t)number));
        bool known = memchr(replies, (int)number, count) != NULL;
        CHECK(known == (strcmp(text, "no such reply") != 0));
    }
    for (size_t i = 0; i < count; i++)
        for (size_t k = 0; k < i; k++)
            CHECK(replies[i] != replies[k] && strcmp(g719_reply_text(replies[i]), g719_reply_text(replies[k])) != 0);
}

int main(void)
{
    version();
    modes();
    body_bytes();
    frame_bytes();
    codes_and_tail();
    norms();
    first_norm();
    noise();
    budget_and_rate();
    point_places();
    most_frames();
    most_channels();
    words();
    printf("%d\n", checks);
    return 0;
}
