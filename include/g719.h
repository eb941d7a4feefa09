/*
 * Stored G.719 speech frames (JT-G719, equal to ITU-T G.719, Annex A): read, written, checked; their bits shared; lattice codes
 * mapped to points and back. Each call is proved to answer exactly what its definition says, on every input (docs/PROMISES.md);
 * only the last, g719_reply_text, is plain C.
 *
 * HOW TO USE IT
 *
 *     uint16_t codes[G719_CODES];
 *     uint8_t tail[G719_TAIL_BYTES];
 *     g719_reading r = g719_read(file + at, size - at, codes, G719_CODES, tail, G719_TAIL_BYTES);
 *     if (r.reply == G719_DONE)          use r.record, codes and tail;      at += r.next;
 *     else if (r.reply == G719_NO_DATA)  an empty frame, nothing to use;    at += r.next;
 *     else                               the frame is not sound: r.reply says why, and nothing else was changed
 *
 * Link libg719.a (x86-64 Linux). It needs memcpy and memset and nothing else. It has no state and takes no heap; it never exits,
 * waits or locks. Any number of threads may call it at once, each with its own lent memory. A call takes less than 8 KiB of stack.
 * Who drops a call's answer is warned where the compiler can warn. `make install` installs header and archive, and pkg-config then
 * knows them as g719.
 *
 * ANSWERS. Each proved call answers with a struct by value whose first field is the reply, a number from 0 to 17. With any reply
 * but 0 all other fields are 0, save with 14 the next place, in a g719_check its count and place (with 17 they are 0 too), and in a
 * g719_copied count, place and which of a recording that is not sound. Only 0 changes lent memory. If an input is wrong in several
 * ways, the reply that stands first in the call's list is given. Every value of every number has an answer.
 *
 * LENT MEMORY. A lent slice is two parameters: a pointer and how many elements (not bytes) it has. A const slice is only read. A
 * larger room than needed may be lent; what goes beyond the need is kept as it was.
 *   - The elements must be there, for reading and, if not const, for writing. With count 0 the pointer is not followed and may be
 *     NULL; with any other count it must not be.
 *   - A pointer must be aligned as C asks of its type: uint16_t to an even address, uint32_t to a multiple of 4.
 *   - A slice that is written must not overlap any other slice of the same call. Slices that are only read may overlap.
 *   - A parameter such as `const uint8_t norms[G719_BANDS]` is a pointer to that many elements, which must be there: never NULL.
 * The library keeps no pointer after the call.
 *
 * FLAGS are numbers. One that comes in, as an argument or in a struct, is true unless it is 0; one that goes out is 0 or 1.
 *
 * RANGES. A mode is 0 to 19 and names a body of 80 to 320 bytes (Table 22). The field L of a prefix byte is another number for the
 * same size: mode = L - 8. A norm index is 0 to 39, smaller is louder; norms stand in band order, lowest band first. Codes are 800
 * numbers, one for each coefficient, in band order: bands 0 to 15 have 8 places each, 16 to 23 16, 24 to 35 24 and 36 to 43 32. By
 * the band's rate: 0 nothing, 1 one index of 8 bits in the first of each eight places, 2 to 9 a number of that many bits in each
 * place; unused places are 0. The tail is 320 bytes, its bits from the top of the first byte on, the rest 0. Places and next places
 * count bytes from the start of the slice lent.
 */
#ifndef G719_H
#define G719_H

#include <stddef.h>
#include <stdint.h>

/* The version: three numbers, for #if too, and as a text, "0.3.0". While MAJOR is 0 a new MINOR may rename. */
#define G719_VERSION_MAJOR 0
#define G719_VERSION_MINOR 3
#define G719_VERSION_PATCH 0
#define G719_VERSION G719_DOTTED_(G719_VERSION_MAJOR, G719_VERSION_MINOR, G719_VERSION_PATCH)
/* These two serve G719_VERSION alone. */
#define G719_DOTTED_(major, minor, patch) G719_QUOTED_(major, minor, patch)
#define G719_QUOTED_(major, minor, patch) #major "." #minor "." #patch

/* Before each call, and undefined again below: who drops the answer is warned. */
#if (defined(__cplusplus) && __cplusplus >= 201703L) || (defined(__STDC_VERSION__) && __STDC_VERSION__ >= 202311L)
#define G719_MUST_USE [[nodiscard]]
#elif defined(__GNUC__)
#define G719_MUST_USE __attribute__((warn_unused_result))
#else
#define G719_MUST_USE
#endif

#ifdef __cplusplus
extern "C" {
#endif

enum {
    G719_BANDS = 44,           /* norms, weights, scores, rates */
    G719_CODES = 800,          /* numbers of 16 bits that a frame's codes take */
    G719_TAIL_BYTES = 320,     /* bytes that a frame's tail takes */
    G719_FRAME_BYTES = 321,    /* bytes of the largest stored frame, prefix byte and body */
    G719_POINT_PLACES = 8,     /* places of a point and of a lattice index */
    G719_MOST_MODE = 19,       /* the largest mode */
    G719_MOST_NORM = 39,       /* the largest norm index */
    G719_MOST_FIRST_NORM = 31, /* the largest index of band 0 that a frame carries */
    G719_MOST_NOISE = 3,       /* the largest noise number; in a transient frame it is 0 */
    G719_MOST_RATE = 9,        /* the largest rate */
    G719_MOST_BUDGET = 2560,   /* the largest budget, in bits */
    G719_MOST_ROUNDS = 257,    /* the most rounds that the sharing of a budget takes */
    G719_MOST_FRAMES = 3000,   /* the most sound frames of a recording, or blocks of one with several channels */
    G719_MOST_CHANNELS = 8     /* the most channels of a recording */
};

/* Body bytes of a mode, as a size_t: 80 to 320 (Table 22), and 0 for any other whole number. A constant expression if mode is one,
 * as in `uint8_t frame[1 + G719_BODY_BYTES(3)]`. What stands for mode may be evaluated several times. */
#define G719_BODY_BYTES(mode)                                      \
    ((unsigned long long)(mode) > G719_MOST_MODE ? (size_t)0       \
     : (size_t)(mode) < 15 ? 80 + 10 * (size_t)(mode)              \
                           : 240 + 20 * ((size_t)(mode) - 15))

/* The replies: each given exactly when ... */
enum {
    G719_DONE = 0,           /* done */
    G719_NO_BYTE = 1,        /* no byte to read */
    G719_MARKED = 2,         /* F is 1 */
    G719_RESERVED = 3,       /* L is reserved */
    G719_CUT = 4,            /* fewer body bytes than L says */
    G719_NORM_OUTSIDE = 5,   /* read: a norm index outside 0 to 39 */
    G719_NO_WORD = 6,        /* read: the word 1111110 in the 5-bit column */
    G719_PAST_BUDGET = 7,    /* codes go past the budget */
    G719_OUT_OF_RANGE = 8,   /* to write or compute: a number out of its range, or a point that no index of the rate names */
    G719_FAR_APART = 9,      /* to write: a norm difference outside -15 to 16, in the order sent */
    G719_SHORT_ROOM = 10,    /* lent room short: 800 numbers, 320 bytes, frame + 1 bytes, for a block as much for each channel */
    G719_NOT_AS_BOOKED = 11, /* the file ended soundly, its count is not as booked */
    G719_WIDE_CODE = 12,     /* in a record, a code too wide for its rate or an unused place not 0 */
    G719_WRONG_TAIL = 13,    /* in a record, tail count or padding wrong */
    G719_NO_DATA = 14,       /* L is 0: no data, no body */
    G719_TOO_MANY = 15,      /* a byte is left after 3,000 sound frames or blocks */
    G719_WRONG_CHANNELS = 17 /* a channel count outside 1 to 8, a channel not among them, or unequal frame counts */
};

/* ---- Prefix byte */

typedef struct g719_prefix {
    uint8_t reply;
    uint8_t length; /* the field L, 8 to 27 */
    uint16_t bytes; /* body bytes that follow, 80 to 320 */
    uint8_t next;   /* 1, where the body begins; with 14 where the next frame does */
} g719_prefix;

typedef struct g719_byte {
    uint8_t reply;
    uint8_t byte;
} g719_byte;

/* What the first byte says; the other bytes are not looked at. Replies: 1, 2, 3, 14, 0. */
G719_MUST_USE g719_prefix g719_read_prefix(const uint8_t *src, size_t src_count);

/* The prefix byte of a mode. Replies: 8 for a mode over 19, 0. */
G719_MUST_USE g719_byte g719_write_prefix(uint8_t mode);

/* ---- Frames */

/* A frame, beside its 800 codes and 320 tail bytes. */
typedef struct g719_record {
    uint8_t mode;              /* 0 to 19 */
    uint8_t transient;         /* flag: IsTransient */
    uint8_t flag_l;            /* flag: at 80 bytes, bands 36 to 43 compete for bits */
    uint8_t flag_n;            /* flag: norm differences are sent as words of Table 16 */
    uint8_t flag_c;            /* flag: codes at rates 2 to 5 are sent as words of Table 20 */
    uint8_t norms[G719_BANDS]; /* in band order */
    uint8_t noise;             /* 0 to 3; 0 in a transient frame */
    uint16_t tail_bits;
} g719_record;

typedef struct g719_reading {
    uint8_t reply;
    size_t next; /* where the next frame begins: body bytes + 1; 1 with 14 */
    g719_record record;
} g719_reading;

typedef struct g719_writing {
    uint8_t reply;
    size_t next; /* bytes written */
} g719_writing;

typedef struct g719_parts {
    uint8_t reply;
    uint16_t budget;           /* bits for codes and tail: code_bits + tail_bits */
    uint8_t rates[G719_BANDS]; /* 0 to 9: how the codes of each band are held (RANGES) */
    uint16_t code_bits;        /* that the codes take, as flag_c says they are sent */
    uint16_t tail_bits;        /* that are left for the tail */
} g719_parts;

/* Reads the stored frame at the start of src; what follows it is not looked at. With 0 the first 800 codes and the first 320 tail
 * bytes are filled. Replies: 10, 1, 2, 3, 14, 4, 5, then 6 or 7, whichever is met first in reading, 0. */
G719_MUST_USE g719_reading g719_read(const uint8_t *src, size_t src_count, uint16_t *codes, size_t codes_count, uint8_t *tail,
                                     size_t tail_count);

/* Writes a record as a stored frame; with 0 the first body bytes + 1 bytes of out are filled. What was read with 0 is written with
 * 0, to the same bytes with R 0, and what was written with 0 is read with 0, to the same record, its flags as 0 or 1. Of codes and
 * tail the first 800 numbers and 320 bytes are looked at. Replies: 8 for the mode, 10 (800 numbers, 320 bytes, body bytes + 1), 8 for
 * noise, an index over 39 or a first index over 31, 9, 12, 7, 13, 0. */
G719_MUST_USE g719_writing g719_write(g719_record record, const uint16_t *codes, size_t codes_count, const uint8_t *tail,
                                      size_t tail_count, uint8_t *out, size_t out_count);

/* How the bits of a record's frame part. Who has read a frame takes its rates from here, to tell codes from unused places and to map
 * the codes to points; who is to write one takes tail_bits from here, the only count that g719_write accepts. Of codes the first 800
 * numbers are looked at; the record's noise and tail_bits are not. Replies: 8 for the mode, 10 for under 800 numbers, 8 for an index
 * over 39 or a first one over 31, 9, 12, 7, 0. */
G719_MUST_USE g719_parts g719_layout(g719_record record, const uint16_t *codes, size_t codes_count);

/* Writes an empty frame, one byte 00. Replies: 10 for no room, 0. */
G719_MUST_USE g719_writing g719_write_empty(uint8_t *out, size_t out_count);

/* ---- Choices for a writer */

typedef struct g719_choice {
    uint8_t reply;
    uint8_t flag; /* 0 or 1 */
} g719_choice;

typedef struct g719_norms {
    uint8_t reply;
    uint8_t norms[G719_BANDS];
} g719_norms;

/* FlagN: whether the 43 words of the differences are shorter than 43 fixed codes. Replies: 8 for an index over 39 or a first one
 * over 31, 9, 0. */
G719_MUST_USE g719_choice g719_choose_flag_n(uint8_t transient, const uint8_t norms[G719_BANDS]);

/* FlagC: whether words cost less than fixed codes over the bands at rates 2 to 5. Of the record noise, tail_bits and flag_c are not
 * looked at. Replies: 8 for the mode, 10 for under 800 numbers, 8 for an index over 39 or a first one over 31, 9, 12, 0. */
G719_MUST_USE g719_choice g719_choose_flag_c(g719_record record, const uint16_t *codes, size_t codes_count);

/* The greatest norms, nowhere above the given ones, that a frame of this kind can carry: none is raised, none lowered more than it
 * must be, and norms that can be carried come back as they are. Replies: 8 for an index over 39, 0. */
G719_MUST_USE g719_norms g719_legalise(uint8_t transient, const uint8_t norms[G719_BANDS]);

/* ---- Sharing the bits */

typedef struct g719_weights {
    uint8_t reply;
    uint8_t weights[G719_BANDS]; /* 0 to 64 */
    int16_t scores[G719_BANDS];  /* 16 x (34 - index) + weight */
} g719_weights;

typedef struct g719_shares {
    uint8_t reply;
    uint8_t rates[G719_BANDS]; /* 0 to 9 */
    uint16_t left;             /* bits of the budget that no band could take */
    uint16_t rounds;           /* rounds of the contest: in each a band gets a step of its rate or is put out */
} g719_shares;

/* Weights and starting scores. Replies: 8 for an index over 39, 0. */
G719_MUST_USE g719_weights g719_weigh(uint8_t transient, const uint8_t norms[G719_BANDS]);

/* Rates, bits left and rounds; wide says whether bands 36 to 43 compete. The rounds are what the rates add up to, and one for each
 * competing band that ends below rate 9: at most budget / 8 + 44. Replies: 8 for an index over 39 or a budget over 2,560, 0. */
G719_MUST_USE g719_shares g719_allot(uint8_t transient, uint8_t wide, const uint8_t norms[G719_BANDS], uint32_t budget);

/* ---- Points: the lattice at rates 2 to 9, the codebook at rate 1 */

typedef struct g719_point {
    uint8_t reply;
    int16_t at[G719_POINT_PLACES];
} g719_point;

typedef struct g719_index {
    uint8_t reply;
    uint16_t at[G719_POINT_PLACES];
} g719_index;

typedef struct g719_row {
    uint8_t reply;
    uint8_t index;
} g719_row;

/* The point that an index names. Replies: 8 for a rate outside 2 to 9 or a number of 2^rate or more, 0. */
G719_MUST_USE g719_point g719_lattice_point(uint8_t rate, const uint16_t index[G719_POINT_PLACES]);

/* The index that names a point. Replies: 8 for a rate outside 2 to 9 or a point that no index of the rate names, 0. */
G719_MUST_USE g719_index g719_lattice_index(uint8_t rate, const int16_t point[G719_POINT_PLACES]);

/* The row that an index names. Replies: 8 for a rate that is not 1 or an index over 255, 0. */
G719_MUST_USE g719_point g719_codebook_point(uint8_t rate, uint16_t index);

/* The index of a row. Replies: 8 for a rate that is not 1 or a point that is no row, 0. */
G719_MUST_USE g719_row g719_codebook_index(uint8_t rate, const int16_t point[G719_POINT_PLACES]);

/* ---- Recordings */

typedef struct g719_check {
    uint8_t reply;
    uint32_t count; /* sound frames before the stop, empty ones among them */
    size_t place;   /* of the frame that stopped the check, or the end of the file */
} g719_check;

/* Reads every frame of a recording in full and holds their count against the booking. Stops at the first frame that is not sound,
 * with its reply (2 to 7); 15 for a byte after 3,000 sound frames; at the end 11 if the count is not the booking, else 0. */
G719_MUST_USE g719_check g719_check_file(const uint8_t *src, size_t src_count, uint32_t booking);

/* ---- Several channels in one recording: for each 20 ms a block of one stored frame per channel, in order (A.4.2). The file does not
 * say how many channels it has, 1 to 8; the booking does. A channel's number counts from 0. */

typedef struct g719_block {
    uint8_t reply;
    size_t next; /* where the next block begins: the bytes of all its frames */
    g719_reading frames[G719_MOST_CHANNELS]; /* of each channel, with reply 0 or 14 and its own size as next; past the last all 0 */
} g719_block;

typedef struct g719_records {
    g719_record at[G719_MOST_CHANNELS]; /* of each channel; not looked at where the frame is empty, nor past the last channel */
    uint8_t empty[G719_MOST_CHANNELS];  /* flag: the channel's frame is an empty one */
} g719_records;

typedef struct g719_copied {
    uint8_t reply;
    uint8_t which;  /* g719_join: the recording that is not sound, counted from 1; else 0 */
    uint32_t count; /* blocks written, or what the check of a recording that is not sound counts */
    size_t place;   /* as the check gives it; from g719_join with 0 it is 0 */
    size_t length;  /* bytes written */
} g719_copied;

/* Reads the block at the start of src; what follows it is not looked at. With 0 channel c has its codes from number 800 c on and its
 * tail from byte 320 c on; where its frame is empty these parts stay as they were. Replies: 17 for a channel count outside 1 to 8, 10
 * (800 numbers and 320 bytes for each channel), 1 for no byte, the reply (2 to 7) of the first frame that is not sound, 4 where the
 * bytes end before a later channel's frame, 0. */
G719_MUST_USE g719_block g719_read_block(const uint8_t *src, size_t src_count, uint8_t channels, uint16_t *codes,
                                         size_t codes_count, uint8_t *tails, size_t tails_count);

/* Writes a block, codes and tails standing as in g719_read_block; with 0 the first next bytes of out are filled. What was read with 0
 * is written with 0, to the same bytes with R 0, and what was written with 0 is read with 0, to the same records. Replies: 17 for a
 * channel count outside 1 to 8, 10 for codes and tails (800 numbers and 320 bytes for each channel, an empty one too), of the first
 * frame that cannot be written 8, 9, 12, 7 or 13 as in g719_write, 10 for out, 0. */
G719_MUST_USE g719_writing g719_write_block(g719_records records, uint8_t channels, const uint16_t *codes, size_t codes_count,
                                            const uint8_t *tails, size_t tails_count, uint8_t *out, size_t out_count);

/* g719_check_file over blocks: count and booking count blocks, the place is that of the block that stopped the check. Replies: 17 for
 * a channel count outside 1 to 8, that of the first frame that is not sound (2 to 7), 4 for a block that lacks a frame, 15 for a byte
 * after 3,000 sound blocks, at the end 11 if the count is not the booking, else 0. */
G719_MUST_USE g719_check g719_check_blocks(const uint8_t *src, size_t src_count, uint8_t channels, uint32_t booking);

/* Takes one channel out of a recording: its frames, as stored. Replies: 17 for a channel count outside 1 to 8 or a channel not among
 * them, those of g719_check_blocks save 11 with its count and place, 10 for out, 0 with the count of blocks and the end as place. */
G719_MUST_USE g719_copied g719_extract(const uint8_t *src, size_t src_count, uint8_t channels, uint8_t channel, uint8_t *out,
                                       size_t out_count);

/* Joins recordings of one channel and of equal frame count into one, frames as stored. They stand in src one behind the other, with
 * the bytes of each in lengths; what follows them is not looked at. g719_extract with channel c takes recording c, from 0, out again.
 * Replies: 17 for other than 1 to 8 lengths, 10 where they add up to more than src holds, those of g719_check_file save 11 of the
 * first recording that is not sound, with its count and place and which it is, 17 for unequal frame counts, 10 for out, 0 with the
 * frame count. */
G719_MUST_USE g719_copied g719_join(const uint8_t *src, size_t src_count, const uint32_t *lengths, size_t lengths_count,
                                    uint8_t *out, size_t out_count);

/* ---- Words */

/* What a reply says, in plain English words that can stand behind "not complete: "; "no such reply" for any other number. Never NULL;
 * the text is static. Not proved: it stands in c/reply_text.c, and in the libg719.a that `make install` installs. */
G719_MUST_USE const char *g719_reply_text(uint8_t reply);

#ifdef __cplusplus
}
#endif

#undef G719_MUST_USE

#endif
