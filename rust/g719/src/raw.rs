//! The C interface line by line, as include/g719.h has it: structs, names of replies and calls; [`slices`] has
//! the calls that take pointers over slices. A flag is a number here; any number but 0 that goes in is true, and
//! what comes out is 0 or 1.
//!
//! The safe calls of this crate are made from these. They are public for who must pass what the safe ones cannot
//! say, such as a mode of 20.
#![allow(unsafe_code)]

pub mod slices;

use crate::{BANDS, MOST_CHANNELS, POINT_PLACES};

/// The replies by their C names.
pub mod reply {
    /// Done.
    pub const DONE: u8 = 0;
    /// No byte to read.
    pub const NO_BYTE: u8 = 1;
    /// F is 1.
    pub const MARKED: u8 = 2;
    /// L is reserved.
    pub const RESERVED: u8 = 3;
    /// Fewer body bytes than L says.
    pub const CUT: u8 = 4;
    /// A norm index outside 0 to 39.
    pub const NORM_OUTSIDE: u8 = 5;
    /// The word 1111110 in the 5-bit column.
    pub const NO_WORD: u8 = 6;
    /// Codes go past the budget.
    pub const PAST_BUDGET: u8 = 7;
    /// A number out of its range, or a point that no index names.
    pub const OUT_OF_RANGE: u8 = 8;
    /// A norm difference outside -15 to 16.
    pub const FAR_APART: u8 = 9;
    /// Lent room short.
    pub const SHORT_ROOM: u8 = 10;
    /// The file ended soundly, its count is not as booked.
    pub const NOT_AS_BOOKED: u8 = 11;
    /// A code too wide for its rate or an unused place not 0.
    pub const WIDE_CODE: u8 = 12;
    /// Tail count or padding wrong.
    pub const WRONG_TAIL: u8 = 13;
    /// L is 0: no data.
    pub const NO_DATA: u8 = 14;
    /// A byte is left after 3,000 sound frames or blocks.
    pub const TOO_MANY: u8 = 15;
    /// A channel count outside 1 to 8, a channel not among them, or unequal frame counts.
    pub const WRONG_CHANNELS: u8 = 17;
}

/// A prefix byte: its L (`length`), the body bytes that L names, and the next place.
#[repr(C)]
#[allow(missing_docs)]
#[derive(Clone, Copy, Debug, PartialEq, Eq)]
pub struct Prefix {
    pub reply: u8,
    pub length: u8,
    pub bytes: u16,
    pub next: u8,
}

/// A written prefix byte.
#[repr(C)]
#[allow(missing_docs)]
#[derive(Clone, Copy, Debug, PartialEq, Eq)]
pub struct Byte {
    pub reply: u8,
    pub byte: u8,
}

/// What a frame holds beside its codes and its tail, its flags as numbers; norms in band order.
#[repr(C)]
#[allow(missing_docs)]
#[derive(Clone, Copy, Debug, PartialEq, Eq)]
pub struct Record {
    pub mode: u8,
    pub transient: u8,
    pub flag_l: u8,
    pub flag_n: u8,
    pub flag_c: u8,
    pub norms: [u8; BANDS],
    pub noise: u8,
    pub tail_bits: u16,
}

/// A frame that was read, and the place after it.
#[repr(C)]
#[allow(missing_docs)]
#[derive(Clone, Copy, Debug, PartialEq, Eq)]
pub struct Reading {
    pub reply: u8,
    pub next: usize,
    pub record: Record,
}

/// The place after a written frame or block.
#[repr(C)]
#[allow(missing_docs)]
#[derive(Clone, Copy, Debug, PartialEq, Eq)]
pub struct Writing {
    pub reply: u8,
    pub next: usize,
}

/// How the bits of a record's frame part.
#[repr(C)]
#[allow(missing_docs)]
#[derive(Clone, Copy, Debug, PartialEq, Eq)]
pub struct Parts {
    pub reply: u8,
    pub budget: u16,
    pub rates: [u8; BANDS],
    pub code_bits: u16,
    pub tail_bits: u16,
}

/// A chosen FlagN or FlagC, as a number.
#[repr(C)]
#[allow(missing_docs)]
#[derive(Clone, Copy, Debug, PartialEq, Eq)]
pub struct Choice {
    pub reply: u8,
    pub flag: u8,
}

/// Legalised norms in band order.
#[repr(C)]
#[allow(missing_docs)]
#[derive(Clone, Copy, Debug, PartialEq, Eq)]
pub struct Norms {
    pub reply: u8,
    pub norms: [u8; BANDS],
}

/// Weights and scores of the bands, in sixteenths.
#[repr(C)]
#[allow(missing_docs)]
#[derive(Clone, Copy, Debug, PartialEq, Eq)]
pub struct Weights {
    pub reply: u8,
    pub weights: [u8; BANDS],
    pub scores: [i16; BANDS],
}

/// Rates of the bands, the bits left and the rounds of the contest.
#[repr(C)]
#[allow(missing_docs)]
#[derive(Clone, Copy, Debug, PartialEq, Eq)]
pub struct Shares {
    pub reply: u8,
    pub rates: [u8; BANDS],
    pub left: u16,
    pub rounds: u16,
}

/// A point of the lattice or of the rate-1 codebook.
#[repr(C)]
#[allow(missing_docs)]
#[derive(Clone, Copy, Debug, PartialEq, Eq)]
pub struct Point {
    pub reply: u8,
    pub at: [i16; POINT_PLACES],
}

/// An index of the lattice.
#[repr(C)]
#[allow(missing_docs)]
#[derive(Clone, Copy, Debug, PartialEq, Eq)]
pub struct Index {
    pub reply: u8,
    pub at: [u16; POINT_PLACES],
}

/// A row of the rate-1 codebook.
#[repr(C)]
#[allow(missing_docs)]
#[derive(Clone, Copy, Debug, PartialEq, Eq)]
pub struct Row {
    pub reply: u8,
    pub index: u8,
}

/// Sound frames or blocks of a file, and the place where its check ended.
#[repr(C)]
#[allow(missing_docs)]
#[derive(Clone, Copy, Debug, PartialEq, Eq)]
pub struct Check {
    pub reply: u8,
    pub count: u32,
    pub place: usize,
}

/// A block that was read, a frame for each channel, and the place after it.
#[repr(C)]
#[allow(missing_docs)]
#[derive(Clone, Copy, Debug, PartialEq, Eq)]
pub struct Block {
    pub reply: u8,
    pub next: usize,
    pub frames: [Reading; MOST_CHANNELS],
}

/// The records of a block, with numbers that tell the empty frames.
#[repr(C)]
#[allow(missing_docs)]
#[derive(Clone, Copy, Debug, PartialEq, Eq)]
pub struct Records {
    pub at: [Record; MOST_CHANNELS],
    pub empty: [u8; MOST_CHANNELS],
}

/// Frames copied as stored, and which of the joined recordings was refused, counted from 1.
#[repr(C)]
#[allow(missing_docs)]
#[derive(Clone, Copy, Debug, PartialEq, Eq)]
pub struct Copied {
    pub reply: u8,
    pub which: u8,
    pub count: u32,
    pub place: usize,
    pub length: usize,
}

// SAFETY: each line is the C line of include/g719.h; a reference to an array
// is the pointer that C passes. A call that takes no slice is safe: every
// number is allowed, and a reference points to as many numbers as are read.
#[allow(missing_docs)]
unsafe extern "C" {
    pub fn g719_read_prefix(src: *const u8, src_count: usize) -> Prefix;
    pub safe fn g719_write_prefix(mode: u8) -> Byte;
    pub fn g719_read(
        src: *const u8,
        src_count: usize,
        codes: *mut u16,
        codes_count: usize,
        tail: *mut u8,
        tail_count: usize,
    ) -> Reading;
    pub fn g719_write(
        record: Record,
        codes: *const u16,
        codes_count: usize,
        tail: *const u8,
        tail_count: usize,
        out: *mut u8,
        out_count: usize,
    ) -> Writing;
    pub fn g719_layout(record: Record, codes: *const u16, codes_count: usize) -> Parts;
    pub fn g719_write_empty(out: *mut u8, out_count: usize) -> Writing;
    pub safe fn g719_choose_flag_n(transient: u8, norms: &[u8; BANDS]) -> Choice;
    pub fn g719_choose_flag_c(record: Record, codes: *const u16, codes_count: usize) -> Choice;
    pub safe fn g719_legalise(transient: u8, norms: &[u8; BANDS]) -> Norms;
    pub safe fn g719_weigh(transient: u8, norms: &[u8; BANDS]) -> Weights;
    pub safe fn g719_allot(transient: u8, wide: u8, norms: &[u8; BANDS], budget: u32) -> Shares;
    pub safe fn g719_lattice_point(rate: u8, index: &[u16; POINT_PLACES]) -> Point;
    pub safe fn g719_codebook_point(rate: u8, index: u16) -> Point;
    pub safe fn g719_lattice_index(rate: u8, point: &[i16; POINT_PLACES]) -> Index;
    pub safe fn g719_codebook_index(rate: u8, point: &[i16; POINT_PLACES]) -> Row;
    pub fn g719_check_file(src: *const u8, src_count: usize, booking: u32) -> Check;
    pub fn g719_read_block(
        src: *const u8,
        src_count: usize,
        channels: u8,
        codes: *mut u16,
        codes_count: usize,
        tails: *mut u8,
        tails_count: usize,
    ) -> Block;
    pub fn g719_write_block(
        records: Records,
        channels: u8,
        codes: *const u16,
        codes_count: usize,
        tails: *const u8,
        tails_count: usize,
        out: *mut u8,
        out_count: usize,
    ) -> Writing;
    pub fn g719_check_blocks(src: *const u8, src_count: usize, channels: u8, booking: u32) -> Check;
    pub fn g719_extract(
        src: *const u8,
        src_count: usize,
        channels: u8,
        channel: u8,
        out: *mut u8,
        out_count: usize,
    ) -> Copied;
    pub fn g719_join(
        src: *const u8,
        src_count: usize,
        lengths: *const u32,
        lengths_count: usize,
        out: *mut u8,
        out_count: usize,
    ) -> Copied;
}
