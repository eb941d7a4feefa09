//! The answers of the calls. Every `reply` is a number of the paper's table
//! (`reply`).

/// Bands of a frame.
pub const BANDS: usize = 44;
/// Numbers of a frame, one per coefficient.
pub const CODES: usize = 800;
/// Bytes that hold a tail.
pub const TAIL_BYTES: usize = 320;
/// Bytes of the largest stored frame.
pub const FRAME_BYTES: usize = 321;
/// Most channels of a recording.
pub const MOST_CHANNELS: usize = 8;

/// A prefix byte: its L (`length`), the body bytes L names and the next place.
#[derive(Clone, Copy, Debug, PartialEq, Eq)]
pub struct Prefix {
    pub reply: u8,
    pub length: u8,
    pub bytes: u16,
    pub next: u8,
}

/// A written prefix byte.
#[derive(Clone, Copy, Debug, PartialEq, Eq)]
pub struct Byte {
    pub reply: u8,
    pub byte: u8,
}

/// What a frame holds beside its codes and its tail; norms in band order.
#[derive(Clone, Copy, Debug, PartialEq, Eq)]
pub struct Record {
    pub mode: u8,
    pub transient: bool,
    pub flag_l: bool,
    pub flag_n: bool,
    pub flag_c: bool,
    pub norms: [u8; BANDS],
    pub noise: u8,
    pub tail_bits: u16,
}

/// A frame that was read, and the place after it.
#[derive(Clone, Copy, Debug, PartialEq, Eq)]
pub struct Reading {
    pub reply: u8,
    pub next: usize,
    pub record: Record,
}

/// The place after a written frame.
#[derive(Clone, Copy, Debug, PartialEq, Eq)]
pub struct Writing {
    pub reply: u8,
    pub next: usize,
}

/// How the bits of a record's frame part: the budget, the rates by which the
/// codes are read and written, the bits of the codes and those of the tail.
#[derive(Clone, Copy, Debug, PartialEq, Eq)]
pub struct Parts {
    pub reply: u8,
    pub budget: u16,
    pub rates: [u8; BANDS],
    pub code_bits: u16,
    pub tail_bits: u16,
}

/// A chosen FlagN or FlagC.
#[derive(Clone, Copy, Debug, PartialEq, Eq)]
pub struct Choice {
    pub reply: u8,
    pub flag: bool,
}

/// Legalised norms in band order.
#[derive(Clone, Copy, Debug, PartialEq, Eq)]
pub struct Norms {
    pub reply: u8,
    pub norms: [u8; BANDS],
}

/// Weights and scores of the bands, in sixteenths.
#[derive(Clone, Copy, Debug, PartialEq, Eq)]
pub struct Weights {
    pub reply: u8,
    pub weights: [u8; BANDS],
    pub scores: [i16; BANDS],
}

/// Rates of the bands, the bits left and the rounds of the contest.
#[derive(Clone, Copy, Debug, PartialEq, Eq)]
pub struct Shares {
    pub reply: u8,
    pub rates: [u8; BANDS],
    pub left: u16,
    pub rounds: u16,
}

/// A point of the lattice or of the rate-1 codebook.
#[derive(Clone, Copy, Debug, PartialEq, Eq)]
pub struct Point {
    pub reply: u8,
    pub at: [i16; 8],
}

/// An index of the lattice.
#[derive(Clone, Copy, Debug, PartialEq, Eq)]
pub struct Index {
    pub reply: u8,
    pub at: [u16; 8],
}

/// A row of the rate-1 codebook.
#[derive(Clone, Copy, Debug, PartialEq, Eq)]
pub struct Row {
    pub reply: u8,
    pub index: u8,
}

/// Sound frames of a file and the place where its check ended.
#[derive(Clone, Copy, Debug, PartialEq, Eq)]
pub struct Check {
    pub reply: u8,
    pub count: u32,
    pub place: usize,
}

/// A block that was read, a frame for each channel, and the place after it.
/// Each frame's next place counts from the frame's own start.
#[derive(Clone, Copy, Debug, PartialEq, Eq)]
pub struct Block {
    pub reply: u8,
    pub next: usize,
    pub frames: [Reading; MOST_CHANNELS],
}

/// The records of a block; a channel that is `empty` has an empty frame.
#[derive(Clone, Copy, Debug, PartialEq, Eq)]
pub struct Records {
    pub at: [Record; MOST_CHANNELS],
    pub empty: [bool; MOST_CHANNELS],
}

/// Frames copied as stored: the blocks or frames and the place that the check
/// tells, the bytes written, and which of the joined recordings was refused,
/// counted from 1.
#[derive(Clone, Copy, Debug, PartialEq, Eq)]
pub struct Copied {
    pub reply: u8,
    pub which: u8,
    pub count: u32,
    pub place: usize,
    pub length: usize,
}

impl Reading {
    /// No frame.
    pub const NONE: Reading = Reading {
        reply: 0,
        next: 0,
        record: Record::ZERO,
    };
}

impl Record {
    /// The record of every refusal.
    pub const ZERO: Record = Record {
        mode: 0,
        transient: false,
        flag_l: false,
        flag_n: false,
        flag_c: false,
        norms: [0; BANDS],
        noise: 0,
        tail_bits: 0,
    };
}
