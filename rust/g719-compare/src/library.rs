//! The proved library, called through its C interface. Each call has the
//! arguments and the answer of its namesake in `g719_reference`.

use crate::convert::{record_in_c, records_in_c, Plain};
use g719::raw::{self, slices};
use g719_reference::types::{
    Block, Byte, Check, Choice, Copied, Index, Norms, Parts, Point, Prefix, Reading, Record, Records, Row,
    Shares, Weights, Writing, BANDS,
};

/// Reads the prefix byte at the start of `src`.
pub fn read_prefix(src: &[u8]) -> Prefix {
    slices::read_prefix(src).plain()
}

/// The prefix byte of a mode.
pub fn write_prefix(mode: u8) -> Byte {
    raw::g719_write_prefix(mode).plain()
}

/// Reads the frame at the start of `src`: its codes into the first 800
/// numbers of `codes`, its tail into the first 320 bytes of `tail`.
pub fn read(src: &[u8], codes: &mut [u16], tail: &mut [u8]) -> Reading {
    slices::read(src, codes, tail).plain()
}

/// Writes a frame from the first 800 numbers of `codes` and the first 320
/// bytes of `tail`.
pub fn write(record: &Record, codes: &[u16], tail: &[u8], out: &mut [u8]) -> Writing {
    slices::write(&record_in_c(record), codes, tail, out).plain()
}

/// How the bits of a record's frame part; its noise and tail are not read.
pub fn layout(record: &Record, codes: &[u16]) -> Parts {
    slices::layout(&record_in_c(record), codes).plain()
}

/// Writes an empty frame.
pub fn write_empty(out: &mut [u8]) -> Writing {
    slices::write_empty(out).plain()
}

/// Whether the words of the differences cost less than fixed codes.
pub fn choose_flag_n(transient: bool, norms: &[u8; BANDS]) -> Choice {
    raw::g719_choose_flag_n(transient.into(), norms).plain()
}

/// Whether the words of the codes cost less than fixed codes.
pub fn choose_flag_c(record: &Record, codes: &[u16]) -> Choice {
    slices::choose_flag_c(&record_in_c(record), codes).plain()
}

/// The norms, lowered where a frame could not hold them.
pub fn legalise(transient: bool, norms: &[u8; BANDS]) -> Norms {
    raw::g719_legalise(transient.into(), norms).plain()
}

/// The weights and scores of the bands.
pub fn weigh(transient: bool, norms: &[u8; BANDS]) -> Weights {
    raw::g719_weigh(transient.into(), norms).plain()
}

/// The rates of the bands; bands 36–43 compete only if `wide`.
pub fn allot(transient: bool, wide: bool, norms: &[u8; BANDS], budget: u32) -> Shares {
    raw::g719_allot(transient.into(), wide.into(), norms, budget).plain()
}

/// The point of a lattice index.
pub fn lattice_point(rate: u8, index: &[u16; 8]) -> Point {
    raw::g719_lattice_point(rate, index).plain()
}

/// The point of a row of the rate-1 codebook.
pub fn codebook_point(rate: u8, index: u16) -> Point {
    raw::g719_codebook_point(rate, index).plain()
}

/// The lattice index that names a point.
pub fn lattice_index(rate: u8, point: &[i16; 8]) -> Index {
    raw::g719_lattice_index(rate, point).plain()
}

/// The row of a point of the rate-1 codebook.
pub fn codebook_index(rate: u8, point: &[i16; 8]) -> Row {
    raw::g719_codebook_index(rate, point).plain()
}

/// Reads every frame of a file in full and holds their count against the
/// booking.
pub fn check_file(src: &[u8], booking: u32) -> Check {
    slices::check_file(src, booking).plain()
}

/// Reads the block at the start of `src`: the codes of channel c from number
/// 800 c of `codes` on, its tail from byte 320 c of `tails` on.
pub fn read_block(src: &[u8], channels: u8, codes: &mut [u16], tails: &mut [u8]) -> Block {
    slices::read_block(src, channels, codes, tails).plain()
}

/// Writes a block from the codes at 800 c and the tail at 320 c of each
/// channel c that is not empty.
pub fn write_block(records: &Records, channels: u8, codes: &[u16], tails: &[u8], out: &mut [u8]) -> Writing {
    slices::write_block(&records_in_c(records), channels, codes, tails, out).plain()
}

/// Reads every block of a file in full and holds their count against the
/// booking.
pub fn check_blocks(src: &[u8], channels: u8, booking: u32) -> Check {
    slices::check_blocks(src, channels, booking).plain()
}

/// Writes the frames of one channel, counted from 0, as stored.
pub fn extract(src: &[u8], channels: u8, channel: u8, out: &mut [u8]) -> Copied {
    slices::extract(src, channels, channel, out).plain()
}

/// Writes a block of the frames of all recordings, as stored, for each of
/// their frames. The recordings stand one behind the other in `src`.
pub fn join(src: &[u8], lengths: &[u32], out: &mut [u8]) -> Copied {
    slices::join(src, lengths, out).plain()
}
