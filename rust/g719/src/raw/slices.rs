//! The C calls over slices: a slice stands for each pointer with its count, and a reference for a struct that is
//! passed by value. All unsafe code of the crate is here and in the declarations; every number is allowed.

use super::{Block, Check, Choice, Copied, Parts, Prefix, Reading, Record, Records, Writing};

/// Reads the prefix byte at the start of `src`.
#[inline]
pub fn read_prefix(src: &[u8]) -> Prefix {
    // SAFETY: pointer and count are those of a slice that is only read.
    unsafe { super::g719_read_prefix(src.as_ptr(), src.len()) }
}

/// Reads the frame at the start of `src`: its codes into the first 800 numbers of `codes`, its tail into the
/// first 320 bytes of `tail`.
#[inline]
pub fn read(src: &[u8], codes: &mut [u16], tail: &mut [u8]) -> Reading {
    // SAFETY: pointers and counts are those of slices that do not overlap; `src` is only read.
    unsafe {
        super::g719_read(
            src.as_ptr(),
            src.len(),
            codes.as_mut_ptr(),
            codes.len(),
            tail.as_mut_ptr(),
            tail.len(),
        )
    }
}

/// Writes a frame from the first 800 numbers of `codes` and the first 320 bytes of `tail`.
#[inline]
pub fn write(record: &Record, codes: &[u16], tail: &[u8], out: &mut [u8]) -> Writing {
    // SAFETY: pointers and counts are those of slices; `out`, the only one that is written, overlaps neither of
    // the others.
    unsafe {
        super::g719_write(
            *record,
            codes.as_ptr(),
            codes.len(),
            tail.as_ptr(),
            tail.len(),
            out.as_mut_ptr(),
            out.len(),
        )
    }
}

/// How the bits of a record's frame part; its noise and tail are not read.
#[inline]
pub fn layout(record: &Record, codes: &[u16]) -> Parts {
    // SAFETY: pointer and count are those of a slice that is only read.
    unsafe { super::g719_layout(*record, codes.as_ptr(), codes.len()) }
}

/// Writes an empty frame.
#[inline]
pub fn write_empty(out: &mut [u8]) -> Writing {
    // SAFETY: pointer and count are those of a slice that is lent for change.
    unsafe { super::g719_write_empty(out.as_mut_ptr(), out.len()) }
}

/// Whether the words of the codes cost less than fixed codes.
#[inline]
pub fn choose_flag_c(record: &Record, codes: &[u16]) -> Choice {
    // SAFETY: pointer and count are those of a slice that is only read.
    unsafe { super::g719_choose_flag_c(*record, codes.as_ptr(), codes.len()) }
}

/// Reads every frame of a file in full and holds their count against the booking.
#[inline]
pub fn check_file(src: &[u8], booking: u32) -> Check {
    // SAFETY: pointer and count are those of a slice that is only read.
    unsafe { super::g719_check_file(src.as_ptr(), src.len(), booking) }
}

/// Reads the block at the start of `src`: the codes of channel c from number 800 c of `codes` on, its tail from
/// byte 320 c of `tails` on.
#[inline]
pub fn read_block(src: &[u8], channels: u8, codes: &mut [u16], tails: &mut [u8]) -> Block {
    // SAFETY: pointers and counts are those of slices that do not overlap; `src` is only read.
    unsafe {
        super::g719_read_block(
            src.as_ptr(),
            src.len(),
            channels,
            codes.as_mut_ptr(),
            codes.len(),
            tails.as_mut_ptr(),
            tails.len(),
        )
    }
}

/// Writes a block from the codes at 800 c and the tail at 320 c of each channel c that is not empty.
#[inline]
pub fn write_block(records: &Records, channels: u8, codes: &[u16], tails: &[u8], out: &mut [u8]) -> Writing {
    // SAFETY: pointers and counts are those of slices; `out`, the only one that is written, overlaps neither of
    // the others.
    unsafe {
        super::g719_write_block(
            *records,
            channels,
            codes.as_ptr(),
            codes.len(),
            tails.as_ptr(),
            tails.len(),
            out.as_mut_ptr(),
            out.len(),
        )
    }
}

/// Reads every block of a file in full and holds their count against the booking.
#[inline]
pub fn check_blocks(src: &[u8], channels: u8, booking: u32) -> Check {
    // SAFETY: pointer and count are those of a slice that is only read.
    unsafe { super::g719_check_blocks(src.as_ptr(), src.len(), channels, booking) }
}

/// Writes the frames of one channel, counted from 0, as stored.
#[inline]
pub fn extract(src: &[u8], channels: u8, channel: u8, out: &mut [u8]) -> Copied {
    // SAFETY: pointers and counts are those of slices that do not overlap; `src` is only read.
    unsafe {
        super::g719_extract(
            src.as_ptr(),
            src.len(),
            channels,
            channel,
            out.as_mut_ptr(),
            out.len(),
        )
    }
}

/// Writes a block of the frames of all recordings, as stored, for each of their frames. The recordings stand one
/// behind the other in `src`.
#[inline]
pub fn join(src: &[u8], lengths: &[u32], out: &mut [u8]) -> Copied {
    // SAFETY: pointers and counts are those of slices; `out`, the only one that is written, overlaps neither of
    // the others.
    unsafe {
        super::g719_join(
            src.as_ptr(),
            src.len(),
            lengths.as_ptr(),
            lengths.len(),
            out.as_mut_ptr(),
            out.len(),
        )
    }
}
