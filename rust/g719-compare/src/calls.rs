//! The twenty-one calls as one table, so that a test can run both sides.

use crate::library;
use g719_reference as reference;
use g719_reference::types::{
    Block, Byte, Check, Choice, Copied, Index, Norms, Parts, Point, Prefix, Reading, Record, Records, Row,
    Shares, Weights, Writing, BANDS,
};

/// The block writer.
pub type WriteBlock = fn(&Records, u8, &[u16], &[u8], &mut [u8]) -> Writing;

/// One side: the library or the plain implementation.
pub struct Calls {
    pub side: &'static str,
    pub read_prefix: fn(&[u8]) -> Prefix,
    pub write_prefix: fn(u8) -> Byte,
    pub read: fn(&[u8], &mut [u16], &mut [u8]) -> Reading,
    pub write: fn(&Record, &[u16], &[u8], &mut [u8]) -> Writing,
    pub layout: fn(&Record, &[u16]) -> Parts,
    pub write_empty: fn(&mut [u8]) -> Writing,
    pub choose_flag_n: fn(bool, &[u8; BANDS]) -> Choice,
    pub choose_flag_c: fn(&Record, &[u16]) -> Choice,
    pub legalise: fn(bool, &[u8; BANDS]) -> Norms,
    pub weigh: fn(bool, &[u8; BANDS]) -> Weights,
    pub allot: fn(bool, bool, &[u8; BANDS], u32) -> Shares,
    pub lattice_point: fn(u8, &[u16; 8]) -> Point,
    pub codebook_point: fn(u8, u16) -> Point,
    pub lattice_index: fn(u8, &[i16; 8]) -> Index,
    pub codebook_index: fn(u8, &[i16; 8]) -> Row,
    pub check_file: fn(&[u8], u32) -> Check,
    pub read_block: fn(&[u8], u8, &mut [u16], &mut [u8]) -> Block,
    pub write_block: WriteBlock,
    pub check_blocks: fn(&[u8], u8, u32) -> Check,
    pub extract: fn(&[u8], u8, u8, &mut [u8]) -> Copied,
    pub join: fn(&[u8], &[u32], &mut [u8]) -> Copied,
}

macro_rules! calls_of {
    ($side:ident) => {
        Calls {
            side: stringify!($side),
            read_prefix: $side::read_prefix,
            write_prefix: $side::write_prefix,
            read: $side::read,
            write: $side::write,
            layout: $side::layout,
            write_empty: $side::write_empty,
            choose_flag_n: $side::choose_flag_n,
            choose_flag_c: $side::choose_flag_c,
            legalise: $side::legalise,
            weigh: $side::weigh,
            allot: $side::allot,
            lattice_point: $side::lattice_point,
            codebook_point: $side::codebook_point,
            lattice_index: $side::lattice_index,
            codebook_index: $side::codebook_index,
            check_file: $side::check_file,
            read_block: $side::read_block,
            write_block: $side::write_block,
            check_blocks: $side::check_blocks,
            extract: $side::extract,
            join: $side::join,
        }
    };
}

pub static LIBRARY: Calls = calls_of!(library);
pub static REFERENCE: Calls = calls_of!(reference);

/// Both sides, the library first.
pub static SIDES: [&Calls; 2] = [&LIBRARY, &REFERENCE];
