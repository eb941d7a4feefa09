//! Inputs for each call, made from a seed: sound and damaged, short and long.
//! Equal seeds give equal inputs. Lent rooms come below, at and above the
//! size they need, filled with random numbers.

mod channels;
mod frames;
mod norms;
mod points;
mod recordings;
mod records;
mod writes;

pub use channels::{
    blocks_case, extract_case, join_case, read_block_case, write_block_case, BlocksCase, ExtractCase,
    JoinCase, ReadBlockCase, WriteBlockCase,
};
pub use frames::{read_case, ReadCase};
pub use norms::{allot_case, norms_case, AllotCase, NormsCase};
pub use points::{
    codebook_index_case, codebook_point_case, lattice_index_case, lattice_point_case, CodebookPointCase,
    LatticePointCase, PointCase,
};
pub use recordings::{check_case, CheckCase};
pub use writes::{empty_case, flag_c_case, layout_case, write_case, CodesCase, WriteCase};

use crate::random::Random;

/// Bytes for the prefix reader.
pub fn prefix_case(seed: u64) -> Vec<u8> {
    let mut random = Random::new(seed);
    let count = random.pick(&[0, 1, 1, 1, 1, 2, 9]);
    let mut src = random.bytes(count);
    if let Some(byte) = src.first_mut() {
        match random.below(4) {
            0 => {}
            1 => *byte &= 0x03,
            _ => *byte &= 0x7f,
        }
    }
    src
}

/// A mode for the prefix writer.
pub fn mode_case(seed: u64) -> u8 {
    let mut random = Random::new(seed);
    match random.below(4) {
        0 => random.next() as u8,
        1 => random.pick(&[0, 14, 15, 19, 20, 27, 28, 31, 255]),
        _ => random.below(20) as u8,
    }
}

/// A room that needs `needed` places: mostly that many or more.
fn room(random: &mut Random, needed: usize) -> usize {
    match random.below(16) {
        0 => needed - 1,
        1 => needed + 1,
        2 => needed + random.below(40),
        _ => needed,
    }
}
