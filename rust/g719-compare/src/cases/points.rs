//! Indices and points for the lattice and the rate-1 codebook.

use crate::random::Random;
use g719_reference::{codebook_point, lattice_point};

/// Input of the lattice point call.
#[derive(Clone, Debug)]
pub struct LatticePointCase {
    pub rate: u8,
    pub index: [u16; 8],
}

/// Input of the codebook point call.
#[derive(Clone, Debug)]
pub struct CodebookPointCase {
    pub rate: u8,
    pub index: u16,
}

/// Input of both index calls.
#[derive(Clone, Debug)]
pub struct PointCase {
    pub rate: u8,
    pub point: [i16; 8],
}

/// A rate of 2–9, or now and then another one.
fn lattice_rate(random: &mut Random) -> u8 {
    if random.once_in(12) {
        random.pick(&[0, 1, 10, 15, 16, 17, 32, 255])
    } else {
        random.between(2, 9) as u8
    }
}

/// Rate 1, or now and then another one.
fn codebook_rate(random: &mut Random) -> u8 {
    if random.once_in(8) {
        random.pick(&[0, 2, 9, 255])
    } else {
        1
    }
}

/// An index that fits: any, few places used, or near the ends.
fn index(random: &mut Random, rate: u8) -> [u16; 8] {
    let r = 1usize << rate.clamp(2, 9);
    let kind = random.below(4);
    std::array::from_fn(|_| {
        let k = match kind {
            0 => random.pick(&[0, 0, 0, 1, r - 1]),
            1 => random.pick(&[0, r / 2, r / 2 - 1, r / 2 + 1, r / 4, r - 1]),
            _ => random.below(r),
        };
        k as u16
    })
}

pub fn lattice_point_case(seed: u64) -> LatticePointCase {
    let mut random = Random::new(seed);
    let rate = lattice_rate(&mut random);
    let mut index = index(&mut random, rate);
    if random.once_in(8) {
        let r = 1u16 << rate.clamp(2, 9);
        index[random.below(8)] = random.pick(&[r, r + 1, 2 * r, u16::MAX]);
    }
    LatticePointCase { rate, index }
}

pub fn codebook_point_case(seed: u64) -> CodebookPointCase {
    let mut random = Random::new(seed);
    let rate = codebook_rate(&mut random);
    let index = match random.below(8) {
        0 => random.pick(&[256, 257, 511, u16::MAX]),
        1 => random.next() as u16,
        _ => random.below(256) as u16,
    };
    CodebookPointCase { rate, index }
}

/// Moves some places of a point.
fn nudge(random: &mut Random, point: &mut [i16; 8], steps: &[i16]) {
    for _ in 0..random.pick(&[1, 1, 2]) {
        let v = &mut point[random.below(8)];
        *v = v.wrapping_add(random.pick(steps));
    }
}

/// Any point: small, large or at the ends of 16 bits.
fn any_point(random: &mut Random) -> [i16; 8] {
    let reach = random.pick(&[1, 2, 3, 8, 300, 32_767]);
    let ends = random.once_in(6);
    std::array::from_fn(|_| {
        if ends && random.flag() {
            random.pick(&[i16::MIN, i16::MAX])
        } else {
            random.between(-reach, reach) as i16
        }
    })
}

pub fn lattice_index_case(seed: u64) -> PointCase {
    let mut random = Random::new(seed);
    let rate = lattice_rate(&mut random);
    let r = 1i16 << rate.clamp(2, 9);
    let index = index(&mut random, rate);
    let mut point = lattice_point(rate.clamp(2, 9), &index).at;
    match random.below(5) {
        0 => nudge(&mut random, &mut point, &[1, -1, 2, -2]),
        1 => nudge(&mut random, &mut point, &[r, -r, 2 * r, -2 * r]),
        2 => point = any_point(&mut random),
        _ => {}
    }
    PointCase { rate, point }
}

pub fn codebook_index_case(seed: u64) -> PointCase {
    let mut random = Random::new(seed);
    let rate = codebook_rate(&mut random);
    let mut point = codebook_point(1, random.below(256) as u16).at;
    match random.below(5) {
        0 => nudge(&mut random, &mut point, &[1, -1, 2, -2, 4, -4]),
        1 => point = any_point(&mut random),
        2 => point = std::array::from_fn(|_| random.pick(&[-1, 1])),
        _ => {}
    }
    PointCase { rate, point }
}
