//! Norms of many kinds.

use crate::random::Random;
use g719_reference::legalise;
use g719_reference::pieces::{sent_order, LARGEST};
use g719_reference::types::BANDS;

/// Input of the FlagN choice, the legaliser and the weights.
#[derive(Clone, Debug)]
pub struct NormsCase {
    pub transient: bool,
    pub norms: [u8; BANDS],
}

/// Input of the allotment.
#[derive(Clone, Debug)]
pub struct AllotCase {
    pub transient: bool,
    pub wide: bool,
    pub norms: [u8; BANDS],
    pub budget: u32,
}

fn clamp(norm: i32) -> u8 {
    norm.clamp(0, i32::from(LARGEST)) as u8
}

/// Norms that walk in sent order by steps of `step`.
fn walk(random: &mut Random, transient: bool, mut step: impl FnMut(&mut Random) -> i32) -> [u8; BANDS] {
    let mut norm = random.between(0, 31);
    let mut norms = [0; BANDS];
    for &band in sent_order(transient) {
        norms[band] = clamp(norm);
        norm = i32::from(norms[band]) + step(random);
    }
    norms
}

/// Norms of 0–39: smooth, rough, quiet, loud, extreme, flat, sloping, or
/// with differences at and past the ends.
pub(super) fn any_norms(random: &mut Random, transient: bool) -> [u8; BANDS] {
    let (low, high) = match random.below(10) {
        0 | 1 => return walk(random, transient, |random| random.between(-2, 2)),
        2 => {
            return walk(random, transient, |random| {
                random.pick(&[-16, -15, 16, 17, -15, 16, 0, 1])
            })
        }
        3 => return walk(random, transient, |random| random.pick(&[-15, 16, -14, 15, 0, 0])),
        4 => return std::array::from_fn(|_| random.pick(&[0, 39, 0, 39, 15, 16, 31, 32])),
        5 => {
            let slope = random.between(-8, 8);
            let start = random.between(0, 39);
            return std::array::from_fn(|band| {
                clamp(start + slope * band as i32 / 8 + random.between(-1, 1))
            });
        }
        6 => (28, 39),
        7 => (0, 10),
        8 => {
            let norm = random.between(0, 39);
            (norm, norm)
        }
        _ => (0, 39),
    };
    std::array::from_fn(|_| random.between(low, high) as u8)
}

/// Norms that a frame can hold.
pub(super) fn legal_norms(random: &mut Random, transient: bool) -> [u8; BANDS] {
    let norms = any_norms(random, transient);
    legalise(transient, &norms).norms
}

/// Norms with an index over 39 now and then.
fn case_norms(random: &mut Random, transient: bool) -> [u8; BANDS] {
    let mut norms = match random.below(3) {
        0 => legal_norms(random, transient),
        _ => any_norms(random, transient),
    };
    if random.once_in(12) {
        norms[random.below(BANDS)] = random.pick(&[40, 41, 63, 127, 128, 255]);
    }
    norms
}

pub fn norms_case(seed: u64) -> NormsCase {
    let mut random = Random::new(seed);
    let transient = random.flag();
    let norms = case_norms(&mut random, transient);
    NormsCase { transient, norms }
}

pub fn allot_case(seed: u64) -> AllotCase {
    let mut random = Random::new(seed);
    let transient = random.flag();
    let norms = case_norms(&mut random, transient);
    let budget = match random.below(12) {
        0 => random.below(40),
        1 => random.pick(&[0, 7, 8, 2559, 2560, 2561, 65_535, 65_536, u32::MAX as usize]),
        2 => random.below(1 << 32),
        _ => random.below(2561),
    };
    AllotCase {
        transient,
        wide: random.flag(),
        norms,
        budget: budget as u32,
    }
}
