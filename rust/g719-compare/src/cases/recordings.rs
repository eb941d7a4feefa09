//! Files of many frames.

use super::frames::{any_frame, sound_frame};
use crate::random::Random;

/// Input of the file check; the lister takes its bytes.
#[derive(Clone, Debug)]
pub struct CheckCase {
    pub src: Vec<u8>,
    pub booking: u32,
}

/// A few frames, empty ones among them. Gives their number too.
fn few(random: &mut Random) -> (Vec<u8>, u32) {
    let mut src = Vec::new();
    let count = random.below(7);
    for _ in 0..count {
        if random.once_in(3) {
            src.push(random.below(4) as u8);
        } else {
            src.extend(sound_frame(random));
        }
    }
    (src, count as u32)
}

/// 2,999 to 3,001 frames, mostly empty, with some bodies among them.
fn many(random: &mut Random) -> (Vec<u8>, u32) {
    let count = random.between(2999, 3001) as u32;
    let frame = sound_frame(random);
    let bodies = random.below(60);
    let every = 3000 / (bodies + 1);
    let mut src = Vec::new();
    for number in 0..count as usize {
        if number % every == every - 1 {
            src.extend_from_slice(&frame);
        } else {
            src.push(random.below(4) as u8);
        }
    }
    (src, count)
}

/// Frames to exactly 65,536 bytes, or one less or more; empty ones fill up.
fn long(random: &mut Random) -> (Vec<u8>, u32) {
    let pool: Vec<Vec<u8>> = (0..6).map(|_| sound_frame(random)).collect();
    let size = 65_535 + random.below(3);
    let mut src = Vec::with_capacity(size);
    let mut count = 0;
    while src.len() < size {
        let frame = &pool[random.below(pool.len())];
        if src.len() + frame.len() <= size {
            src.extend_from_slice(frame);
        } else {
            src.push(0);
        }
        count += 1;
    }
    (src, count)
}

/// Ends a file with a damaged frame, a turned bit or a cut.
pub(super) fn damage(random: &mut Random, src: &mut Vec<u8>) {
    match random.below(4) {
        0 => src.truncate(random.below(src.len() + 1)),
        1 if !src.is_empty() => {
            let at = random.below(src.len());
            src[at] ^= 1 << random.below(8);
        }
        2 => src.push(random.next() as u8),
        _ => {
            src.extend(any_frame(random));
            let (more, _) = few(random);
            src.extend(more);
        }
    }
}

pub fn check_case(seed: u64) -> CheckCase {
    let mut random = Random::new(seed);
    let (mut src, count) = match random.below(64) {
        0 => long(&mut random),
        1..=4 => many(&mut random),
        _ => few(&mut random),
    };
    if random.flag() {
        damage(&mut random, &mut src);
    }
    let booking = match random.below(6) {
        0 => count + 1,
        1 => count.saturating_sub(1),
        2 => random.pick(&[0, 3000, 3001, u32::MAX]),
        _ => count,
    };
    CheckCase { src, booking }
}
