//! Norm indices (7.4, 8.2): their order in a frame, their differences, the
//! legaliser and the FlagN choice.

use crate::bits::{BitReader, BitWriter};
use crate::reply;
use crate::types::{Choice, Norms, BANDS};
use crate::words::{difference_words, put_word, take_word, word_bits};

/// Largest norm index.
pub const LARGEST: u8 = 39;
/// Largest first index, which has five bits.
const LARGEST_FIRST: u8 = 31;
/// Bits of the first index and of a difference without words.
const FIXED_BITS: u32 = 5;
/// What is added to a difference.
const OFFSET: i16 = 15;
/// Differences of a frame.
const STEPS: usize = BANDS - 1;

/// Differences plus 15 in sent order.
pub type Steps = [u8; STEPS];

#[rustfmt::skip]
static STATIONARY_ORDER: [usize; BANDS] = [
    0, 1, 2, 3, 4, 5, 6, 7, 8, 9, 10, 11, 12, 13, 14, 15, 16, 17, 18, 19, 20, 21,
    22, 23, 24, 25, 26, 27, 28, 29, 30, 31, 32, 33, 34, 35, 36, 37, 38, 39, 40, 41, 42, 43,
];

#[rustfmt::skip]
static TRANSIENT_ORDER: [usize; BANDS] = [
    0, 1, 8, 9, 16, 20, 24, 28, 32, 36, 40,
    41, 37, 33, 29, 25, 21, 17, 11, 10, 3, 2,
    4, 5, 12, 13, 18, 22, 26, 30, 34, 38, 42,
    43, 39, 35, 31, 27, 23, 19, 15, 14, 7, 6,
];

/// The bands in sent order.
pub fn sent_order(transient: bool) -> &'static [usize; BANDS] {
    if transient {
        &TRANSIENT_ORDER
    } else {
        &STATIONARY_ORDER
    }
}

/// Reply 8 for an index over 39.
pub(crate) fn check_indices(norms: &[u8; BANDS]) -> Result<(), u8> {
    if norms.iter().any(|&norm| norm > LARGEST) {
        return Err(reply::OUT_OF_RANGE);
    }
    Ok(())
}

/// The differences plus 15. Replies 8 for an index over 39 or a first one
/// over 31, then 9.
pub(crate) fn steps(transient: bool, norms: &[u8; BANDS]) -> Result<Steps, u8> {
    check_indices(norms)?;
    let order = sent_order(transient);
    if norms[order[0]] > LARGEST_FIRST {
        return Err(reply::OUT_OF_RANGE);
    }
    let mut steps = [0; STEPS];
    for (step, pair) in steps.iter_mut().zip(order.windows(2)) {
        let difference = i16::from(norms[pair[1]]) - i16::from(norms[pair[0]]);
        if !(-15..=16).contains(&difference) {
            return Err(reply::FAR_APART);
        }
        *step = (difference + OFFSET) as u8;
    }
    Ok(steps)
}

/// Bits of the words of all differences.
fn steps_in_words(steps: &Steps) -> u32 {
    let (words, _) = difference_words();
    steps
        .iter()
        .map(|&step| word_bits(words[usize::from(step)]))
        .sum()
}

/// Bits of the norms in a frame, the first index among them.
pub(crate) fn norm_bits(flag_n: bool, steps: &Steps) -> u32 {
    let differences = if flag_n {
        steps_in_words(steps)
    } else {
        FIXED_BITS * STEPS as u32
    };
    FIXED_BITS + differences
}

/// Takes the norms and gives them in band order, or reply 5.
pub(crate) fn take_norms(bits: &mut BitReader, transient: bool, flag_n: bool) -> Result<[u8; BANDS], u8> {
    let order = sent_order(transient);
    let (_, lookup) = difference_words();
    let mut norms = [0; BANDS];
    let mut norm = bits.take(FIXED_BITS) as i16;
    norms[order[0]] = norm as u8;
    for &band in &order[1..] {
        let step = if flag_n {
            i16::from(take_word(bits, lookup, usize::MAX)?)
        } else {
            bits.take(FIXED_BITS) as i16
        };
        norm += step - OFFSET;
        if !(0..=i16::from(LARGEST)).contains(&norm) {
            return Err(reply::NORM_OUTSIDE);
        }
        norms[band] = norm as u8;
    }
    Ok(norms)
}

/// Writes the first index and the differences.
pub fn put_norms(bits: &mut BitWriter, first: u8, flag_n: bool, steps: &Steps) {
    let (words, _) = difference_words();
    bits.put(u16::from(first), FIXED_BITS);
    for &step in steps {
        if flag_n {
            put_word(bits, words[usize::from(step)]);
        } else {
            bits.put(u16::from(step), FIXED_BITS);
        }
    }
}

/// FlagN is 1 exactly when the words of the differences total under 215 bits.
pub fn choose_flag_n(transient: bool, norms: &[u8; BANDS]) -> Choice {
    match steps(transient, norms) {
        Ok(steps) => Choice {
            reply: reply::DONE,
            flag: steps_in_words(&steps) < FIXED_BITS * STEPS as u32,
        },
        Err(reply) => Choice { reply, flag: false },
    }
}

/// The norms, lowered where a frame could not hold them.
pub fn legalise(transient: bool, norms: &[u8; BANDS]) -> Norms {
    if let Err(reply) = check_indices(norms) {
        return Norms {
            reply,
            norms: [0; BANDS],
        };
    }
    let order = sent_order(transient);
    let mut norms = *norms;
    norms[order[0]] = norms[order[0]].min(LARGEST_FIRST);
    for pair in order.windows(2).rev() {
        norms[pair[0]] = norms[pair[0]].min(norms[pair[1]] + 15);
    }
    for pair in order.windows(2) {
        norms[pair[1]] = norms[pair[1]].min(norms[pair[0]] + 16);
    }
    Norms {
        reply: reply::DONE,
        norms,
    }
}

#[cfg(test)]
mod tests {
    use super::*;

    #[test]
    fn orders_hold_every_band_once() {
        for transient in [false, true] {
            let mut order = *sent_order(transient);
            order.sort_unstable();
            assert_eq!(order, STATIONARY_ORDER);
        }
    }

    #[test]
    fn differences_at_the_ends() {
        for (later, reply) in [(5, 0), (36, 0), (4, 9), (37, 9)] {
            for transient in [false, true] {
                let mut norms = [later; BANDS];
                norms[0] = 20;
                assert_eq!(choose_flag_n(transient, &norms).reply, reply);
            }
        }
    }

    #[test]
    fn legalised_norms_are_legal() {
        let mut norms = [0; BANDS];
        for (band, norm) in norms.iter_mut().enumerate() {
            *norm = if band % 3 == 0 { 39 } else { 0 };
        }
        for transient in [false, true] {
            let legal = legalise(transient, &norms);
            assert_eq!((legal.reply, legal.norms[0]), (0, 15));
            assert!(steps(transient, &legal.norms).is_ok());
            assert_eq!(legalise(transient, &legal.norms), legal);
        }
    }
}
