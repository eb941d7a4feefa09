//! The allotment of a budget to the bands (7.5.2).

use crate::norms::check_indices;
use crate::reply;
use crate::types::{Shares, BANDS};
use crate::weights::weights_and_scores;

/// Largest budget.
const LARGEST_BUDGET: u32 = 2560;
/// Largest rate.
const LARGEST_RATE: u8 = 9;
/// First of the bands that do not always compete.
const FIRST_WIDE: usize = 36;
/// What a score falls by with each step of the rate.
const STEP: i16 = 32;
/// The score of a band that is out, below any other.
const OUT: i16 = i16::MIN;

/// Coefficients of a band.
pub(crate) const fn length(band: usize) -> usize {
    match band {
        0..=15 => 8,
        16..=23 => 16,
        24..=35 => 24,
        _ => 32,
    }
}

/// The competing band of the highest score, the lowest one on ties.
fn highest(scores: &[i16; BANDS]) -> Option<usize> {
    let mut best = 0;
    for band in 1..BANDS {
        if scores[band] > scores[best] {
            best = band;
        }
    }
    (scores[best] != OUT).then_some(best)
}

/// The rates, the bits left and the rounds, for indices up to 39.
pub(crate) fn share(transient: bool, wide: bool, norms: &[u8; BANDS], budget: u32) -> ([u8; BANDS], u32, u16) {
    let (_, mut scores) = weights_and_scores(transient, norms);
    if !wide {
        scores[FIRST_WIDE..].fill(OUT);
    }
    let mut rates = [0; BANDS];
    let mut left = budget;
    let mut rounds = 0;
    while let Some(band) = highest(&scores) {
        rounds += 1;
        let length = length(band) as u32;
        if length > left {
            scores[band] = OUT;
            continue;
        }
        left -= length;
        rates[band] += 1;
        scores[band] = if rates[band] == LARGEST_RATE {
            OUT
        } else {
            scores[band] - STEP
        };
    }
    (rates, left, rounds)
}

/// The rates of the bands, the bits left and the rounds; bands 36–43 compete only if `wide`.
pub fn allot(transient: bool, wide: bool, norms: &[u8; BANDS], budget: u32) -> Shares {
    if check_indices(norms).is_err() || budget > LARGEST_BUDGET {
        return Shares {
            reply: reply::OUT_OF_RANGE,
            rates: [0; BANDS],
            left: 0,
            rounds: 0,
        };
    }
    let (rates, left, rounds) = share(transient, wide, norms, budget);
    Shares {
        reply: reply::DONE,
        rates,
        left: left as u16,
        rounds,
    }
}

#[cfg(test)]
mod tests {
    use super::*;

    #[test]
    fn shares_of_the_examples() {
        let found = allot(false, true, &[20; BANDS], 414);
        let mut rates = [0; BANDS];
        rates[..30].fill(1);
        rates[0] = 2;
        assert_eq!((found.reply, found.rates, found.left, found.rounds), (0, rates, 6, 75));

        let found = allot(false, true, &[20; BANDS], 500);
        let mut rates = [0; BANDS];
        rates[..34].fill(1);
        assert_eq!((found.reply, found.rates, found.left, found.rounds), (0, rates, 4, 78));
    }

    /// Rates and bits left add up to the budget, what is left fits no
    /// competing band below rate 9, and each round is a step or the end of a
    /// competing band below 9.
    #[test]
    fn nothing_servable_is_left() {
        for budget in 0..=2560 {
            for wide in [false, true] {
                let mut norms = [0; BANDS];
                for (band, norm) in norms.iter_mut().enumerate() {
                    *norm = ((band * 7 + budget as usize) % 40) as u8;
                }
                let found = allot(budget % 2 == 0, wide, &norms, budget);
                let competing = if wide { BANDS } else { FIRST_WIDE };
                let used: usize = (0..BANDS)
                    .map(|band| usize::from(found.rates[band]) * length(band))
                    .sum();
                assert_eq!(used + usize::from(found.left), budget as usize);
                assert!((0..competing).all(|band| found.rates[band] == 9 || length(band) > found.left.into()));
                assert!(found.rates[competing..].iter().all(|&rate| rate == 0));
                let out = found.rates[..competing].iter().filter(|&&rate| rate < 9).count();
                let steps: usize = found.rates.iter().map(|&rate| usize::from(rate)).sum();
                assert_eq!(usize::from(found.rounds), steps + out);
            }
        }
    }
}
