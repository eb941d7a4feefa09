//! Weights and scores (7.5.1), counted in 1/720.

use crate::norms::check_indices;
use crate::reply;
use crate::types::{Weights, BANDS};

/// Rows of Table 17.
const ROWS: usize = 20;
/// One, in the unit of the count.
const ONE: i32 = 720;

/// A row of Table 17: the first and the number of its bands, T and A.
struct Row {
    first: usize,
    bands: usize,
    t: i32,
    a: i32,
}

const fn row(first: usize, bands: usize, t: i32, a: i32) -> Row {
    Row { first, bands, t, a }
}

/// Table 17. H is the number of bands of the row.
static TABLE_17: [Row; ROWS] = [
    row(0, 1, 3, 8),
    row(1, 1, 3, 6),
    row(2, 1, 3, 3),
    row(3, 1, 3, 3),
    row(4, 1, 3, 3),
    row(5, 1, 3, 3),
    row(6, 1, 3, 3),
    row(7, 1, 3, 3),
    row(8, 1, 3, 3),
    row(9, 1, 3, 3),
    row(10, 2, 4, 3),
    row(12, 2, 4, 3),
    row(14, 2, 4, 3),
    row(16, 2, 5, 3),
    row(18, 2, 5, 3),
    row(20, 4, 6, 3),
    row(24, 3, 6, 4),
    row(27, 3, 6, 5),
    row(30, 5, 7, 7),
    row(35, 9, 8, 11),
];

/// Loudness of a norm index.
fn loudness(norm: u8) -> i32 {
    34 - i32::from(norm)
}

/// Equation (23).
fn spectrum(transient: bool, norms: &[u8; BANDS]) -> [i32; BANDS] {
    let mut spe = norms.map(|norm| ONE * loudness(norm));
    if transient {
        for four in spe.chunks_exact_mut(4) {
            let mean = four.iter().sum::<i32>() / 4;
            four.fill(mean);
        }
    }
    spe
}

/// Equations (24) to (27).
fn map_rows(spe: &[i32; BANDS]) -> [i32; ROWS] {
    let mut b = [0; ROWS];
    for (b, row) in b.iter_mut().zip(&TABLE_17) {
        let sum: i32 = spe[row.first..row.first + row.bands].iter().sum();
        *b = sum / row.bands as i32 + ONE * row.t;
    }
    for at in 1..ROWS {
        b[at] = b[at].max(b[at - 1] - 4 * ONE);
    }
    for at in (0..ROWS - 1).rev() {
        b[at] = b[at].max(b[at + 1] - 8 * ONE);
    }
    for (b, row) in b.iter_mut().zip(&TABLE_17) {
        *b = ONE * row.t - (*b).max(ONE * row.a);
    }
    b
}

/// Equations (28) to (30): 64 at the highest row, 0 at the lowest.
fn band_weights(transient: bool, b: &[i32; ROWS]) -> [u8; BANDS] {
    let min = b.iter().copied().fold(i32::MAX, i32::min);
    let max = b.iter().copied().fold(i32::MIN, i32::max);
    let mut weights = [0; BANDS];
    if max == min {
        return weights;
    }
    for (b, row) in b.iter().zip(&TABLE_17) {
        let weight = 64 * (b - min) / (max - min);
        weights[row.first..row.first + row.bands].fill(weight as u8);
    }
    if transient {
        for four in weights.chunks_exact_mut(4) {
            let sum: u16 = four.iter().map(|&weight| u16::from(weight)).sum();
            four.fill((sum / 4) as u8);
        }
    }
    weights
}

/// The weights and the scores, 16 × loudness + weight, of indices up to 39.
pub(crate) fn weights_and_scores(transient: bool, norms: &[u8; BANDS]) -> ([u8; BANDS], [i16; BANDS]) {
    let weights = band_weights(transient, &map_rows(&spectrum(transient, norms)));
    let mut scores = [0; BANDS];
    for ((score, &norm), &weight) in scores.iter_mut().zip(norms).zip(&weights) {
        *score = 16 * loudness(norm) as i16 + i16::from(weight);
    }
    (weights, scores)
}

/// The weights and scores of the bands.
pub fn weigh(transient: bool, norms: &[u8; BANDS]) -> Weights {
    if let Err(reply) = check_indices(norms) {
        return Weights {
            reply,
            weights: [0; BANDS],
            scores: [0; BANDS],
        };
    }
    let (weights, scores) = weights_and_scores(transient, norms);
    Weights {
        reply: reply::DONE,
        weights,
        scores,
    }
}

#[cfg(test)]
mod tests {
    use super::*;

    #[test]
    fn weights_of_the_example() {
        let mut norms = [20; BANDS];
        norms[0] = 0;
        let found = weigh(false, &norms);
        let mut weights = [64; BANDS];
        weights[..5].copy_from_slice(&[0, 12, 25, 38, 51]);
        assert_eq!(found.weights, weights);
        assert_eq!((found.scores[0], found.scores[1]), (544, 236));
    }

    /// The count in 1/720 leaves no remainder.
    #[test]
    fn divisions_are_exact() {
        assert!(TABLE_17.iter().all(|row| ONE / 4 % row.bands as i32 == 0));
        let bands: usize = TABLE_17.iter().map(|row| row.bands).sum();
        assert_eq!(bands, BANDS);
    }
}
