//! The lattice of rates 2–9 (7.6.2).

use crate::reply;
use crate::types::{Index, Point};

/// Changes the first place of largest |e| so that the rounded sum is even.
fn make_even(rounded: &mut [i32; 8], errors: &[i32; 8]) {
    let mut place = 0;
    for at in 1..8 {
        if errors[at].abs() > errors[place].abs() {
            place = at;
        }
    }
    rounded[place] += if errors[place] > 0 { 1 } else { -1 };
}

/// The point of an index that fits its rate.
fn point_of(rate: u8, index: &[u16; 8]) -> [i16; 8] {
    let r = 1 << rate;
    let mut x = index.map(i32::from);
    x[0] += x.iter().sum::<i32>();
    // The nearest whole number to x/r, half downwards; no x is negative.
    let mut rounded = x.map(|x| (x + r / 2 - 1) >> rate);
    if rounded.iter().sum::<i32>() % 2 != 0 {
        let errors = std::array::from_fn(|at| x[at] - r * rounded[at]);
        make_even(&mut rounded, &errors);
    }
    std::array::from_fn(|at| (x[at] - r * rounded[at]) as i16)
}

/// The point of an index.
pub fn lattice_point(rate: u8, index: &[u16; 8]) -> Point {
    if !(2..=9).contains(&rate) || index.iter().any(|&k| k >> rate != 0) {
        return Point {
            reply: reply::OUT_OF_RANGE,
            at: [0; 8],
        };
    }
    Point {
        reply: reply::DONE,
        at: point_of(rate, index),
    }
}

/// The index that names a point, if one does.
fn index_of(rate: u8, point: &[i16; 8]) -> Option<[u16; 8]> {
    let v = point.map(i32::from);
    let difference = 2 * v[0] - v.iter().sum::<i32>();
    if difference % 2 != 0 {
        return None;
    }
    let mut index = v;
    index[0] = difference / 2;
    let index = index.map(|k| (k & ((1 << rate) - 1)) as u16);
    (point_of(rate, &index) == *point).then_some(index)
}

/// The index that names a point.
pub fn lattice_index(rate: u8, point: &[i16; 8]) -> Index {
    let found = match rate {
        2..=9 => index_of(rate, point),
        _ => None,
    };
    match found {
        Some(at) => Index {
            reply: reply::DONE,
            at,
        },
        None => Index {
            reply: reply::OUT_OF_RANGE,
            at: [0; 8],
        },
    }
}

#[cfg(test)]
mod tests {
    use super::*;
    use crate::draws::Draws;

    #[test]
    fn points_of_the_examples() {
        for (k, v) in [(1, 2), (2, 4), (3, -2)] {
            let found = lattice_point(2, &[k, 0, 0, 0, 0, 0, 0, 0]);
            assert_eq!((found.reply, found.at), (0, [v, 0, 0, 0, 0, 0, 0, 0]));
        }
        let found = lattice_point(2, &[0, 3, 0, 0, 0, 0, 0, 0]);
        assert_eq!(found.at, [-1, -1, 0, 0, 0, 0, 0, 0]);
    }

    #[test]
    fn all_indices_of_rate_2_come_back() {
        for number in 0..1u32 << 16 {
            let index = std::array::from_fn(|at| (number >> (2 * at) & 3) as u16);
            let point = lattice_point(2, &index);
            assert_eq!(lattice_index(2, &point.at).at, index);
        }
    }

    #[test]
    fn indices_of_every_rate_come_back() {
        let mut draws = Draws(2);
        for rate in 2..=9 {
            for _ in 0..2000 {
                let index = std::array::from_fn(|_| draws.below(1 << rate) as u16);
                let point = lattice_point(rate, &index);
                assert!(point.at.iter().map(|&v| i32::from(v)).sum::<i32>() % 2 == 0);
                assert_eq!(lattice_index(rate, &point.at).at, index);
            }
        }
    }

    #[test]
    fn the_ends_of_sixteen_bits() {
        for v in [i16::MIN, i16::MAX] {
            assert_eq!(lattice_index(9, &[v; 8]).reply, 8);
        }
        assert_eq!(
            lattice_index(9, &[i16::MAX, i16::MIN, i16::MIN, 0, 0, 0, 0, 0]).reply,
            8
        );
    }
}
