//! The codebook of rate 1 (Tables 18 and 19, with the print's faults mended).

use crate::reply;
use crate::types::{Point, Row};

/// First rows of the classes of 2 and −2: one, then two of them.
const ONE_MINUS: usize = 0;
const ONE_PLUS: usize = 8;
const TWO_MINUS: usize = 16;
const MINUS_PLUS: usize = 44;
const PLUS_MINUS: usize = 72;
const TWO_PLUS: usize = 100;
/// First row of ±1.
const SIGNS_FROM: usize = 128;

/// Rows 128–255 as signs: the top bit is the first place, a one is −1.
#[rustfmt::skip]
static SIGNS: [u8; 128] = [
    0xc0, 0xa0, 0x90, 0x88, 0x84, 0x82, 0x81, 0x60, 0x50, 0x48, 0x44, 0x42, 0x41, 0x30, 0x28, 0x24,
    0x22, 0x21, 0x18, 0x14, 0x12, 0x11, 0x0c, 0x0a, 0x09, 0x06, 0x05, 0x03, 0xf0, 0xe8, 0xe4, 0xe2,
    0xe1, 0xd8, 0xd4, 0xd2, 0xd1, 0xcc, 0xca, 0xc9, 0xc3, 0xc5, 0xc6, 0xb8, 0xb4, 0xb2, 0xb1, 0xac,
    0xaa, 0xa9, 0xa3, 0xa5, 0xa6, 0x8e, 0x8d, 0x8b, 0x87, 0x9c, 0x9a, 0x99, 0x93, 0x95, 0x96, 0x0f,
    0x17, 0x1b, 0x1d, 0x1e, 0x27, 0x2b, 0x2d, 0x2e, 0x33, 0x35, 0x36, 0x3c, 0x3a, 0x39, 0x47, 0x4b,
    0x4d, 0x4e, 0x53, 0x55, 0x56, 0x5c, 0x5a, 0x59, 0x78, 0x74, 0x72, 0x71, 0x63, 0x65, 0x66, 0x6c,
    0x6a, 0x69, 0x3f, 0x5f, 0x6f, 0x77, 0x7b, 0x7d, 0x7e, 0x9f, 0xaf, 0xb7, 0xbb, 0xbd, 0xbe, 0xcf,
    0xd7, 0xdb, 0xdd, 0xde, 0xe7, 0xeb, 0xed, 0xee, 0xf3, 0xf5, 0xf6, 0xf9, 0xfa, 0xfc, 0xff, 0x00,
];

/// The rows as points.
static POINTS: [[i16; 8]; 256] = points();

/// For each byte of signs its row, 0 where there is none.
static ROW_OF_SIGNS: [u8; 256] = row_of_signs();

/// Number of a pair of places in rising order.
const fn pair(first: usize, second: usize) -> usize {
    first * (15 - first) / 2 + second - first - 1
}

const fn points() -> [[i16; 8]; 256] {
    let mut points = [[0; 8]; 256];
    let mut i = 0;
    while i < 8 {
        points[ONE_MINUS + i][i] = -2;
        points[ONE_PLUS + i][i] = 2;
        let mut j = i + 1;
        while j < 8 {
            let pair = pair(i, j);
            (points[TWO_MINUS + pair][i], points[TWO_MINUS + pair][j]) = (-2, -2);
            (points[MINUS_PLUS + pair][i], points[MINUS_PLUS + pair][j]) = (-2, 2);
            (points[PLUS_MINUS + pair][i], points[PLUS_MINUS + pair][j]) = (2, -2);
            (points[TWO_PLUS + pair][i], points[TWO_PLUS + pair][j]) = (2, 2);
            j += 1;
        }
        i += 1;
    }
    let mut row = 0;
    while row < SIGNS.len() {
        let mut at = 0;
        while at < 8 {
            points[SIGNS_FROM + row][at] = 1 - 2 * (SIGNS[row] >> (7 - at) & 1) as i16;
            at += 1;
        }
        row += 1;
    }
    points
}

const fn row_of_signs() -> [u8; 256] {
    let mut rows = [0; 256];
    let mut row = 0;
    while row < SIGNS.len() {
        rows[SIGNS[row] as usize] = (SIGNS_FROM + row) as u8;
        row += 1;
    }
    rows
}

/// The only row that a point can have.
fn likely_row(point: &[i16; 8]) -> usize {
    if point[0] % 2 != 0 {
        let signs = point.iter().fold(0, |signs, &v| signs << 1 | usize::from(v < 0));
        return usize::from(ROW_OF_SIGNS[signs]);
    }
    let mut places = (0..8).filter(|&at| point[at] != 0);
    match (places.next(), places.next()) {
        (None, _) => ONE_MINUS,
        (Some(i), None) if point[i] < 0 => ONE_MINUS + i,
        (Some(i), None) => ONE_PLUS + i,
        (Some(i), Some(j)) => {
            let class = match (point[i] < 0, point[j] < 0) {
                (true, true) => TWO_MINUS,
                (true, false) => MINUS_PLUS,
                (false, true) => PLUS_MINUS,
                (false, false) => TWO_PLUS,
            };
            class + pair(i, j)
        }
    }
}

/// The point of a row.
pub fn codebook_point(rate: u8, index: u16) -> Point {
    match POINTS.get(usize::from(index)) {
        Some(point) if rate == 1 => Point {
            reply: reply::DONE,
            at: *point,
        },
        _ => Point {
            reply: reply::OUT_OF_RANGE,
            at: [0; 8],
        },
    }
}

/// The row of a point.
pub fn codebook_index(rate: u8, point: &[i16; 8]) -> Row {
    let row = likely_row(point);
    if rate != 1 || POINTS[row] != *point {
        return Row {
            reply: reply::OUT_OF_RANGE,
            index: 0,
        };
    }
    Row {
        reply: reply::DONE,
        index: row as u8,
    }
}

#[cfg(test)]
mod tests {
    use super::*;
    use crate::draws::Draws;

    #[test]
    fn every_row_comes_back() {
        for index in 0..256 {
            let point = codebook_point(1, index);
            assert_eq!(point.reply, 0);
            let row = codebook_index(1, &point.at);
            assert_eq!((row.reply, u16::from(row.index)), (0, index));
        }
        assert_eq!(codebook_point(1, 256).reply, 8);
        assert_eq!(codebook_point(2, 0).reply, 8);
        assert_eq!(codebook_index(0, &[1; 8]).reply, 8);
    }

    #[test]
    fn ones_of_the_signs_tell_the_class() {
        let ones = |rows: std::ops::RangeInclusive<usize>| {
            let mut ones: Vec<u32> = rows.map(|row| SIGNS[row - SIGNS_FROM].count_ones()).collect();
            ones.dedup();
            ones
        };
        assert_eq!(ones(128..=155), [2]);
        assert_eq!(ones(156..=225), [4]);
        assert_eq!(ones(226..=253), [6]);
        assert_eq!(ones(254..=255), [8, 0]);
    }

    #[test]
    fn no_other_point_has_a_row() {
        let mut draws = Draws(3);
        for _ in 0..20_000 {
            let point = std::array::from_fn(|_| [-2, -1, 0, 0, 0, 0, 1, 2, 3][draws.below(9)]);
            let row = POINTS.iter().position(|other| *other == point);
            let found = codebook_index(1, &point);
            assert_eq!(found.reply == 0, row.is_some());
            assert_eq!(usize::from(found.index), row.unwrap_or(0));
        }
    }
}
