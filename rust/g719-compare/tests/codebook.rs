//! Table 18 from its print: unsound rows are found and filled by the rule.

use g719_reference::codebook_point;
use std::ops::RangeInclusive;

type Vector = Vec<i16>;

/// The printed rows; the print's second "240" stands as row 242.
fn printed() -> Vec<Vector> {
    let line = |(number, line): (usize, &str)| {
        let (row, vector) = line.split_once(':').unwrap();
        assert_eq!(row.parse(), Ok(number));
        vector.split_whitespace().map(|v| v.parse().unwrap()).collect()
    };
    include_str!("table18_print.txt")
        .lines()
        .enumerate()
        .map(line)
        .collect()
}

/// The vectors with the same numbers as `leader`, smaller numbers first.
fn class(leader: [i16; 8]) -> Vec<Vector> {
    let mut leader = leader.to_vec();
    leader.sort_unstable();
    let mut vectors = vec![vec![]];
    for _ in 0..8 {
        let longer = |vector: &Vector| {
            let longer: Vec<Vector> = [-2, -1, 0, 1, 2]
                .into_iter()
                .map(|v| [vector.as_slice(), &[v]].concat())
                .filter(|vector| {
                    let count = |of: &[i16], v| of.iter().filter(|&&other| other == v).count();
                    vector.iter().all(|&v| count(vector, v) <= count(&leader, v))
                })
                .collect();
            longer
        };
        vectors = vectors.iter().flat_map(longer).collect();
    }
    vectors
}

/// Fills the unsound rows of a class; gives them.
fn fill(rows: &mut [Vector], range: RangeInclusive<usize>, leader: [i16; 8]) -> Vec<usize> {
    let class = class(leader);
    assert_eq!(class.len(), range.clone().count());
    let first = *range.start();
    let sound =
        |row: usize, rows: &[Vector]| class.contains(&rows[row]) && !rows[first..row].contains(&rows[row]);
    let unsound: Vec<usize> = range.clone().filter(|&row| !sound(row, rows)).collect();
    let missing: Vec<Vector> = class
        .iter()
        .filter(|vector| !rows[range.clone()].contains(vector))
        .cloned()
        .collect();
    assert_eq!(unsound.len(), missing.len());
    for (&row, vector) in unsound.iter().zip(missing) {
        rows[row] = vector;
    }
    unsound
}

fn filled() -> (Vec<Vector>, Vec<usize>) {
    let mut rows = printed();
    let mut unsound = Vec::new();
    for (range, leader) in [
        (0..=7, [0, 0, 0, 0, 0, 0, 0, -2]),
        (8..=15, [2, 0, 0, 0, 0, 0, 0, 0]),
        (16..=43, [0, 0, 0, 0, 0, 0, -2, -2]),
        (44..=99, [2, 0, 0, 0, 0, 0, 0, -2]),
        (100..=127, [2, 2, 0, 0, 0, 0, 0, 0]),
        (128..=155, [1, 1, 1, 1, 1, 1, -1, -1]),
        (156..=225, [1, 1, 1, 1, -1, -1, -1, -1]),
        (254..=254, [-1; 8]),
        (255..=255, [1; 8]),
    ] {
        unsound.extend(fill(&mut rows, range, leader));
    }
    let mut row = 226;
    for first in 0..8 {
        for second in first + 1..8 {
            rows[row] = vec![-1; 8];
            rows[row][first] = 1;
            rows[row][second] = 1;
            row += 1;
        }
    }
    (rows, unsound)
}

#[test]
fn the_rows_are_those_of_the_rule() {
    let (rows, unsound) = filled();
    let expected: Vec<usize> = (129..=155).chain([166, 179, 181, 183, 184]).collect();
    assert_eq!(unsound, expected);
    for (index, row) in rows.iter().enumerate() {
        let point = codebook_point(1, index as u16);
        assert_eq!((point.reply, &point.at[..]), (0, &row[..]), "row {index}");
    }
}

#[test]
fn rows_that_change() {
    let (rows, unsound) = filled();
    let print = printed();
    let changed: Vec<usize> = (0..256).filter(|&row| rows[row] != print[row]).collect();
    let pairs = [232, 238, 243, 245, 247, 250, 252];
    assert_eq!(changed, [&unsound[..], &pairs].concat());
    for row in 129..=155 {
        assert_eq!((&rows[row][..], 1), (&print[row][..8], print[row][8]));
    }
}
