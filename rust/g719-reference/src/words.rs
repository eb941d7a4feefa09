//! The words of Tables 16 and 20, read left to right.

use crate::bits::{BitReader, BitWriter};
use crate::reply;

/// A word: its bits, the last one lowest, and their number.
#[derive(Clone, Copy)]
pub struct Word {
    bits: u8,
    length: u8,
}

/// The word that some seven bits begin with. 1111110 in the 5-bit column is
/// a word of length 7 without an index.
#[derive(Clone, Copy)]
pub struct Found {
    index: Option<u8>,
    length: u8,
}

/// For each number of seven bits the word it begins with.
pub type Lookup = [Found; 128];

/// Longest word of both tables.
const LONGEST: u32 = 7;

const fn words<const N: usize>(print: [&str; N]) -> [Word; N] {
    let mut words = [Word { bits: 0, length: 0 }; N];
    let mut index = 0;
    while index < N {
        let print = print[index].as_bytes();
        let mut at = 0;
        while at < print.len() {
            words[index].bits = words[index].bits << 1 | (print[at] - b'0');
            at += 1;
        }
        words[index].length = print.len() as u8;
        index += 1;
    }
    words
}

const fn lookup(words: &[Word]) -> Lookup {
    let none = Found {
        index: None,
        length: LONGEST as u8,
    };
    let mut lookup = [none; 128];
    let mut index = 0;
    while index < words.len() {
        let Word { bits, length } = words[index];
        let spare = LONGEST - length as u32;
        let mut rest = 0;
        while rest < 1 << spare {
            lookup[((bits as usize) << spare) + rest] = Found {
                index: Some(index as u8),
                length,
            };
            rest += 1;
        }
        index += 1;
    }
    lookup
}

/// Table 16, by difference plus 15.
#[rustfmt::skip]
static TABLE_16: [Word; 32] = words([
    "0011010", "0111010", "1011010", "1111010", "0011011", "0111011", "1011011", "1111011",
    "001100",  "011100",  "101100",  "111100",  "0010",    "0110",    "100",     "110",
    "000",     "010",     "1010",    "1110",    "001110",  "011110",  "101110",  "111110",
    "0011110", "0111110", "1011110", "1111110", "0011111", "0111111", "1011111", "1111111",
]);

/// Table 20, one column for each rate.
static COLUMN_2: [Word; 4] = words(["0", "110", "111", "10"]);
static COLUMN_3: [Word; 8] = words(["00", "01", "1001", "10000", "10001", "1010", "1011", "11"]);
#[rustfmt::skip]
static COLUMN_4: [Word; 16] = words([
    "00",     "110",   "0110",  "0111",  "10100", "10101", "10110", "101110",
    "101111", "10000", "10001", "10010", "10011", "0100",  "0101",  "111",
]);
#[rustfmt::skip]
static COLUMN_5: [Word; 32] = words([
    "00",      "010",     "1000",    "10100",   "10101",   "110000",  "110001",  "110010",
    "110011",  "1110000", "1110001", "1110010", "1110011", "1110100", "1110101", "1110110",
    "1110111", "1111000", "1111001", "1111010", "1111011", "1111100", "1111101", "1111111",
    "110100",  "110101",  "110110",  "110111",  "10110",   "10111",   "1001",    "011",
]);

static LOOKUP_16: Lookup = lookup(&TABLE_16);
static LOOKUP_20: [Lookup; 4] = [
    lookup(&COLUMN_2),
    lookup(&COLUMN_3),
    lookup(&COLUMN_4),
    lookup(&COLUMN_5),
];

/// The words of differences plus 15.
pub(crate) fn difference_words() -> (&'static [Word], &'static Lookup) {
    (&TABLE_16, &LOOKUP_16)
}

/// The words of a rate; none outside 2–5.
#[inline]
pub fn column(rate: u8) -> Option<(&'static [Word], &'static Lookup)> {
    match rate {
        2 => Some((&COLUMN_2, &LOOKUP_20[0])),
        3 => Some((&COLUMN_3, &LOOKUP_20[1])),
        4 => Some((&COLUMN_4, &LOOKUP_20[2])),
        5 => Some((&COLUMN_5, &LOOKUP_20[3])),
        _ => None,
    }
}

/// Takes a word that must be complete before `end`: reply 7 if it is not,
/// reply 6 for the word that the column does not have.
pub(crate) fn take_word(bits: &mut BitReader, lookup: &Lookup, end: usize) -> Result<u8, u8> {
    let found = lookup[usize::from(bits.peek(LONGEST))];
    if bits.at() + usize::from(found.length) > end {
        return Err(reply::PAST_BUDGET);
    }
    bits.skip(u32::from(found.length));
    found.index.ok_or(reply::NO_WORD)
}

pub fn put_word(bits: &mut BitWriter, word: Word) {
    bits.put(u16::from(word.bits), u32::from(word.length));
}

/// Bits of a word.
#[inline]
pub fn word_bits(word: Word) -> u32 {
    u32::from(word.length)
}

#[cfg(test)]
mod tests {
    use super::*;

    fn holes(lookup: &Lookup) -> Vec<usize> {
        (0..128).filter(|&seven| lookup[seven].index.is_none()).collect()
    }

    /// No word begins another one, and only 1111110 is missing.
    #[test]
    fn words_share_out_all_sevens() {
        for (words, lookup) in [
            difference_words(),
            column(2).unwrap(),
            column(3).unwrap(),
            column(4).unwrap(),
        ] {
            let covered: u32 = words.iter().map(|word| 1 << (LONGEST - word_bits(*word))).sum();
            assert_eq!((covered, holes(lookup)), (128, vec![]));
        }
        let (words, lookup) = column(5).unwrap();
        let covered: u32 = words.iter().map(|word| 1 << (LONGEST - word_bits(*word))).sum();
        assert_eq!((covered, holes(lookup)), (127, vec![0b111_1110]));
    }

    #[test]
    fn each_word_comes_back() {
        for rate in 2..=5 {
            let (words, lookup) = column(rate).unwrap();
            for (index, word) in words.iter().enumerate() {
                let body = [word.bits << (8 - word.length)];
                let end = usize::from(word.length);
                assert_eq!(
                    take_word(&mut BitReader::new(&body), lookup, end),
                    Ok(index as u8)
                );
                assert_eq!(take_word(&mut BitReader::new(&body), lookup, end - 1), Err(7));
            }
        }
    }

    #[test]
    fn the_missing_word() {
        let (_, lookup) = column(5).unwrap();
        assert_eq!(take_word(&mut BitReader::new(&[0xfc]), lookup, 7), Err(6));
        assert_eq!(take_word(&mut BitReader::new(&[0xfc]), lookup, 6), Err(7));
    }
}
