//! Coefficient codes of a frame (7.6, 8.3): bands ascending, eight places at
//! a time.

use crate::allotment::length;
use crate::bits::{BitReader, BitWriter};
use crate::reply;
use crate::types::{BANDS, CODES};
use crate::words::{column, put_word, take_word, word_bits, Lookup, Word};

/// Bits of a rate-1 index, which stands for eight places.
const ROW_BITS: u32 = 8;

pub type Codes = [u16; CODES];
pub type Rates = [u8; BANDS];

/// Where each band begins, and the end of the last one.
const START: [usize; BANDS + 1] = {
    let mut start = [0; BANDS + 1];
    let mut band = 0;
    while band < BANDS {
        start[band + 1] = start[band] + length(band);
        band += 1;
    }
    start
};

/// The places of a band.
#[inline]
pub fn places(band: usize) -> std::ops::Range<usize> {
    START[band]..START[band + 1]
}

/// How the codes of a band are written.
enum Kind {
    Nothing,
    Rows,
    Fixed(u32),
    Words(&'static [Word], &'static Lookup),
}

fn kind(rate: u8, flag_c: bool) -> Kind {
    match (rate, column(rate)) {
        (0, _) => Kind::Nothing,
        (1, _) => Kind::Rows,
        (_, Some((words, lookup))) if flag_c => Kind::Words(words, lookup),
        _ => Kind::Fixed(u32::from(rate)),
    }
}

fn take_fixed(bits: &mut BitReader, width: u32, end: usize) -> Result<u16, u8> {
    if bits.at() + width as usize > end {
        return Err(reply::PAST_BUDGET);
    }
    Ok(bits.take(width))
}

/// Takes the codes that stand before `end`, or gives reply 6 or 7, whichever
/// is met first. Unused places stay 0.
pub(crate) fn take_codes(bits: &mut BitReader, rates: &Rates, flag_c: bool, end: usize) -> Result<Codes, u8> {
    let mut codes = [0; CODES];
    for (band, &rate) in rates.iter().enumerate() {
        let codes = &mut codes[places(band)];
        match kind(rate, flag_c) {
            Kind::Nothing => {}
            Kind::Rows => {
                for eight in codes.chunks_exact_mut(8) {
                    eight[0] = take_fixed(bits, ROW_BITS, end)?;
                }
            }
            Kind::Fixed(width) => {
                for code in codes {
                    *code = take_fixed(bits, width, end)?;
                }
            }
            Kind::Words(_, lookup) => {
                for code in codes {
                    *code = u16::from(take_word(bits, lookup, end)?);
                }
            }
        }
    }
    Ok(codes)
}

/// Writes codes that fit their rates.
pub fn put_codes(bits: &mut BitWriter, rates: &Rates, flag_c: bool, codes: &Codes) {
    for (band, &rate) in rates.iter().enumerate() {
        let codes = &codes[places(band)];
        match kind(rate, flag_c) {
            Kind::Nothing => {}
            Kind::Rows => {
                for eight in codes.chunks_exact(8) {
                    bits.put(eight[0], ROW_BITS);
                }
            }
            Kind::Fixed(width) => {
                for &code in codes {
                    bits.put(code, width);
                }
            }
            Kind::Words(words, _) => {
                for &code in codes {
                    put_word(bits, words[usize::from(code)]);
                }
            }
        }
    }
}

/// Reply 12 for a code too wide for its rate or an unused place not 0.
pub(crate) fn check_codes(rates: &Rates, codes: &Codes) -> Result<(), u8> {
    let fits = |band: usize, rate: u8| {
        let codes = &codes[places(band)];
        match rate {
            1 => codes
                .chunks_exact(8)
                .all(|eight| eight[0] >> ROW_BITS == 0 && eight[1..].iter().all(|&code| code == 0)),
            // Rate 0 leaves a code no bit: all must be 0.
            _ => codes.iter().fold(0, |all, &code| all | code) >> rate == 0,
        }
    };
    if rates.iter().enumerate().all(|(band, &rate)| fits(band, rate)) {
        Ok(())
    } else {
        Err(reply::WIDE_CODE)
    }
}

/// Bits of the words of these codes.
fn bits_in_words(words: &[Word], codes: &[u16]) -> u32 {
    codes
        .iter()
        .map(|&code| word_bits(words[usize::from(code)]))
        .sum()
}

/// Bits of codes that fit their rates.
pub fn code_bits(rates: &Rates, flag_c: bool, codes: &Codes) -> u32 {
    let bits_of = |(band, &rate): (usize, &u8)| match kind(rate, flag_c) {
        Kind::Words(words, _) => bits_in_words(words, &codes[places(band)]),
        _ => u32::from(rate) * length(band) as u32,
    };
    rates.iter().enumerate().map(bits_of).sum()
}

#[cfg(test)]
mod tests {
    use super::*;

    #[test]
    fn bands_fill_the_places() {
        assert_eq!(START[BANDS], CODES);
        assert_eq!((START[16], START[24], START[36]), (128, 256, 544));
    }

    #[test]
    fn codes_must_fit() {
        for rate in 0..=9u8 {
            let mut rates = [0; BANDS];
            rates[17] = rate;
            let first = START[17];
            let place_bits = if rate == 1 { 8 } else { u32::from(rate) };
            for (place, bits) in [
                (first, place_bits),
                (first + 1, if rate == 1 { 0 } else { place_bits }),
            ] {
                let mut codes = [0; CODES];
                codes[place] = ((1u32 << bits) - 1) as u16;
                assert_eq!(check_codes(&rates, &codes), Ok(()));
                codes[place] = 1 << bits;
                assert_eq!(check_codes(&rates, &codes), Err(12));
            }
        }
    }
}
