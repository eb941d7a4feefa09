//! Bytes for the frame reader.

use super::records::{band_of, bits_before, sound, tune, Sound};
use super::room;
use crate::random::Random;
use g719_reference::pieces::{column, places, put_codes, put_norms, put_word, sent_order, BitWriter, Steps};
use g719_reference::types::{Record, CODES, FRAME_BYTES, TAIL_BYTES};
use g719_reference::{read_prefix, write, write_prefix};

/// Input of the frame reader.
#[derive(Clone, Debug)]
pub struct ReadCase {
    pub src: Vec<u8>,
    pub codes: Vec<u16>,
    pub tail: Vec<u8>,
}

/// More bits than any body with words of any cost.
const SCRATCH_BYTES: usize = 1000;
/// The word that the 5-bit column does not have.
const MISSING: u16 = 0b111_1110;

/// Body bits before the codes: flags and norms.
fn head_bits(src: &[u8], sound: &Sound) -> usize {
    let noise_bits = if sound.record.transient { 0 } else { 2 };
    8 * (src.len() - 1) - noise_bits - sound.plan.budget as usize
}

fn frame_of(sound: &Sound) -> Vec<u8> {
    let mut out = vec![0; FRAME_BYTES];
    let writing = write(&sound.record, &sound.codes, &sound.tail, &mut out);
    out.truncate(writing.next);
    out
}

/// A sound frame.
pub(super) fn sound_frame(random: &mut Random) -> Vec<u8> {
    frame_of(&sound(random))
}

fn flip(src: &mut [u8], bit: usize) {
    src[1 + bit / 8] ^= 0x80 >> (bit % 8);
}

/// A frame with some bits turned over, in its flags, norms or codes.
fn flipped(random: &mut Random) -> Vec<u8> {
    let sound = sound(random);
    let mut src = frame_of(&sound);
    let head = head_bits(&src, &sound);
    let (from, to) = random.pick(&[(0, 4), (3, 4), (4, head), (head, 8 * (src.len() - 1))]);
    for _ in 0..random.pick(&[1, 1, 2, 9]) {
        flip(&mut src, from + random.below(to - from));
    }
    src
}

/// Begins a body with flags and norms.
fn put_head(bits: &mut BitWriter, record: &Record, steps: &Steps) {
    for flag in [record.transient, record.flag_l, record.flag_n, record.flag_c] {
        bits.put_flag(flag);
    }
    put_norms(bits, record.norms[0], record.flag_n, steps);
}

/// Cuts a body to its mode's size and puts the prefix byte before it.
fn with_prefix(mode: u8, body: &[u8]) -> Vec<u8> {
    let mut src = vec![write_prefix(mode).byte];
    let bytes = usize::from(read_prefix(&src).bytes);
    src.extend_from_slice(&body[..bytes]);
    src
}

/// Fills the rest of a body with random bits.
fn put_rest(random: &mut Random, bits: &mut BitWriter) {
    while bits.at() < 8 * SCRATCH_BYTES - 32 {
        bits.put(random.next() as u16, 16);
    }
}

/// A frame whose norms leave 0–39, for one index only if it can be.
fn norm_outside(random: &mut Random) -> Vec<u8> {
    let sound = sound(random);
    let record = &sound.record;
    let order = sent_order(record.transient);
    let mut steps = sound.plan.steps;
    let from = random.below(43);
    for at in (0..43).map(|at| (at + from) % 43) {
        let before = i32::from(record.norms[order[at]]);
        let outside = random.pick(&[before + 16, before - 15, 40, -1]);
        if (0..40).contains(&outside) || !(-15..=16).contains(&(outside - before)) {
            continue;
        }
        steps[at] = (outside - before + 15) as u8;
        if let Some(&after) = order.get(at + 2) {
            let back = i32::from(record.norms[after]) - outside;
            steps[at + 1] = (back.clamp(-15, 16) + 15) as u8;
        }
        break;
    }
    let mut body = [0; SCRATCH_BYTES];
    let mut bits = BitWriter::new(&mut body);
    put_head(&mut bits, record, &steps);
    put_rest(random, &mut bits);
    bits.finish();
    with_prefix(record.mode, &body)
}

/// A sound frame and one of its rate-5 places, if it has any. With `to_end`
/// that is the last one, and the codes before it lead a word of seven bits to
/// the budget's end, if they can.
fn place_at_5(random: &mut Random, to_end: bool) -> (Sound, Option<usize>, bool) {
    let mut sound = sound(random);
    let rates = sound.plan.rates;
    let at_5: Vec<usize> = (0..CODES).filter(|&place| rates[band_of(place)] == 5).collect();
    let Some(&last) = at_5.last() else {
        return (sound, None, false);
    };
    if !to_end {
        return (sound, Some(random.pick(&at_5)), true);
    }
    let target = i64::from(sound.plan.budget) - 7 + i64::from(random.between(-2, 7));
    let reached = tune(random, &rates, &mut sound.codes, last, target);
    (sound, Some(last), reached)
}

/// The word 1111110 at a rate-5 place; `to_end` moves it to the budget's end.
/// Gives the bits by which it goes past the budget too, if it was planted.
fn missing_word(random: &mut Random, to_end: bool) -> (Vec<u8>, Option<i64>) {
    let (mut sound, mut place, mut reached) = place_at_5(random, to_end);
    for _ in 0..20 {
        if !reached {
            (sound, place, reached) = place_at_5(random, to_end);
        }
    }
    let Some(place) = place else {
        sound.finish(random);
        return (frame_of(&sound), None);
    };
    sound.record.flag_c = true;
    let mut body = [0; SCRATCH_BYTES];
    let mut bits = BitWriter::new(&mut body);
    put_head(&mut bits, &sound.record, &sound.plan.steps);
    put_codes_before(&mut bits, &sound, place);
    bits.put(MISSING, 7);
    put_rest(random, &mut bits);
    bits.finish();
    let past = bits_before(&sound.plan.rates, &sound.codes, place) + 7 - i64::from(sound.plan.budget);
    (with_prefix(sound.record.mode, &body), Some(past))
}

/// Writes the codes before a place of rate 2–5, with words.
fn put_codes_before(bits: &mut BitWriter, sound: &Sound, place: usize) {
    let band = band_of(place);
    let mut rates = sound.plan.rates;
    let rate = rates[band];
    rates[band..].fill(0);
    put_codes(bits, &rates, true, &sound.codes);
    if let Some((words, _)) = column(rate) {
        for at in places(band).start..place {
            put_word(bits, words[usize::from(sound.codes[at])]);
        }
    }
}

/// A frame with words that end a little before, at or after the budget's
/// end. Gives the bits by which they go past it too.
fn near_the_end(random: &mut Random) -> (Vec<u8>, i64) {
    let mut sound = sound(random);
    let target = i64::from(sound.plan.budget) + i64::from(random.between(-1, 3));
    let rates = sound.plan.rates;
    tune(random, &rates, &mut sound.codes, CODES, target);
    sound.record.flag_c = true;
    let mut body = [0; SCRATCH_BYTES];
    let mut bits = BitWriter::new(&mut body);
    put_head(&mut bits, &sound.record, &sound.plan.steps);
    put_codes(&mut bits, &rates, true, &sound.codes);
    put_rest(random, &mut bits);
    bits.finish();
    let past = bits_before(&rates, &sound.codes, CODES) - i64::from(sound.plan.budget);
    (with_prefix(sound.record.mode, &body), past)
}

/// A frame with a damaged prefix byte, or cut.
fn damaged_prefix(random: &mut Random) -> Vec<u8> {
    let mut src = sound_frame(random);
    match random.below(4) {
        0 => src[0] |= 0x80,
        1 => src[0] = random.pick(&[1, 2, 7, 28, 29, 31]) << 2,
        2 => src[0] = random.below(128) as u8,
        _ => src.truncate(random.pick(&[0, 1, 2, 80])),
    }
    if random.flag() {
        src.truncate(src.len().saturating_sub(1));
    }
    src
}

/// A frame, sound or damaged.
pub(super) fn any_frame(random: &mut Random) -> Vec<u8> {
    let mut src = match random.below(16) {
        0..=3 => sound_frame(random),
        4..=6 => flipped(random),
        7 => norm_outside(random),
        8 | 9 => missing_word(random, false).0,
        10 => missing_word(random, true).0,
        11 => near_the_end(random).0,
        12 => vec![random.below(4) as u8],
        13 => {
            let mut src = random.bytes(FRAME_BYTES);
            src[0] &= 0x7f;
            src
        }
        _ => damaged_prefix(random),
    };
    if let Some(byte) = src.first_mut().filter(|_| random.once_in(3)) {
        *byte |= random.below(4) as u8;
    }
    src
}

pub fn read_case(seed: u64) -> ReadCase {
    let mut random = Random::new(seed);
    let mut src = any_frame(&mut random);
    match random.below(6) {
        0 => src.truncate(random.below(src.len() + 1)),
        1 | 2 => {
            let count = random.below(20);
            src.extend(random.bytes(count));
        }
        _ => {}
    }
    let codes = room(&mut random, CODES);
    let tail = room(&mut random, TAIL_BYTES);
    ReadCase {
        src,
        codes: random.numbers(codes),
        tail: random.bytes(tail),
    }
}

#[cfg(test)]
mod tests {
    use super::*;
    use g719_reference::read;
    use std::collections::BTreeMap;

    fn reply(src: &[u8]) -> u8 {
        read(src, &mut [0; CODES], &mut [0; TAIL_BYTES]).reply
    }

    /// Reply 6 if the word is complete within the budget, else 7; each place
    /// about the budget's end is met.
    #[test]
    fn the_missing_word_at_the_end() {
        let mut random = Random::new(4);
        let mut met = BTreeMap::new();
        for _ in 0..4000 {
            let to_end = random.flag();
            if let (src, Some(past)) = missing_word(&mut random, to_end) {
                assert_eq!(reply(&src), if past > 0 { 7 } else { 6 }, "{past}");
                *met.entry(past).or_insert(0) += 1;
            }
        }
        assert!(
            (-2..=7).all(|past| met.get(&past) > Some(&60)),
            "{:?}",
            met.range(-3..9)
        );
    }

    /// Words that end on the budget's last bit are read, one bit more is 7.
    #[test]
    fn words_at_the_end() {
        let mut random = Random::new(5);
        let mut met = BTreeMap::new();
        for _ in 0..4000 {
            let (src, past) = near_the_end(&mut random);
            assert_eq!(reply(&src), if past > 0 { 7 } else { 0 }, "{past}");
            *met.entry(past).or_insert(0) += 1;
        }
        assert!(
            (-1..=3).all(|past| met.get(&past) > Some(&60)),
            "{:?}",
            met.range(-3..9)
        );
    }
}
