//! Records for the frame writer, the layout and the FlagC choice, and room for
//! the empty frame.

use super::records::{band_of, sound, tune, Sound};
use super::room;
use crate::random::Random;
use g719_reference::pieces::{code_bits, sent_order};
use g719_reference::types::{Record, BANDS, CODES, TAIL_BYTES};

/// Input of the frame writer.
#[derive(Clone, Debug)]
pub struct WriteCase {
    pub record: Record,
    pub codes: Vec<u16>,
    pub tail: Vec<u8>,
    pub out: Vec<u8>,
}

/// Input of the layout and of the FlagC choice.
#[derive(Clone, Debug)]
pub struct CodesCase {
    pub record: Record,
    pub codes: Vec<u16>,
}

/// One thing wrong with a record or a room.
#[derive(Clone, Copy)]
enum Fault {
    Mode,
    CodesShort,
    TailShort,
    OutShort,
    Noise,
    NormOver,
    FirstOver,
    Difference,
    CodeWide,
    UnusedPlace,
    PastBudget,
    TailCount,
    Padding,
    Flag,
}

const FAULTS: [Fault; 14] = [
    Fault::Mode,
    Fault::CodesShort,
    Fault::TailShort,
    Fault::OutShort,
    Fault::Noise,
    Fault::NormOver,
    Fault::FirstOver,
    Fault::Difference,
    Fault::CodeWide,
    Fault::UnusedPlace,
    Fault::PastBudget,
    Fault::TailCount,
    Fault::Padding,
    Fault::Flag,
];

/// Two neighbours in sent order more than −15..16 apart.
fn spread(random: &mut Random, record: &mut Record) {
    let order = sent_order(record.transient);
    let at = random.below(BANDS - 1);
    let first = record.norms[order[at]];
    record.norms[order[at + 1]] = match first {
        0..=15 => first + 17,
        16..=22 => random.pick(&[first - 16, first + 17]),
        _ => first - 16,
    };
}

/// A place at a rate for which `wanted` holds.
fn place_at(random: &mut Random, sound: &Sound, wanted: impl Fn(u8, usize) -> bool) -> Option<usize> {
    let from = random.below(CODES);
    (0..CODES)
        .map(|at| (at + from) % CODES)
        .find(|&place| wanted(sound.plan.rates[band_of(place)], place))
}

fn widen(random: &mut Random, sound: &Sound, codes: &mut [u16]) {
    let Some(place) = place_at(random, sound, |rate, place| {
        rate > 1 || (rate == 1 && place % 8 == 0)
    }) else {
        return;
    };
    let rate = sound.plan.rates[band_of(place)];
    let bits = if rate == 1 { 8 } else { rate };
    if let Some(code) = codes.get_mut(place) {
        *code = random.pick(&[*code | 1 << bits, 1 << bits, u16::MAX]);
    }
}

fn use_place(random: &mut Random, sound: &Sound, codes: &mut [u16]) {
    let Some(place) = place_at(random, sound, |rate, place| {
        rate == 0 || (rate == 1 && place % 8 != 0)
    }) else {
        return;
    };
    if let Some(code) = codes.get_mut(place) {
        *code = random.pick(&[1, 2, 0x100, 0x8000]);
    }
}

fn pad(random: &mut Random, case: &mut WriteCase) {
    let count = usize::from(case.record.tail_bits);
    let bit = match random.below(4) {
        0 => count,
        1 => 8 * TAIL_BYTES - 1,
        _ => count + random.below((8 * TAIL_BYTES).saturating_sub(count).max(1)),
    };
    if let Some(byte) = case.tail.get_mut(bit / 8) {
        *byte |= 0x80 >> (bit % 8);
    }
}

/// The case of a sound frame, with rooms of the size they need.
pub(super) fn case_of(random: &mut Random, sound: &Sound) -> WriteCase {
    let out = match sound.record.mode {
        mode @ 0..=14 => 81 + 10 * usize::from(mode),
        mode => 241 + 20 * usize::from(mode - 15),
    };
    WriteCase {
        record: sound.record,
        codes: sound.codes.to_vec(),
        tail: sound.tail.to_vec(),
        out: random.bytes(out),
    }
}

/// Words that go past the budget by a few bits or many.
fn overspend(random: &mut Random, sound: &Sound, case: &mut WriteCase) {
    let mut codes = sound.codes;
    let past = random.pick(&[1, 1, 1, 2, 7, 40]);
    let target = i64::from(sound.plan.budget) + past;
    tune(random, &sound.plan.rates, &mut codes, CODES, target);
    let count = case.codes.len().min(CODES);
    case.codes[..count].copy_from_slice(&codes[..count]);
    case.record.flag_c = true;
}

fn apply(random: &mut Random, fault: Fault, sound: &Sound, case: &mut WriteCase) {
    let record = &mut case.record;
    match fault {
        Fault::Mode => record.mode = random.pick(&[20, 21, 27, 28, 255]),
        Fault::CodesShort => case.codes.truncate(random.pick(&[0, 1, 799])),
        Fault::TailShort => case.tail.truncate(random.pick(&[0, 1, 319])),
        Fault::OutShort => case
            .out
            .truncate(random.pick(&[0, 1, case.out.len().saturating_sub(1)])),
        Fault::Noise if record.transient => record.noise = random.pick(&[1, 3, 4, 255]),
        Fault::Noise => record.noise = random.pick(&[4, 5, 128, 255]),
        Fault::NormOver => record.norms[random.below(BANDS)] = random.pick(&[40, 41, 255]),
        Fault::FirstOver => record.norms[0] = random.between(32, 39) as u8,
        Fault::Difference => spread(random, record),
        Fault::CodeWide => widen(random, sound, &mut case.codes),
        Fault::UnusedPlace => use_place(random, sound, &mut case.codes),
        Fault::PastBudget => overspend(random, sound, case),
        Fault::TailCount => {
            let count = record.tail_bits;
            record.tail_bits = random.pick(&[
                count.wrapping_sub(1),
                count.wrapping_add(1),
                count ^ 8,
                0,
                2561,
                u16::MAX,
            ]);
        }
        Fault::Padding => pad(random, case),
        Fault::Flag => match random.below(4) {
            0 => record.transient ^= true,
            1 => record.flag_l ^= true,
            2 => record.flag_n ^= true,
            _ => record.flag_c ^= true,
        },
    }
}

/// Gives the rooms random excess, or makes them one short.
fn change_rooms(random: &mut Random, case: &mut WriteCase) {
    let count = room(random, case.codes.len().max(1));
    case.codes.resize_with(count, || random.next() as u16);
    let count = room(random, case.tail.len().max(1));
    case.tail.resize_with(count, || random.next() as u8);
    let count = room(random, case.out.len().max(1));
    case.out.resize_with(count, || random.next() as u8);
}

pub fn write_case(seed: u64) -> WriteCase {
    let mut random = Random::new(seed);
    let sound = sound(&mut random);
    let mut case = case_of(&mut random, &sound);
    for _ in 0..random.pick(&[0, 0, 1, 1, 1, 1, 2, 2, 3]) {
        let fault = random.pick(&FAULTS);
        apply(&mut random, fault, &sound, &mut case);
    }
    if random.flag() {
        change_rooms(&mut random, &mut case);
    }
    case
}

/// Codes whose words cost nearly as much as fixed codes.
fn balanced(random: &mut Random) -> CodesCase {
    let mut sound = sound(random);
    let rates = sound.plan.rates;
    let fixed = i64::from(code_bits(&rates, false, &sound.codes));
    let target = fixed + i64::from(random.between(-2, 2));
    tune(random, &rates, &mut sound.codes, CODES, target);
    CodesCase {
        record: sound.record,
        codes: sound.codes.to_vec(),
    }
}

/// Noise and tail count of no meaning, for a call that does not read them.
fn fill_unread(random: &mut Random, record: &mut Record) {
    record.noise = random.next() as u8;
    record.tail_bits = random.next() as u16;
}

pub fn flag_c_case(seed: u64) -> CodesCase {
    let mut random = Random::new(seed);
    let mut case = if random.once_in(3) {
        balanced(&mut random)
    } else {
        let WriteCase { record, codes, .. } = write_case(random.next());
        CodesCase { record, codes }
    };
    if random.once_in(3) {
        fill_unread(&mut random, &mut case.record);
    }
    case
}

/// Half of the layout's cases have any noise and any tail count.
pub fn layout_case(seed: u64) -> CodesCase {
    let mut random = Random::new(seed);
    let WriteCase {
        mut record, codes, ..
    } = write_case(random.next());
    if random.flag() {
        fill_unread(&mut random, &mut record);
    }
    CodesCase { record, codes }
}

/// Room for an empty frame.
pub fn empty_case(seed: u64) -> Vec<u8> {
    let mut random = Random::new(seed);
    let count = random.pick(&[0, 1, 1, 2, 5]);
    random.bytes(count)
}
