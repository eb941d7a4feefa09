//! Records with codes and a tail that a frame can hold.

use super::norms::legal_norms;
use crate::random::Random;
use g719_reference::pieces::{code_bits, column, places, plan, word_bits, Codes, Plan, Rates};
use g719_reference::types::{Record, BANDS, CODES, TAIL_BYTES};

/// A sound frame in parts.
pub(super) struct Sound {
    pub(super) record: Record,
    pub(super) codes: Codes,
    pub(super) tail: [u8; TAIL_BYTES],
    pub(super) plan: Plan,
}

/// How codes are drawn.
#[derive(Clone, Copy)]
enum Draw {
    Even,
    Cheap,
    Dear,
    Ends,
}

fn draw_code(random: &mut Random, draw: Draw, rate: u8) -> u16 {
    let r = if rate == 1 { 256 } else { 1 << rate };
    let code = match draw {
        Draw::Even => random.below(r),
        Draw::Cheap => random.pick(&[0, 0, 0, 1, r - 1]),
        Draw::Dear => (r / 2 + random.below(3)) % r,
        Draw::Ends => random.pick(&[0, r - 1]),
    };
    code as u16
}

/// Codes that fit their rates, 0 in unused places.
fn draw_codes(random: &mut Random, rates: &Rates, draw: Draw) -> Codes {
    let mut codes = [0; CODES];
    for (band, &rate) in rates.iter().enumerate() {
        for place in places(band) {
            if rate > 1 || (rate == 1 && place % 8 == 0) {
                codes[place] = draw_code(random, draw, rate);
            }
        }
    }
    codes
}

/// The band of each place.
pub(super) fn band_of(place: usize) -> usize {
    (0..BANDS)
        .find(|&band| places(band).contains(&place))
        .unwrap_or(0)
}

/// Bits of the codes before a place, with words.
pub(super) fn bits_before(rates: &Rates, codes: &Codes, end: usize) -> i64 {
    let mut bits = 0;
    for (band, &rate) in rates.iter().enumerate() {
        for place in places(band).take_while(|&place| place < end) {
            bits += match (rate, column(rate)) {
                (1, _) => i64::from(place % 8 == 0) * 8,
                (_, Some((words, _))) => i64::from(word_bits(words[usize::from(codes[place])])),
                _ => i64::from(rate),
            };
        }
    }
    bits
}

/// The code of this rate whose word changes the bits by as near `want` as
/// can be.
fn nearest_code(random: &mut Random, rate: u8, code: u16, want: i64) -> Option<(u16, i64)> {
    let (words, _) = column(rate)?;
    let change = |at: usize| i64::from(word_bits(words[at])) - i64::from(word_bits(words[usize::from(code)]));
    let from = random.below(words.len());
    let best = (0..words.len())
        .map(|at| (at + from) % words.len())
        .min_by_key(|&at| (want - change(at)).abs())?;
    Some((best as u16, change(best)))
}

/// Changes codes before `end` until their bits, with words, are `target`.
/// Tells whether that was reached.
pub(super) fn tune(random: &mut Random, rates: &Rates, codes: &mut Codes, end: usize, target: i64) -> bool {
    let mut want = target - bits_before(rates, codes, end);
    let from = random.below(CODES);
    for place in (0..CODES).map(|at| (at + from) % CODES) {
        if want == 0 {
            break;
        }
        if place < end {
            let rate = rates[band_of(place)];
            if let Some((code, change)) = nearest_code(random, rate, codes[place], want) {
                codes[place] = code;
                want -= change;
            }
        }
    }
    want == 0
}

impl Sound {
    /// Draws a tail that fits what the codes leave; FlagC falls if words do
    /// not fit the budget.
    pub(super) fn finish(&mut self, random: &mut Random) {
        let (rates, budget) = (&self.plan.rates, self.plan.budget);
        self.record.flag_c &= code_bits(rates, true, &self.codes) <= budget;
        let left = budget - code_bits(rates, self.record.flag_c, &self.codes);
        self.record.tail_bits = left as u16;
        self.tail = [0; TAIL_BYTES];
        let (whole, part) = (left as usize / 8, left % 8);
        self.tail[..whole].copy_from_slice(&random.bytes(whole));
        if part > 0 {
            self.tail[whole] = random.next() as u8 & !(0xff >> part);
        }
    }
}

/// A record of any mode, kind and flags.
fn record(random: &mut Random) -> Record {
    let transient = random.flag();
    Record {
        mode: if random.once_in(4) {
            0
        } else {
            random.below(20) as u8
        },
        transient,
        flag_l: random.flag(),
        flag_n: random.flag(),
        flag_c: random.flag(),
        norms: legal_norms(random, transient),
        noise: if transient { 0 } else { random.below(4) as u8 },
        tail_bits: 0,
    }
}

/// A sound frame of any mode, kind and flags.
pub(super) fn sound(random: &mut Random) -> Sound {
    loop {
        let record = record(random);
        // Legalised norms always have a plan.
        let Ok(plan) = plan(&record) else { continue };
        let draw = random.pick(&[Draw::Even, Draw::Cheap, Draw::Cheap, Draw::Dear, Draw::Ends]);
        let codes = draw_codes(random, &plan.rates, draw);
        let mut sound = Sound {
            record,
            codes,
            tail: [0; TAIL_BYTES],
            plan,
        };
        if random.once_in(6) {
            let target = i64::from(sound.plan.budget);
            tune(random, &sound.plan.rates, &mut sound.codes, CODES, target);
        }
        sound.finish(random);
        return sound;
    }
}
