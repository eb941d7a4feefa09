//! Writing a stored frame, how its bits part, and the FlagC choice.

use crate::allotment::share;
use crate::bits::BitWriter;
use crate::budget::{budget, wide, NOISE_BITS};
use crate::codes::{check_codes, code_bits, put_codes, Codes, Rates};
use crate::norms::{norm_bits, put_norms, steps, Steps};
use crate::prefix::{frame_bytes, write_prefix};
use crate::reply;
use crate::types::{Choice, Parts, Record, Writing, BANDS, CODES, TAIL_BYTES};

/// What follows from a record's mode, flags and norms.
pub struct Plan {
    pub steps: Steps,
    pub budget: u32,
    pub rates: Rates,
}

/// The plan of a record, or reply 8 or 9.
pub fn plan(record: &Record) -> Result<Plan, u8> {
    let bytes = frame_bytes(record.mode)?;
    let steps = steps(record.transient, &record.norms)?;
    let budget = budget(bytes, record.transient, norm_bits(record.flag_n, &steps));
    let wide = wide(record.mode, record.flag_l);
    let (rates, ..) = share(record.transient, wide, &record.norms, budget);
    Ok(Plan { steps, budget, rates })
}

/// Reply 8 for a noise over 3 or, in a transient frame, over 0.
fn check_noise(record: &Record) -> Result<(), u8> {
    let largest = if record.transient { 0 } else { 3 };
    if record.noise > largest {
        return Err(reply::OUT_OF_RANGE);
    }
    Ok(())
}

/// Reply 13 unless the tail has `count` bits and only 0 after them.
fn check_tail(record: &Record, count: u32, tail: &[u8; TAIL_BYTES]) -> Result<(), u8> {
    let (whole, part) = (count as usize / 8, count % 8);
    let mut padding = tail[whole..].iter();
    let in_part = match part {
        0 => 0,
        _ => padding.next().map_or(0, |byte| byte << part),
    };
    if u32::from(record.tail_bits) != count || in_part != 0 || padding.any(|&byte| byte != 0) {
        return Err(reply::WRONG_TAIL);
    }
    Ok(())
}

/// Writes the prefix and the body of a frame that was found sound.
fn put_frame(record: &Record, plan: &Plan, codes: &Codes, tail: &[u8; TAIL_BYTES], out: &mut [u8]) {
    out[0] = write_prefix(record.mode).byte;
    let mut bits = BitWriter::new(&mut out[1..]);
    bits.put_flag(record.transient);
    bits.put_flag(record.flag_l);
    bits.put_flag(record.flag_n);
    bits.put_flag(record.flag_c);
    put_norms(&mut bits, record.norms[0], record.flag_n, &plan.steps);
    put_codes(&mut bits, &plan.rates, record.flag_c, codes);
    if !record.transient {
        bits.put(u16::from(record.noise), NOISE_BITS);
    }
    bits.put_bits(usize::from(record.tail_bits), tail);
    bits.finish();
}

/// Checks all in the paper's order, then writes. Gives the next place.
fn write_frame(record: &Record, codes: &[u16], tail: &[u8], out: &mut [u8]) -> Result<usize, u8> {
    let next = frame_bytes(record.mode)? + 1;
    let (Some(codes), Some(tail), Some(out)) = (
        codes.first_chunk::<CODES>(),
        tail.first_chunk::<TAIL_BYTES>(),
        out.get_mut(..next),
    ) else {
        return Err(reply::SHORT_ROOM);
    };
    check_noise(record)?;
    let plan = plan(record)?;
    check_codes(&plan.rates, codes)?;
    let used = code_bits(&plan.rates, record.flag_c, codes);
    let left = plan.budget.checked_sub(used).ok_or(reply::PAST_BUDGET)?;
    check_tail(record, left, tail)?;
    put_frame(record, &plan, codes, tail, out);
    Ok(next)
}

/// Writes a frame from the first 800 numbers of `codes` and the first 320
/// bytes of `tail`.
pub fn write(record: &Record, codes: &[u16], tail: &[u8], out: &mut [u8]) -> Writing {
    match write_frame(record, codes, tail, out) {
        Ok(next) => Writing {
            reply: reply::DONE,
            next,
        },
        Err(reply) => Writing { reply, next: 0 },
    }
}

/// Writes an empty frame.
pub fn write_empty(out: &mut [u8]) -> Writing {
    match out.first_mut() {
        Some(byte) => {
            *byte = 0;
            Writing {
                reply: reply::DONE,
                next: 1,
            }
        }
        None => Writing {
            reply: reply::SHORT_ROOM,
            next: 0,
        },
    }
}

/// The plan of a record and its codes, which fit it; or 8 for the mode, 10,
/// the other causes of 8, 9, 12.
fn fitting<'a>(record: &Record, codes: &'a [u16]) -> Result<(Plan, &'a Codes), u8> {
    frame_bytes(record.mode)?;
    let codes = codes.first_chunk::<CODES>().ok_or(reply::SHORT_ROOM)?;
    let plan = plan(record)?;
    check_codes(&plan.rates, codes)?;
    Ok((plan, codes))
}

/// The parts of the budget: what the codes take, and the rest.
fn parts(record: &Record, codes: &[u16]) -> Result<Parts, u8> {
    let (plan, codes) = fitting(record, codes)?;
    let used = code_bits(&plan.rates, record.flag_c, codes);
    let left = plan.budget.checked_sub(used).ok_or(reply::PAST_BUDGET)?;
    Ok(Parts {
        reply: reply::DONE,
        budget: plan.budget as u16,
        rates: plan.rates,
        code_bits: used as u16,
        tail_bits: left as u16,
    })
}

/// How the bits of a record's frame part. The record's noise and tail count
/// are not read.
pub fn layout(record: &Record, codes: &[u16]) -> Parts {
    parts(record, codes).unwrap_or_else(|reply| Parts {
        reply,
        budget: 0,
        rates: [0; BANDS],
        code_bits: 0,
        tail_bits: 0,
    })
}

/// Whether words cost less than fixed codes.
fn words_cost_less(record: &Record, codes: &[u16]) -> Result<bool, u8> {
    let (plan, codes) = fitting(record, codes)?;
    // Bands outside rates 2–5 cost the same on both sides.
    let in_words = code_bits(&plan.rates, true, codes);
    let fixed = code_bits(&plan.rates, false, codes);
    Ok(in_words < fixed)
}

/// FlagC is 1 exactly when words cost less than fixed codes over the bands
/// at rates 2–5. The record's noise, tail count and FlagC are not read.
pub fn choose_flag_c(record: &Record, codes: &[u16]) -> Choice {
    match words_cost_less(record, codes) {
        Ok(flag) => Choice {
            reply: reply::DONE,
            flag,
        },
        Err(reply) => Choice { reply, flag: false },
    }
}
