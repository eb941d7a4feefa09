//! Reading a stored frame.

use crate::allotment::share;
use crate::bits::BitReader;
use crate::budget::{budget, wide, FLAG_BITS, NOISE_BITS};
use crate::codes::{take_codes, Codes};
use crate::norms::take_norms;
use crate::prefix::{mode_of, read_prefix};
use crate::reply;
use crate::types::{Reading, Record, CODES, TAIL_BYTES};

/// A body read as far as its tail, which `bits` stands at.
struct Body<'a> {
    record: Record,
    codes: Codes,
    bits: BitReader<'a>,
}

/// Reads a body of the size of its mode. Replies 5, then 6 or 7.
fn read_body(mode: u8, body: &[u8]) -> Result<Body<'_>, u8> {
    let mut bits = BitReader::new(body);
    let transient = bits.take_flag();
    let flag_l = bits.take_flag();
    let flag_n = bits.take_flag();
    let flag_c = bits.take_flag();
    let norms = take_norms(&mut bits, transient, flag_n)?;

    let norm_bits = bits.at() as u32 - FLAG_BITS;
    let budget = budget(body.len(), transient, norm_bits);
    let (rates, ..) = share(transient, wide(mode, flag_l), &norms, budget);
    let end = bits.at() + budget as usize;
    let codes = take_codes(&mut bits, &rates, flag_c, end)?;

    let tail_bits = (end - bits.at()) as u16;
    let noise = if transient { 0 } else { bits.take(NOISE_BITS) as u8 };
    let record = Record {
        mode,
        transient,
        flag_l,
        flag_n,
        flag_c,
        norms,
        noise,
        tail_bits,
    };
    Ok(Body { record, codes, bits })
}

/// Reads the frame at the start of `src` into the lent rooms.
fn read_frame(src: &[u8], codes: &mut [u16], tail: &mut [u8]) -> Result<Reading, u8> {
    let (Some(codes), Some(tail)) = (codes.get_mut(..CODES), tail.get_mut(..TAIL_BYTES)) else {
        return Err(reply::SHORT_ROOM);
    };
    let prefix = read_prefix(src);
    if prefix.reply != reply::DONE {
        return Err(prefix.reply);
    }
    let mode = mode_of(prefix.length).ok_or(reply::RESERVED)?;
    let next = 1 + usize::from(prefix.bytes);
    let body = src.get(1..next).ok_or(reply::CUT)?;
    let mut body = read_body(mode, body)?;
    codes.copy_from_slice(&body.codes);
    body.bits.take_bits(usize::from(body.record.tail_bits), tail);
    Ok(Reading {
        reply: reply::DONE,
        next,
        record: body.record,
    })
}

/// Reads the frame at the start of `src`: its codes into the first 800
/// numbers of `codes`, its tail into the first 320 bytes of `tail`.
pub fn read(src: &[u8], codes: &mut [u16], tail: &mut [u8]) -> Reading {
    match read_frame(src, codes, tail) {
        Ok(reading) => reading,
        Err(reply) => Reading {
            reply,
            next: usize::from(reply == reply::NO_DATA),
            record: Record::ZERO,
        },
    }
}
