//! g719 show: a frame as a table.

use crate::check::room;
use crate::{arguments, files, help, words, Failure, Verdict};
use g719::{band_places, Frame, Refusal, Stored, BANDS};
use std::ffi::OsString;

/// Bits of the four flags, and of the noise level of a stationary frame.
const FLAG_BITS: usize = 4;
const NOISE_BITS: usize = 2;

pub fn run(given: &[OsString]) -> Result<Verdict, Failure> {
    let Some(arguments) = arguments::take(given, help::SHOW, &["--frame"])? else {
        return Ok(Verdict::Complete);
    };
    let wanted: u32 = arguments.number("--frame")?.unwrap_or(0);
    let file = arguments.file()?;
    let name = files::shown(file);
    let bytes = files::read(file, room(1))?;

    let (mut count, mut shown, mut end) = (0, None, None);
    for stored in g719::frames(&bytes) {
        match stored {
            Ok(stored) => {
                count += 1;
                if stored.number == wanted {
                    shown = Some(table(&name, &stored));
                }
            }
            Err(stop) => end = Some(stop),
        }
    }
    let Some(table) = shown else {
        let sound = words::count(count, "sound frame");
        let why = end.map(|stop| format!("; at byte {}: {}", stop.place, stop.refusal));
        let why = why.unwrap_or_default();
        return Err(Failure(format!("{name}: no frame {wanted}: it has {sound}{why}")));
    };
    let table = table.map_err(|refusal| Failure(format!("{name}: frame {wanted}: {refusal}")))?;
    files::print(&table)?;
    Ok(if end.is_none() {
        Verdict::Complete
    } else {
        Verdict::NotComplete
    })
}

/// The page of a frame. A sound frame has a layout and scores, so it is not refused.
fn table(name: &str, stored: &Stored) -> Result<String, Refusal> {
    let head = format!(
        "{name}: frame {} at byte {}, {} from the start, {}\n",
        stored.number,
        stored.place,
        words::seconds(stored.number),
        words::count(stored.bytes.len() as u32, "byte")
    );
    Ok(match &stored.frame {
        None => format!("{head}an empty frame: it says that it has no data\n"),
        Some(frame) => head + &record(frame) + &bits(frame)? + &bands(frame)?,
    })
}

/// Size and flags.
fn record(frame: &Frame) -> String {
    let record = &frame.record;
    let (number, bytes) = (record.mode.number(), record.mode.body_bytes());
    let high_bands = match (number, record.flag_l) {
        (0, true) => "bands 36 to 43 compete",
        (0, false) => "bands 36 to 43 do not compete",
        _ => "without effect but at 80 bytes",
    };
    let rows = [
        (
            "IsTransient",
            record.transient,
            ["a stationary frame", "a transient frame"],
        ),
        ("FlagL", record.flag_l, [high_bands; 2]),
        (
            "FlagN",
            record.flag_n,
            ["norm differences are fixed codes", "norm differences are words"],
        ),
        (
            "FlagC",
            record.flag_c,
            ["codes are fixed", "codes at rates 2 to 5 are words"],
        ),
    ];
    let row = |(name, set, means): (&str, bool, [&str; 2])| {
        let set = usize::from(set);
        format!("{name:11} {set}  {}\n", means[set])
    };
    let flags: String = rows.into_iter().map(row).collect();
    format!(
        "mode {number:8}  {bytes} body bytes\n{flags}noise {:7}\n\n",
        record.noise
    )
}

/// How the bits of the body part.
fn bits(frame: &Frame) -> Result<String, Refusal> {
    let layout = frame.layout()?;
    let body = 8 * frame.record.mode.body_bytes();
    let noise = if frame.record.transient { 0 } else { NOISE_BITS };
    let budget = usize::from(layout.budget);
    let norms = body - FLAG_BITS - noise - budget;
    Ok(format!(
        "bits {body}: flags {FLAG_BITS}, norms {norms}, codes {}, noise {noise}, tail {}; \
         budget {budget}\n\n",
        layout.code_bits, layout.tail_bits
    ))
}

/// A line a band.
fn bands(frame: &Frame) -> Result<String, Refusal> {
    let record = &frame.record;
    let (rates, scores) = (
        frame.layout()?.rates,
        g719::weigh(record.transient, &record.norms)?.scores,
    );
    let mut text = String::from("band  norm  loudness  score in 1/16  rate  coefficients  bits granted\n");
    let mut granted = 0;
    for band in 0..BANDS {
        let (norm, rate, length) = (record.norms[band], rates[band], band_places(band).len());
        let loudness = 34 - i16::from(norm);
        let score = scores[band];
        let bits = usize::from(rate) * length;
        granted += bits;
        text += &format!("{band:4}  {norm:4}  {loudness:8}  {score:13}  {rate:4}  {length:12}  {bits:12}\n");
    }
    Ok(text + &format!("all {granted:66}\n"))
}
