//! report > FILE: a made-up report of a boat, four seconds long and cut in its last frame, as a recording
//! that one can draw and show. It is also how frames are written: norms made legal, flags chosen, codes of
//! the rates, the tail's bits counted.

use g719::{band_places, legalise, Frame, Mode, Refusal, FRAME_BYTES};
use std::io::{self, Write};
use std::process::ExitCode;

/// Sound frames, and how many bytes of the next one have come.
const SOUND: i32 = 204;
const COME: usize = 40;

/// A syllable in frames; every fourth one hisses, the others are vowels.
const SYLLABLE: i32 = 11;

/// A wave of straight lines from 0 to `height` and back.
fn wave(at: i32, period: i32, height: i32) -> i32 {
    let half = at.rem_euclid(period) * 2;
    let up = if half < period { half } else { 2 * period - half };
    up * height / period
}

/// How loud a band is at a frame: the loudest of what the mouth does there, over the sea.
fn loudness(frame: i32, band: i32) -> i32 {
    let syllable = frame / SYLLABLE;
    let strength = wave(frame, SYLLABLE, 14);
    let sea = 6 - band / 4 + (frame * 7 + band * 13) % 3;
    let voice = if syllable % 4 == 3 {
        strength + 12 - (band - 34).abs()
    } else {
        let first = 3 + wave(frame, 53, 5);
        let second = 11 + wave(frame + 20, 71, 9);
        let formant = |centre: i32, height: i32| strength + height - 3 * (band - centre).abs();
        formant(first, 18).max(formant(second, 13)).max(formant(26, 8))
    };
    sea.max(voice)
}

/// The boat takes breath twice, and sends frames without data.
fn breath(frame: i32) -> bool {
    (66..77).contains(&frame) || (143..154).contains(&frame)
}

/// What the link takes: less while the boat lies over.
fn mode(frame: i32) -> Option<Mode> {
    Mode::new(match frame {
        0..88 => 8,
        88..121 => 1,
        _ => 4,
    })
}

/// A number of a sequence that jumps about.
fn jump(frame: i32, place: usize) -> u32 {
    let mixed = (frame as u32).wrapping_mul(0x9e37_79b9) ^ (place as u32).wrapping_mul(0x85eb_ca6b);
    (mixed ^ mixed >> 15).wrapping_mul(0x2c1b_3c6d) >> 16
}

/// Fills the codes that the rates ask for: mostly 0 or close to it.
fn fill(frame: &mut Frame, number: i32) -> Result<(), Refusal> {
    let rates = frame.layout()?.rates;
    for (band, rate) in rates.into_iter().enumerate() {
        let values = 1_u32 << rate;
        for place in band_places(band) {
            let jump = jump(number, place);
            frame.codes[place] = match (rate, place % 8) {
                (0, _) | (1, 1..) => 0,
                (1, _) => jump as u16 % 256,
                _ => [0, 1, values - 1, 0, jump % values][jump as usize % 5] as u16,
            };
        }
    }
    frame.record.flag_c = frame.choose_flag_c()?;
    frame.record.tail_bits = frame.layout()?.tail_bits;
    Ok(())
}

/// A stored frame of the report.
fn stored(number: i32) -> Result<Vec<u8>, Refusal> {
    if breath(number) {
        return Ok(vec![0]);
    }
    // a syllable begins with a knock
    let transient = number % SYLLABLE == 0;
    let index = |band: usize| (34 - loudness(number, band as i32)).clamp(0, 39) as u8;
    let norms = legalise(transient, &std::array::from_fn(index))?;
    let mut frame = Frame::new(mode(number).ok_or(Refusal::OutOfRange)?, transient, &norms)?;
    frame.record.noise = if transient { 0 } else { 1 };
    fill(&mut frame, number)?;
    let mut bytes = [0; FRAME_BYTES];
    let size = frame.write(&mut bytes)?;
    Ok(bytes[..size].to_vec())
}

/// The bytes that have come.
pub fn report() -> Result<Vec<u8>, Refusal> {
    let mut report = Vec::new();
    for number in 0..SOUND {
        report.extend(stored(number)?);
    }
    report.extend(&stored(SOUND)?[..COME]);
    Ok(report)
}

fn main() -> ExitCode {
    let written = report()
        .map_err(|refusal| refusal.to_string())
        .and_then(|report| {
            let written = io::stdout().write_all(&report);
            written.map_err(|error| error.to_string())
        });
    match written {
        Ok(()) => ExitCode::SUCCESS,
        Err(why) => {
            eprintln!("report: {why}");
            ExitCode::from(2)
        }
    }
}
