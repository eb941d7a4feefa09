//! complete FILE BOOKED: is a recording complete?
//! Ends with 0 if it is, 1 if it is not, 2 if that could not be told.

use g719::{check, Refusal, FRAME_BYTES, MOST_FRAMES};
use std::ffi::{OsStr, OsString};
use std::fs::File;
use std::io::{self, Read, Write};
use std::path::Path;
use std::process::ExitCode;

/// Room for 3,000 frames and one byte more, which is answered 15:
/// so the answer is that of the whole file.
const ROOM: u64 = MOST_FRAMES as u64 * FRAME_BYTES as u64 + 1;

/// A decimal number of 32 bits, in digits alone.
fn number(text: &OsStr) -> Option<u32> {
    let text = text.to_str()?;
    let digits = text.bytes().all(|byte| byte.is_ascii_digit());
    text.parse().ok().filter(|_| digits)
}

fn read(path: &Path) -> io::Result<Vec<u8>> {
    let mut file = Vec::new();
    File::open(path)?.take(ROOM).read_to_end(&mut file)?;
    Ok(file)
}

fn answer(names: &[OsString]) -> Result<bool, String> {
    let usage = "usage: complete FILE BOOKED";
    let [name, booked] = names else {
        return Err(usage.into());
    };
    let booked = number(booked).ok_or(usage)?;
    let path = Path::new(name);
    let file = read(path).map_err(|error| format!("{}: not read: {error}", path.display()))?;

    let (verdict, count, ask) = match check(&file, booked) {
        Ok(()) => ("complete".into(), booked, String::new()),
        Err(stop) => {
            let ask = if stop.count >= booked || stop.refusal == Refusal::TooMany {
                "; ask what was booked".into()
            } else {
                format!("; ask again from byte {}", stop.place)
            };
            (format!("not complete: {}", stop.refusal), stop.count, ask)
        }
    };
    let time = format!("{}.{:02} s", count / 50, count % 50 * 2);
    let line = format!("{verdict}; {count} sound frames of {booked} booked, {time}{ask}");
    writeln!(io::stdout(), "{line}").map_err(|error| format!("answer not written: {error}"))?;
    Ok(verdict == "complete")
}

fn main() -> ExitCode {
    let names: Vec<OsString> = std::env::args_os().skip(1).collect();
    match answer(&names) {
        Ok(true) => ExitCode::from(0),
        Ok(false) => ExitCode::from(1),
        Err(why) => {
            eprintln!("{why}");
            ExitCode::from(2)
        }
    }
}
