//! g719 check: a line a file.

use crate::{arguments, complain, files, help, words, Failure, Verdict};
use g719::{Refusal, Stop, FRAME_BYTES, MOST_CHANNELS, MOST_FRAMES};
use std::ffi::{OsStr, OsString};

/// What a recording is held against.
struct Booking {
    booked: u32,
    channels: Option<u8>,
}

/// Bytes of the longest recording of so many channels, and one more, which is answered 15: so the answer is
/// that of the whole file.
pub fn room(channels: u8) -> usize {
    MOST_FRAMES as usize * FRAME_BYTES * usize::from(channels) + 1
}

pub fn run(given: &[OsString]) -> Result<Verdict, Failure> {
    let Some(arguments) = arguments::take(given, help::CHECK, &["--booked", "--channels"])? else {
        return Ok(Verdict::Complete);
    };
    let booking = Booking {
        booked: arguments.needed_number("--booked")?,
        channels: arguments.number("--channels")?,
    };
    if !(1..=MOST_CHANNELS).contains(&booking.channels.unwrap_or(1).into()) {
        return Err(arguments.wrong("--channels is 1 to 8"));
    }
    if arguments.files.is_empty() {
        return Err(arguments.wrong("no file is named"));
    }
    let mut worst = Verdict::Complete;
    for file in &arguments.files {
        let verdict = match files::read(file, room(booking.channels.unwrap_or(1))) {
            Ok(bytes) => {
                let (verdict, line) = booking.line(file, &bytes);
                files::print(&line)?;
                verdict
            }
            // the other files are told all the same
            Err(Failure(why)) => {
                complain(&why);
                Verdict::Failed
            }
        };
        worst = worst.max(verdict);
    }
    Ok(worst)
}

impl Booking {
    fn check(&self, bytes: &[u8]) -> Result<(), Stop> {
        match self.channels {
            None => g719::check(bytes, self.booked),
            Some(channels) => g719::check_blocks(bytes, channels, self.booked),
        }
    }

    /// The verdict on a recording, and its line.
    fn line(&self, file: &OsStr, bytes: &[u8]) -> (Verdict, String) {
        let checked = self.check(bytes);
        let (verdict, said, count, ask) = match checked {
            Ok(()) => (
                Verdict::Complete,
                "complete".to_string(),
                self.booked,
                String::new(),
            ),
            Err(stop) => (
                Verdict::NotComplete,
                format!("not complete: {}", stop.refusal),
                stop.count,
                format!("; {}", self.ask(stop)),
            ),
        };
        let noun = if self.channels.is_some() { "block" } else { "frame" };
        let line = format!(
            "{}: {said}; {} of {} booked, {}{ask}\n",
            files::shown(file),
            words::count(count, &format!("sound {noun}")),
            self.booked,
            words::seconds(count)
        );
        (verdict, line)
    }

    /// What to ask of whom. Where all that was booked is there and more follows, nothing is lacking, and the
    /// booking is in question.
    fn ask(&self, stop: Stop) -> String {
        if stop.count >= self.booked || stop.refusal == Refusal::TooMany {
            "ask what was booked".into()
        } else {
            format!("ask again from byte {}", stop.place)
        }
    }
}
