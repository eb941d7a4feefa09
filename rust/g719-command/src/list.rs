//! g719 list: the lister's text.

use crate::{arguments, files, help, Failure, Verdict};
use g719::raw::reply;
use std::ffi::OsString;
use std::fmt::Write;

/// Bytes that the lister takes.
const MOST: usize = 65_536;

pub fn run(given: &[OsString]) -> Result<Verdict, Failure> {
    let Some(arguments) = arguments::take(given, help::LIST, &[])? else {
        return Ok(Verdict::Complete);
    };
    let bytes = files::read(arguments.file()?, MOST + 1)?;
    let (verdict, text) = listing(&bytes);
    files::print(&text)?;
    Ok(verdict)
}

/// The listing of a recording, and what it says of it.
fn listing(bytes: &[u8]) -> (Verdict, String) {
    if bytes.len() > MOST {
        return (Verdict::Failed, "input too long\n".into());
    }
    let mut text = String::new();
    let mut line = |words: std::fmt::Arguments| writeln!(text, "{words}").expect("a text has room");
    let (mut count, mut place, mut answer) = (0, 0, reply::DONE);
    for stored in g719::frames(bytes) {
        match stored {
            Ok(stored) => {
                let reply = stored.frame.map_or(reply::NO_DATA, |_| reply::DONE);
                line(format_args!(
                    "{:04} {reply} {}",
                    stored.number,
                    stored.bytes.len() - 1
                ));
                (count, place) = (stored.number + 1, stored.place + stored.bytes.len());
            }
            Err(stop) => {
                answer = stop.refusal.number();
                // behind 3,000 frames nothing is read, so there is no line
                if answer != reply::TOO_MANY {
                    line(format_args!("{:04} {answer} 0", stop.count));
                }
            }
        }
    }
    line(format_args!("total {count} answer {answer} at {place}"));
    let verdict = if answer == reply::DONE {
        Verdict::Complete
    } else {
        Verdict::NotComplete
    };
    (verdict, text)
}
