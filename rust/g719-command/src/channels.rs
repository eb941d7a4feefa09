//! g719 extract and g719 join: one channel out of several, and several from one each.

use crate::check::room;
use crate::{arguments, complain, files, help, words, Failure, Verdict};
use g719::{Refusal, Stop, MOST_CHANNELS};
use std::ffi::{OsStr, OsString};

pub fn extract(given: &[OsString]) -> Result<Verdict, Failure> {
    let Some(arguments) = arguments::take(given, help::EXTRACT, &["--channels", "--channel", "-o"])? else {
        return Ok(Verdict::Complete);
    };
    let (file, out) = (arguments.file()?, arguments.needed("-o")?);
    let channels: u8 = arguments.needed_number("--channels")?;
    let channel: u8 = arguments.needed_number("--channel")?;
    if !(1..=MOST_CHANNELS).contains(&channels.into()) || channel >= channels {
        return Err(arguments.wrong("--channels is 1 to 8, and --channel is below it"));
    }
    let bytes = files::read(file, room(channels))?;
    let mut taken = vec![0; bytes.len()];
    match g719::extract(&bytes, channels, channel, &mut taken) {
        Ok(copied) => {
            files::write(out, &taken[..copied.length])?;
            Ok(Verdict::Complete)
        }
        Err(stop) => Ok(refused(file, &stop, "block")),
    }
}

/// Says why nothing was written.
fn refused(file: &OsStr, stop: &Stop, noun: &str) -> Verdict {
    complain(&format!(
        "{}: {}; {} before byte {}; nothing was written",
        files::shown(file),
        stop.refusal,
        words::count(stop.count, &format!("sound {noun}")),
        stop.place
    ));
    Verdict::NotComplete
}

pub fn join(given: &[OsString]) -> Result<Verdict, Failure> {
    let Some(arguments) = arguments::take(given, help::JOIN, &["-o"])? else {
        return Ok(Verdict::Complete);
    };
    let out = arguments.needed("-o")?;
    let names = &arguments.files;
    if !(1..=MOST_CHANNELS).contains(&names.len()) {
        return Err(arguments.wrong("1 to 8 recordings are joined"));
    }
    if names.iter().filter(|&name| name == "-").count() > 1 {
        return Err(arguments.wrong("standard input is one recording"));
    }
    let (mut bytes, mut lengths) = (Vec::new(), Vec::new());
    for name in names {
        let recording = files::read(name, room(1))?;
        lengths.push(recording.len() as u32);
        bytes.extend(recording);
    }
    let mut joined = vec![0; bytes.len()];
    match g719::join(&bytes, &lengths, &mut joined) {
        Ok(copied) => {
            files::write(out, &joined[..copied.length])?;
            Ok(Verdict::Complete)
        }
        Err(stop) => Ok(match stop.recording {
            Some(which) => refused(&names[which], &stop, "frame"),
            None => unequal(names, &bytes, &lengths, stop.refusal),
        }),
    }
}

/// Says how many frames each recording has, since they differ.
fn unequal(names: &[OsString], mut bytes: &[u8], lengths: &[u32], refusal: Refusal) -> Verdict {
    for (name, &length) in names.iter().zip(lengths) {
        let (recording, rest) = bytes.split_at(length as usize);
        let count = g719::frames(recording).count() as u32;
        complain(&format!(
            "{}: {}",
            files::shown(name),
            words::count(count, "sound frame")
        ));
        bytes = rest;
    }
    let why = match refusal {
        Refusal::WrongChannels => "recordings of unequal frame counts are not joined".to_string(),
        other => other.to_string(),
    };
    complain(&format!("{why}; nothing was written"));
    Verdict::NotComplete
}
