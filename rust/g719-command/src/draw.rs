//! g719 picture: the recording as a picture.

use crate::check::room;
use crate::picture::{draw, Data, End, Recording, Seen};
use crate::{arguments, files, help, Failure, Verdict};
use g719::raw::reply;
use g719::{Frame, Stored};
use std::ffi::{OsStr, OsString};
use std::path::Path;

pub fn run(given: &[OsString]) -> Result<Verdict, Failure> {
    let Some(arguments) = arguments::take(given, help::PICTURE, &["-o"])? else {
        return Ok(Verdict::Complete);
    };
    let (file, out) = (arguments.file()?, arguments.needed("-o")?);
    let bytes = files::read(file, room(1))?;
    let recording = seen(file, &bytes)?;
    files::write(out, draw(&recording).as_bytes())?;
    Ok(match recording.end.reply {
        reply::DONE => Verdict::Complete,
        _ => Verdict::NotComplete,
    })
}

/// A recording as a picture shows it, under the file's own name without its folders.
fn seen(file: &OsStr, bytes: &[u8]) -> Result<Recording, Failure> {
    let name = Path::new(file).file_name().unwrap_or(file);
    let mut recording = Recording {
        name: files::shown(name),
        length: bytes.len(),
        frames: Vec::new(),
        end: End {
            reply: reply::DONE,
            place: bytes.len(),
            words: if bytes.is_empty() {
                "an empty file"
            } else {
                "sound to its end"
            }
            .into(),
        },
    };
    for stored in g719::frames(bytes) {
        match stored {
            Ok(stored) => recording.frames.push(frame(&stored)?),
            Err(stop) => {
                recording.end = End {
                    reply: stop.refusal.number(),
                    place: stop.place,
                    words: stop.refusal.to_string(),
                };
            }
        }
    }
    Ok(recording)
}

fn frame(stored: &Stored) -> Result<Seen, Failure> {
    let data = |frame: &Frame| {
        // a frame that was read has a layout
        let layout = frame
            .layout()
            .map_err(|refusal| Failure(format!("frame {}: {refusal}", stored.number)))?;
        Ok(Data {
            transient: frame.record.transient,
            norms: frame.record.norms,
            rates: layout.rates,
        })
    };
    Ok(Seen {
        place: stored.place,
        size: stored.bytes.len(),
        data: stored.frame.as_ref().map(data).transpose()?,
    })
}
