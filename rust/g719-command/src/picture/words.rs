//! What a picture says in words.

use super::text::{counted, grouped};
use super::{Recording, Seen};
use crate::words::seconds;

/// Frames of a second.
const SECOND: usize = 50;

/// A time on the axis, without zeros that say nothing.
pub fn moment(frame: usize) -> String {
    let hundredths = frame % SECOND * 2;
    match (hundredths, hundredths % 10) {
        (0, _) => format!("{}", frame / SECOND),
        (_, 0) => format!("{}.{}", frame / SECOND, hundredths / 10),
        _ => format!("{}.{hundredths:02}", frame / SECOND),
    }
}

/// Why a frame is refused, in as few words as stand beside its mark.
fn cause(reply: u8) -> Option<&'static str> {
    match reply {
        2 => Some("F is 1"),
        3 => Some("L reserved"),
        4 => Some("cut"),
        5 => Some("a norm outside 0–39"),
        6 => Some("a word that does not exist"),
        7 => Some("codes past the budget"),
        _ => None,
    }
}

/// Whether the check ends at a frame that it refuses.
pub fn torn(recording: &Recording) -> bool {
    cause(recording.end.reply).is_some()
}

/// What the mark behind the last frame stands for.
pub fn ending(recording: &Recording) -> &'static str {
    match recording.end.reply {
        15 => "bytes follow",
        _ if torn(recording) => "refused",
        _ => "stopped",
    }
}

/// What stands at the end of the time line, if the recording does not end behind a sound frame.
pub fn label(recording: &Recording) -> Option<String> {
    let (reply, place) = (recording.end.reply, recording.end.place);
    match (reply, cause(reply)) {
        (0, _) => None,
        (_, Some(cause)) => Some(format!("{cause}: ask again from byte {place}")),
        (15, _) => {
            let frames = counted(recording.frames.len(), "frame");
            Some(format!("{frames}; bytes follow at byte {place}"))
        }
        _ => Some(format!("reply {reply} at byte {place}")),
    }
}

/// The check's answer by its numbers.
pub fn answer(recording: &Recording) -> String {
    format!("(reply {} at byte {})", recording.end.reply, recording.end.place)
}

/// What the recording has, counted.
pub fn counts(recording: &Recording) -> String {
    let frames = &recording.frames;
    let data = frames.iter().filter_map(|frame| frame.data.as_ref());
    let transient = data.clone().filter(|data| data.transient).count();
    let with_data = data.count();
    format!(
        "{}, {}: {} with data ({} transient), {} empty. {} read.",
        counted(frames.len(), "sound frame"),
        seconds(frames.len() as u32),
        grouped(with_data),
        grouped(transient),
        grouped(frames.len() - with_data),
        counted(recording.length, "byte"),
    )
}

pub fn title(recording: &Recording) -> String {
    format!("The recording {}", recording.name)
}

pub fn description(recording: &Recording) -> String {
    let label = label(recording)
        .map(|label| format!(" At its end: {label}."))
        .unwrap_or_default();
    format!(
        "{} {}. {}{label}",
        recording.end.words,
        answer(recording),
        counts(recording)
    )
}

/// What a frame's mark says of it.
pub fn frame(number: usize, frame: &Seen) -> String {
    let kind = match &frame.data {
        None => "empty".into(),
        Some(data) if data.transient => format!("transient, {} body bytes", frame.body()),
        Some(_) => format!("{} body bytes", frame.body()),
    };
    format!("frame {number} at byte {}: {kind}", frame.place)
}
