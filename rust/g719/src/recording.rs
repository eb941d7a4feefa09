//! Recordings of one channel: checked, and gone through frame by frame.

use crate::raw::{self, slices};
use crate::refusal::Refusal;
use crate::walk::{Unit, Walk};
use crate::Frame;
use core::fmt;
use core::iter::FusedIterator;

/// Where a recording stops to be sound, or that it is not as long as booked.
#[derive(Clone, Copy, Debug, PartialEq, Eq, Hash)]
pub struct Stop {
    /// Why.
    pub refusal: Refusal,
    /// Sound frames before the stop, empty ones among them; of several channels, blocks.
    pub count: u32,
    /// The byte at which the refused frame or block begins, or the end: from here ask again.
    pub place: usize,
    /// Of [`join`](crate::join): which recording was refused, counted from 0.
    pub recording: Option<usize>,
}

impl Stop {
    /// What a check answers.
    pub(crate) fn answered(check: raw::Check) -> Result<(), Stop> {
        let stop = |refusal| Stop {
            refusal,
            count: check.count,
            place: check.place,
            recording: None,
        };
        Refusal::from_number(check.reply).map_or(Ok(()), |refusal| Err(stop(refusal)))
    }
}

impl fmt::Display for Stop {
    fn fmt(&self, formatter: &mut fmt::Formatter<'_>) -> fmt::Result {
        if let Some(recording) = self.recording {
            write!(formatter, "recording {recording}: ")?;
        }
        write!(
            formatter,
            "{} (at byte {}, {} sound)",
            self.refusal, self.place, self.count
        )
    }
}

impl core::error::Error for Stop {
    fn source(&self) -> Option<&(dyn core::error::Error + 'static)> {
        Some(&self.refusal)
    }
}

#[cfg(feature = "std")]
impl From<Stop> for std::io::Error {
    fn from(stop: Stop) -> Self {
        std::io::Error::new(std::io::ErrorKind::InvalidData, stop)
    }
}

/// Reads every frame of a recording in full and holds their count against the booked one.
///
/// The first frame that is not sound stops it, with that frame's refusal; [`TooMany`](Refusal::TooMany) for a
/// byte after 3,000 sound frames; at the end [`NotAsBooked`](Refusal::NotAsBooked) if there are more or
/// fewer.
///
/// ```
/// use g719::{check, Refusal};
/// assert_eq!(check(&[0, 0], 2), Ok(()));
/// let stop = check(&[0, 0x20], 2).unwrap_err();
/// assert_eq!((stop.refusal, stop.count, stop.place), (Refusal::Cut, 1, 1));
/// ```
pub fn check(src: &[u8], booked: u32) -> Result<(), Stop> {
    Stop::answered(slices::check_file(src, booked))
}

/// A sound frame where it is stored.
#[derive(Clone, Debug, PartialEq, Eq)]
pub struct Stored<'a> {
    /// Its number, from 0.
    pub number: u32,
    /// The byte of the recording at which it begins.
    pub place: usize,
    /// Its bytes, prefix byte and body.
    pub bytes: &'a [u8],
    /// What it holds; none of an empty frame.
    pub frame: Option<Frame>,
}

/// The frames of a recording, in order: see [`frames`].
#[derive(Clone, Debug)]
#[must_use = "an iterator reads nothing until it is asked"]
pub struct Frames<'a>(Walk<'a>);

/// Goes through a recording frame by frame, over its borrowed bytes. Each frame is read in full.
///
/// It ends behind the last sound frame, or gives one [`Stop`] where [`check`] would stop, and ends. Whether all
/// frames are there only the booked count tells.
///
/// ```
/// use g719::{frames, Refusal};
/// let mut found = frames(&[0, 0, 0x80]);
/// assert_eq!(found.next().unwrap()?.place, 0);
/// assert_eq!(found.next().unwrap()?.frame, None);
/// let stop = found.next().unwrap().unwrap_err();
/// assert_eq!((stop.refusal, stop.count, stop.place), (Refusal::Marked, 2, 2));
/// assert!(found.next().is_none());
/// # Ok::<(), g719::Stop>(())
/// ```
pub fn frames(src: &[u8]) -> Frames<'_> {
    Frames(Walk::new(src))
}

impl<'a> Iterator for Frames<'a> {
    type Item = Result<Stored<'a>, Stop>;

    fn next(&mut self) -> Option<Self::Item> {
        let read = |rest: &[u8]| {
            let frame = Frame::read(rest)?;
            Ok((frame.as_ref().map_or(1, Frame::size), frame))
        };
        let stored = |(unit, frame): (Unit<'a>, _)| Stored {
            number: unit.number,
            place: unit.place,
            bytes: unit.bytes,
            frame,
        };
        Some(self.0.next(read)?.map(stored))
    }
}

impl FusedIterator for Frames<'_> {}
