//! The walk over a recording: one stored unit, a frame or a block, after the other.

use crate::refusal::Refusal;
use crate::{Stop, MOST_FRAMES};

/// A unit where it is stored.
pub(crate) struct Unit<'a> {
    pub(crate) number: u32,
    pub(crate) place: usize,
    pub(crate) bytes: &'a [u8],
}

/// How far a walk has come.
#[derive(Clone, Debug)]
pub(crate) struct Walk<'a> {
    src: &'a [u8],
    place: usize,
    number: u32,
    stopped: bool,
}

impl<'a> Walk<'a> {
    pub(crate) const fn new(src: &'a [u8]) -> Self {
        Walk {
            src,
            place: 0,
            number: 0,
            stopped: false,
        }
    }

    /// The next unit, with what is found in it: `read` tells its size from the bytes that begin with it. A byte
    /// behind 3,000 units is not read.
    pub(crate) fn next<T>(
        &mut self,
        read: impl FnOnce(&'a [u8]) -> Result<(usize, T), Refusal>,
    ) -> Option<Result<(Unit<'a>, T), Stop>> {
        let rest = &self.src[self.place..];
        if self.stopped || rest.is_empty() {
            return None;
        }
        let read = match self.number {
            MOST_FRAMES => Err(Refusal::TooMany),
            _ => read(rest),
        };
        Some(match read {
            Ok((size, found)) => {
                let unit = Unit {
                    number: self.number,
                    place: self.place,
                    bytes: &rest[..size],
                };
                self.number += 1;
                self.place += size;
                Ok((unit, found))
            }
            Err(refusal) => Err(self.stop(refusal)),
        })
    }

    /// Ends the walk here, if it has not ended.
    pub(crate) fn refuse<T>(&mut self, refusal: Refusal) -> Option<Result<T, Stop>> {
        (!self.stopped).then(|| Err(self.stop(refusal)))
    }

    fn stop(&mut self, refusal: Refusal) -> Stop {
        self.stopped = true;
        Stop {
            refusal,
            count: self.number,
            place: self.place,
            recording: None,
        }
    }
}
