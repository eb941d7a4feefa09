//! Several channels in one recording: for each 20 ms a block of one stored frame a channel, in order (A.4.2).
//! The recording does not say how many channels it has, 1 to 8: the booking does. A channel's number counts
//! from 0.

use crate::raw::{self, slices};
use crate::refusal::{answered, Refusal};
use crate::walk::{Unit, Walk};
use crate::{frames, Frame, Frames, Record, Stop, BANDS, MOST_CHANNELS};
use core::iter::FusedIterator;

/// A block that was read.
#[derive(Clone, Debug, PartialEq, Eq, Hash)]
pub struct Block {
    /// Bytes of all its frames: where the next block begins.
    pub size: usize,
    records: [Option<Record>; MOST_CHANNELS],
    channels: usize,
}

impl Block {
    /// The record of each channel's frame; none of an empty frame.
    #[must_use]
    pub fn records(&self) -> &[Option<Record>] {
        &self.records[..self.channels]
    }
}

/// What was copied.
#[derive(Clone, Copy, Debug, PartialEq, Eq, Hash)]
pub struct Copied {
    /// Blocks of the recording of several channels: as many as each channel has frames.
    pub count: u32,
    /// Bytes written.
    pub length: usize,
}

/// Reads the block at the start of `src`: the codes of channel c from number 800 c of `codes` on, its tail
/// from byte 320 c of `tails` on.
///
/// Where a channel's frame is empty its parts stay as they were. Refused, in this order:
/// [`WrongChannels`](Refusal::WrongChannels) for a count outside 1 to 8, [`ShortRoom`](Refusal::ShortRoom),
/// [`NoByte`](Refusal::NoByte) at the end of a recording, that of the first frame that is not sound,
/// [`Cut`](Refusal::Cut) where the bytes end before a later channel's frame.
///
/// ```
/// use g719::{read_block, write_block, Frame, Mode, BANDS, CODES, FRAME_BYTES, TAIL_BYTES};
///
/// let frame = Frame::new(Mode::new(0).unwrap(), false, &[20; BANDS])?;
/// let (mut codes, mut tails) = ([0; 2 * CODES], [0; 2 * TAIL_BYTES]);
/// let mut stored = [0; 2 * FRAME_BYTES];
/// let size = write_block(&[Some(frame.record), None], &codes, &tails, &mut stored)?;
/// assert_eq!(size, 82); // a frame of 81 bytes and an empty one
///
/// let block = read_block(&stored[..size], 2, &mut codes, &mut tails)?;
/// assert_eq!(block.records(), [Some(frame.record), None]);
/// assert_eq!(block.size, 82);
/// # Ok::<(), g719::Refusal>(())
/// ```
pub fn read_block(src: &[u8], channels: u8, codes: &mut [u16], tails: &mut [u8]) -> Result<Block, Refusal> {
    let block = slices::read_block(src, channels, codes, tails);
    answered(block.reply)?;
    let channels = usize::from(channels);
    let mut records = [None; MOST_CHANNELS];
    for (record, reading) in records.iter_mut().zip(&block.frames[..channels]) {
        *record = Record::answered(reading)?;
    }
    Ok(Block {
        size: block.next,
        records,
        channels,
    })
}

/// A record that is not looked at.
const UNREAD: raw::Record = raw::Record {
    mode: 0,
    transient: 0,
    flag_l: 0,
    flag_n: 0,
    flag_c: 0,
    norms: [0; BANDS],
    noise: 0,
    tail_bits: 0,
};

/// Writes a block of one frame a record, an empty one where there is none, codes and tails standing as in
/// [`read_block`]; answers the bytes written.
///
/// Refused, in this order: [`WrongChannels`](Refusal::WrongChannels) for other than 1 to 8 records,
/// [`ShortRoom`](Refusal::ShortRoom) for codes and tails, that of the first frame that cannot be written,
/// [`ShortRoom`](Refusal::ShortRoom) for `out`.
pub fn write_block(
    records: &[Option<Record>],
    codes: &[u16],
    tails: &[u8],
    out: &mut [u8],
) -> Result<usize, Refusal> {
    let channels = u8::try_from(records.len()).unwrap_or(u8::MAX);
    let mut taken = raw::Records {
        at: [UNREAD; MOST_CHANNELS],
        empty: [0; MOST_CHANNELS],
    };
    for (channel, record) in records.iter().take(MOST_CHANNELS).enumerate() {
        match record {
            Some(record) => taken.at[channel] = record.to_raw(),
            None => taken.empty[channel] = 1,
        }
    }
    let writing = slices::write_block(&taken, channels, codes, tails, out);
    answered(writing.reply)?;
    Ok(writing.next)
}

/// [`check`](crate::check) over blocks: count and booked count blocks, the place is that of the block that
/// stopped it.
///
/// [`WrongChannels`](Refusal::WrongChannels) for a channel count outside 1 to 8; [`Cut`](Refusal::Cut) also
/// for a block that lacks a frame.
pub fn check_blocks(src: &[u8], channels: u8, booked: u32) -> Result<(), Stop> {
    Stop::answered(slices::check_blocks(src, channels, booked))
}

/// A sound block where it is stored.
#[derive(Clone, Copy, Debug, PartialEq, Eq, Hash)]
pub struct StoredBlock<'a> {
    /// Its number, from 0.
    pub number: u32,
    /// The byte of the recording at which it begins.
    pub place: usize,
    /// Its bytes: the frames of all channels, in order.
    pub bytes: &'a [u8],
}

impl<'a> StoredBlock<'a> {
    /// Its frames, channel by channel: their numbers are those of the channels, their places count from the
    /// block's start.
    pub fn frames(&self) -> Frames<'a> {
        frames(self.bytes)
    }
}

/// The blocks of a recording of several channels, in order: see [`blocks`].
#[derive(Clone, Debug)]
#[must_use = "an iterator reads nothing until it is asked"]
pub struct Blocks<'a> {
    walk: Walk<'a>,
    channels: u8,
}

/// Goes through a recording of several channels block by block, over its borrowed bytes. Each frame is read in
/// full.
///
/// It ends behind the last sound block, or gives one [`Stop`] where [`check_blocks`] would stop, and ends.
///
/// ```
/// use g719::{blocks, Refusal};
/// let mut found = blocks(&[0, 0, 0], 2); // a block of two empty frames, and one that lacks a frame
/// let block = found.next().unwrap()?;
/// assert_eq!((block.number, block.place, block.frames().count()), (0, 0, 2));
/// let stop = found.next().unwrap().unwrap_err();
/// assert_eq!((stop.refusal, stop.count, stop.place), (Refusal::Cut, 1, 2));
/// assert!(found.next().is_none());
/// # Ok::<(), g719::Stop>(())
/// ```
pub fn blocks(src: &[u8], channels: u8) -> Blocks<'_> {
    Blocks {
        walk: Walk::new(src),
        channels,
    }
}

/// Bytes of the block at the start of `rest`, which has a byte.
fn block_size(rest: &[u8], channels: u8) -> Result<usize, Refusal> {
    let mut size = 0;
    for _ in 0..channels {
        let frame = match Frame::read(&rest[size..]) {
            // the block has begun, so a frame is missing in it
            Err(Refusal::NoByte) => return Err(Refusal::Cut),
            read => read?,
        };
        size += frame.map_or(1, |frame| frame.size());
    }
    Ok(size)
}

impl<'a> Iterator for Blocks<'a> {
    type Item = Result<StoredBlock<'a>, Stop>;

    fn next(&mut self) -> Option<Self::Item> {
        let channels = self.channels;
        if !(1..=MOST_CHANNELS).contains(&channels.into()) {
            return self.walk.refuse(Refusal::WrongChannels);
        }
        let read = |rest: &[u8]| Ok((block_size(rest, channels)?, ()));
        let stored = |(unit, ()): (Unit<'a>, ())| StoredBlock {
            number: unit.number,
            place: unit.place,
            bytes: unit.bytes,
        };
        Some(self.walk.next(read)?.map(stored))
    }
}

impl FusedIterator for Blocks<'_> {}

/// What a copying call answers.
fn copied(copied: raw::Copied) -> Result<Copied, Stop> {
    let stop = |refusal| Stop {
        refusal,
        count: copied.count,
        place: copied.place,
        recording: usize::from(copied.which).checked_sub(1),
    };
    match Refusal::from_number(copied.reply) {
        Some(refusal) => Err(stop(refusal)),
        None => Ok(Copied {
            count: copied.count,
            length: copied.length,
        }),
    }
}

/// Takes one channel, counted from 0, out of a recording: its frames, as stored. A room as long as `src` is
/// always enough.
///
/// Refused, in this order: [`WrongChannels`](Refusal::WrongChannels), as [`check_blocks`] but for the booked
/// count, [`ShortRoom`](Refusal::ShortRoom).
pub fn extract(src: &[u8], channels: u8, channel: u8, out: &mut [u8]) -> Result<Copied, Stop> {
    copied(slices::extract(src, channels, channel, out))
}

/// Joins recordings of one channel and of equal frame count, frames as stored. They stand one behind the
/// other in `src`, with the bytes of each in `lengths`. A room of all their bytes is enough, and [`extract`]
/// takes each out again.
///
/// Refused, in this order: [`WrongChannels`](Refusal::WrongChannels) for other than 1 to 8 lengths,
/// [`ShortRoom`](Refusal::ShortRoom) where they add up to more than `src` holds, as [`check`](crate::check)
/// but for the booked count of the first recording that is not sound,
/// [`WrongChannels`](Refusal::WrongChannels) for unequal frame counts, [`ShortRoom`](Refusal::ShortRoom) for
/// `out`.
///
/// ```
/// use g719::{extract, join};
/// let mut both = [9; 4];
/// let joined = join(&[0, 0, 0, 0], &[2, 2], &mut both)?; // two recordings of two empty frames
/// assert_eq!((joined.count, joined.length), (2, 4));
/// let mut one = [9; 2];
/// extract(&both, 2, 1, &mut one)?;
/// assert_eq!(one, [0, 0]);
/// # Ok::<(), g719::Stop>(())
/// ```
pub fn join(src: &[u8], lengths: &[u32], out: &mut [u8]) -> Result<Copied, Stop> {
    copied(slices::join(src, lengths, out))
}
