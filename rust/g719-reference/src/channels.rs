//! Several channels in one recording (A.4.2): for each 20 ms a block of one
//! stored frame per channel.

use crate::prefix::read_prefix;
use crate::reader::read;
use crate::recording::{walk, MOST_FRAMES};
use crate::reply;
use crate::types::{
    Block, Check, Copied, Reading, Records, Writing, CODES, FRAME_BYTES, MOST_CHANNELS, TAIL_BYTES,
};
use crate::writer::write;

/// Codes and tails of a block's frames, channel by channel.
struct Rooms {
    codes: [[u16; CODES]; MOST_CHANNELS],
    tails: [[u8; TAIL_BYTES]; MOST_CHANNELS],
}

impl Rooms {
    fn new() -> Self {
        Rooms {
            codes: [[0; CODES]; MOST_CHANNELS],
            tails: [[0; TAIL_BYTES]; MOST_CHANNELS],
        }
    }
}

/// The number of channels, or reply 17 unless it is 1–8.
fn channel_count(channels: usize) -> Result<usize, u8> {
    match channels {
        1..=MOST_CHANNELS => Ok(channels),
        _ => Err(reply::WRONG_CHANNELS),
    }
}

/// Reads the block at the start of `src` in full. A refused frame gives its
/// own reply; a missing one gives 1 where the block would start, else 4.
fn read_frames(src: &[u8], channels: usize, rooms: &mut Rooms) -> Result<Block, u8> {
    let mut block = Block {
        reply: reply::DONE,
        next: 0,
        frames: [Reading::NONE; MOST_CHANNELS],
    };
    for channel in 0..channels {
        let rest = &src[block.next..];
        if rest.is_empty() && channel > 0 {
            return Err(reply::CUT);
        }
        let reading = read(rest, &mut rooms.codes[channel], &mut rooms.tails[channel]);
        if !matches!(reading.reply, reply::DONE | reply::NO_DATA) {
            return Err(reading.reply);
        }
        block.next += reading.next;
        block.frames[channel] = reading;
    }
    Ok(block)
}

/// Reads a block into the lent rooms, which an empty frame leaves alone.
fn read_whole(src: &[u8], channels: u8, codes: &mut [u16], tails: &mut [u8]) -> Result<Block, u8> {
    let channels = channel_count(channels.into())?;
    if codes.len() < CODES * channels || tails.len() < TAIL_BYTES * channels {
        return Err(reply::SHORT_ROOM);
    }
    let mut rooms = Rooms::new();
    let block = read_frames(src, channels, &mut rooms)?;
    for channel in 0..channels {
        if block.frames[channel].reply == reply::DONE {
            codes[CODES * channel..][..CODES].copy_from_slice(&rooms.codes[channel]);
            tails[TAIL_BYTES * channel..][..TAIL_BYTES].copy_from_slice(&rooms.tails[channel]);
        }
    }
    Ok(block)
}

/// Reads the block at the start of `src`: the codes of channel c from number
/// 800 c of `codes` on, its tail from byte 320 c of `tails` on.
pub fn read_block(src: &[u8], channels: u8, codes: &mut [u16], tails: &mut [u8]) -> Block {
    read_whole(src, channels, codes, tails).unwrap_or_else(|reply| Block {
        reply,
        next: 0,
        frames: [Reading::NONE; MOST_CHANNELS],
    })
}

/// Writes a block: 17, the rooms of codes and tails, each frame's own causes
/// channel by channel, then the output's room. Gives the next place.
fn write_whole(
    records: &Records,
    channels: u8,
    codes: &[u16],
    tails: &[u8],
    out: &mut [u8],
) -> Result<usize, u8> {
    let channels = channel_count(channels.into())?;
    if codes.len() < CODES * channels || tails.len() < TAIL_BYTES * channels {
        return Err(reply::SHORT_ROOM);
    }
    let mut block = [0; FRAME_BYTES * MOST_CHANNELS];
    let mut next = 0;
    for channel in 0..channels {
        if records.empty[channel] {
            block[next] = 0;
            next += 1;
            continue;
        }
        let codes = &codes[CODES * channel..];
        let tail = &tails[TAIL_BYTES * channel..];
        let writing = write(&records.at[channel], codes, tail, &mut block[next..]);
        if writing.reply != reply::DONE {
            return Err(writing.reply);
        }
        next += writing.next;
    }
    let out = out.get_mut(..next).ok_or(reply::SHORT_ROOM)?;
    out.copy_from_slice(&block[..next]);
    Ok(next)
}

/// Writes a block from the codes at 800 c and the tail at 320 c of each
/// channel c that is not empty.
pub fn write_block(records: &Records, channels: u8, codes: &[u16], tails: &[u8], out: &mut [u8]) -> Writing {
    match write_whole(records, channels, codes, tails, out) {
        Ok(next) => Writing {
            reply: reply::DONE,
            next,
        },
        Err(reply) => Writing { reply, next: 0 },
    }
}

/// Reads block after block to the end of `src`. Gives the sound blocks, and
/// the reply and place of the end.
fn walk_blocks(src: &[u8], channels: usize) -> Check {
    let mut rooms = Rooms::new();
    let mut check = Check {
        reply: reply::DONE,
        count: 0,
        place: 0,
    };
    while check.reply == reply::DONE && check.place < src.len() {
        if check.count == MOST_FRAMES {
            check.reply = reply::TOO_MANY;
            break;
        }
        match read_frames(&src[check.place..], channels, &mut rooms) {
            Ok(block) => {
                check.count += 1;
                check.place += block.next;
            }
            Err(reply) => check.reply = reply,
        }
    }
    check
}

/// Reads every block of a file in full and holds their count against the
/// booking.
pub fn check_blocks(src: &[u8], channels: u8, booking: u32) -> Check {
    let Ok(channels) = channel_count(channels.into()) else {
        return Check {
            reply: reply::WRONG_CHANNELS,
            count: 0,
            place: 0,
        };
    };
    let mut check = walk_blocks(src, channels);
    if check.reply == reply::DONE && check.count != booking {
        check.reply = reply::NOT_AS_BOOKED;
    }
    check
}

/// A refusal whose other fields are 0.
fn refused(reply: u8) -> Copied {
    Copied {
        reply,
        which: 0,
        count: 0,
        place: 0,
        length: 0,
    }
}

/// What a check found, and no byte written.
fn stopped(check: Check, which: u8) -> Copied {
    Copied {
        which,
        count: check.count,
        place: check.place,
        ..refused(check.reply)
    }
}

/// The frames of a recording that was found sound, as stored.
fn frames(src: &[u8]) -> impl Iterator<Item = &[u8]> {
    let mut rest = src;
    std::iter::from_fn(move || {
        let size = 1 + usize::from(read_prefix(rest).bytes);
        let (frame, after) = rest.split_at_checked(size)?;
        rest = after;
        Some(frame)
    })
}

/// Puts slices one behind the other; they fill `out`.
fn put<'a>(slices: impl Iterator<Item = &'a [u8]>, out: &mut [u8]) {
    let mut at = 0;
    for slice in slices {
        out[at..at + slice.len()].copy_from_slice(slice);
        at += slice.len();
    }
}

/// Takes a channel, counted from 0, out of a recording.
fn take_out(src: &[u8], channels: u8, channel: u8, out: &mut [u8]) -> Result<Copied, Copied> {
    let channels = channel_count(channels.into()).map_err(refused)?;
    let channel = usize::from(channel);
    if channel >= channels {
        return Err(refused(reply::WRONG_CHANNELS));
    }
    let check = walk_blocks(src, channels);
    if check.reply != reply::DONE {
        return Err(stopped(check, 0));
    }
    let own = || frames(src).skip(channel).step_by(channels);
    let length = own().map(<[u8]>::len).sum();
    let room = out.get_mut(..length).ok_or(refused(reply::SHORT_ROOM))?;
    put(own(), room);
    Ok(Copied {
        length,
        ..stopped(check, 0)
    })
}

/// Writes the frames of one channel, counted from 0, as stored.
pub fn extract(src: &[u8], channels: u8, channel: u8, out: &mut [u8]) -> Copied {
    take_out(src, channels, channel, out).unwrap_or_else(|refusal| refusal)
}

/// The recordings that stand one behind the other in `src`, or reply 10 where
/// they are longer than it.
fn recordings<'a>(src: &'a [u8], lengths: &[u32]) -> Result<Vec<&'a [u8]>, u8> {
    let mut rest = src;
    let part = |&length: &u32| {
        let (part, after) = rest.split_at_checked(length as usize)?;
        rest = after;
        Some(part)
    };
    let parts: Option<Vec<&[u8]>> = lengths.iter().map(part).collect();
    parts.ok_or(reply::SHORT_ROOM)
}

/// The frame count that sound recordings have in common.
fn common_count(recordings: &[&[u8]]) -> Result<u32, Copied> {
    let mut counts = Vec::new();
    for (which, recording) in (1..).zip(recordings) {
        let check = walk(recording, |_, _, _| {});
        if check.reply != reply::DONE {
            return Err(stopped(check, which));
        }
        counts.push(check.count);
    }
    if counts.iter().any(|&count| count != counts[0]) {
        return Err(refused(reply::WRONG_CHANNELS));
    }
    Ok(counts[0])
}

/// Joins recordings of one channel.
fn put_together(src: &[u8], lengths: &[u32], out: &mut [u8]) -> Result<Copied, Copied> {
    channel_count(lengths.len()).map_err(refused)?;
    let recordings = recordings(src, lengths).map_err(refused)?;
    let count = common_count(&recordings)?;
    let length = recordings.iter().map(|recording| recording.len()).sum();
    let room = out.get_mut(..length).ok_or(refused(reply::SHORT_ROOM))?;
    let mut channels: Vec<_> = recordings.into_iter().map(frames).collect();
    let blocks = (0..count).flat_map(|_| {
        let block: Vec<&[u8]> = channels.iter_mut().filter_map(Iterator::next).collect();
        block
    });
    put(blocks, room);
    Ok(Copied {
        count,
        length,
        ..refused(reply::DONE)
    })
}

/// Writes a block of the frames of all recordings, as stored, for each of
/// their frames. The recordings stand one behind the other in `src`.
pub fn join(src: &[u8], lengths: &[u32], out: &mut [u8]) -> Copied {
    put_together(src, lengths, out).unwrap_or_else(|refusal| refusal)
}
