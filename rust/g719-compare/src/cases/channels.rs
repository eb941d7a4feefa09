//! Blocks of several channels, recordings of them, and recordings to join.

use super::frames::{any_frame, sound_frame};
use super::recordings::damage;
use super::records::sound;
use super::room;
use super::writes::{case_of, write_case, WriteCase};
use crate::random::Random;
use g719_reference as reference;
use g719_reference::types::{Record, Records, CODES, MOST_CHANNELS, TAIL_BYTES};

/// Input of the block reader.
#[derive(Clone, Debug)]
pub struct ReadBlockCase {
    pub src: Vec<u8>,
    pub channels: u8,
    pub codes: Vec<u16>,
    pub tails: Vec<u8>,
}

/// Input of the block writer.
#[derive(Clone, Debug)]
pub struct WriteBlockCase {
    pub records: Records,
    pub channels: u8,
    pub codes: Vec<u16>,
    pub tails: Vec<u8>,
    pub out: Vec<u8>,
}

/// Input of the check of blocks.
#[derive(Clone, Debug)]
pub struct BlocksCase {
    pub src: Vec<u8>,
    pub channels: u8,
    pub booking: u32,
}

/// Input of taking a channel out.
#[derive(Clone, Debug)]
pub struct ExtractCase {
    pub src: Vec<u8>,
    pub channels: u8,
    pub channel: u8,
    pub out: Vec<u8>,
}

/// Input of joining recordings.
#[derive(Clone, Debug)]
pub struct JoinCase {
    pub src: Vec<u8>,
    pub lengths: Vec<u32>,
    pub out: Vec<u8>,
}

/// An output that needs so many bytes: once in eight times with hardly any.
fn output(random: &mut Random, needed: usize) -> Vec<u8> {
    let count = if needed == 0 || random.once_in(8) {
        random.below(3)
    } else {
        room(random, needed)
    };
    random.bytes(count)
}

/// The number of channels that a call is told: mostly the true one.
fn told(random: &mut Random, channels: usize) -> u8 {
    match random.below(16) {
        0 => random.pick(&[0, 9, 10, 255]),
        1 => 1 + random.below(MOST_CHANNELS) as u8,
        _ => channels as u8,
    }
}

/// A sound frame with any R, empty once in three times.
fn stored_frame(random: &mut Random) -> Vec<u8> {
    let mut frame = if random.once_in(3) {
        vec![0]
    } else {
        sound_frame(random)
    };
    frame[0] |= random.below(4) as u8;
    frame
}

/// Some frames to draw from: a few with data and an empty one of each R.
fn pool(random: &mut Random) -> Vec<Vec<u8>> {
    let mut pool: Vec<Vec<u8>> = (0..4).map(|_| stored_frame(random)).collect();
    pool.extend((0..4).map(|reserved| vec![reserved]));
    pool
}

/// So many frames of a pool.
fn frames(random: &mut Random, pool: &[Vec<u8>], count: usize) -> Vec<u8> {
    let frames: Vec<&[u8]> = (0..count).map(|_| &pool[random.below(pool.len())][..]).collect();
    frames.concat()
}

/// Frames of a block, one of them damaged once in two times.
fn block(random: &mut Random, channels: usize) -> Vec<u8> {
    let mut frames: Vec<Vec<u8>> = (0..channels).map(|_| stored_frame(random)).collect();
    if random.flag() {
        frames[random.below(channels)] = any_frame(random);
    }
    frames.concat()
}

/// Blocks of one to eight channels, cut, damaged, with bytes behind them.
pub fn read_block_case(seed: u64) -> ReadBlockCase {
    let mut random = Random::new(seed);
    let channels = 1 + random.below(MOST_CHANNELS);
    let mut src = block(&mut random, channels);
    match random.below(8) {
        0 => src.truncate(random.below(src.len() + 1)),
        1 => src.truncate(random.pick(&[0, 1, src.len().saturating_sub(1)])),
        2 | 3 => src.extend(block(&mut random, channels)),
        _ => {}
    }
    let codes = room(&mut random, CODES * channels);
    let tails = room(&mut random, TAIL_BYTES * channels);
    ReadBlockCase {
        src,
        channels: told(&mut random, channels),
        codes: random.numbers(codes),
        tails: random.bytes(tails),
    }
}

/// A record of no meaning.
fn any_record(random: &mut Random) -> Record {
    Record {
        mode: random.next() as u8,
        transient: random.flag(),
        flag_l: random.flag(),
        flag_n: random.flag(),
        flag_c: random.flag(),
        norms: std::array::from_fn(|_| random.next() as u8),
        noise: random.next() as u8,
        tail_bits: random.next() as u16,
    }
}

/// A channel's record, 800 codes, 320 bytes of tail and room for its frame;
/// once in so many times with something wrong.
fn channel_case(random: &mut Random, wrong: usize) -> WriteCase {
    let mut case = if random.once_in(wrong) {
        write_case(random.next())
    } else {
        let sound = sound(random);
        case_of(random, &sound)
    };
    case.codes.resize(CODES, 0);
    case.tail.resize(TAIL_BYTES, 0);
    case
}

/// An empty frame beside a record, codes and tail of no meaning.
fn empty_channel(random: &mut Random) -> WriteCase {
    WriteCase {
        record: any_record(random),
        codes: random.numbers(CODES),
        tail: random.bytes(TAIL_BYTES),
        out: vec![0],
    }
}

/// Records of one to eight channels; those past the last have no meaning.
pub fn write_block_case(seed: u64) -> WriteBlockCase {
    let mut random = Random::new(seed);
    let channels = 1 + random.below(MOST_CHANNELS);
    let mut records = Records {
        at: std::array::from_fn(|_| any_record(&mut random)),
        empty: std::array::from_fn(|_| random.once_in(3)),
    };
    let (mut codes, mut tails, mut needed) = (Vec::new(), Vec::new(), 0);
    for channel in 0..channels {
        let case = if records.empty[channel] {
            empty_channel(&mut random)
        } else {
            channel_case(&mut random, 2 * channels)
        };
        records.at[channel] = case.record;
        codes.extend(case.codes);
        tails.extend(case.tail);
        needed += case.out.len();
    }
    let count = room(&mut random, codes.len());
    codes.resize_with(count, || random.next() as u16);
    let count = room(&mut random, tails.len());
    tails.resize_with(count, || random.next() as u8);
    WriteBlockCase {
        records,
        channels: told(&mut random, channels),
        codes,
        tails,
        out: output(&mut random, needed),
    }
}

/// So many blocks of empty frames, one frame with data among them.
fn nearly_empty(random: &mut Random, channels: usize, blocks: usize) -> Vec<u8> {
    let mut src: Vec<u8> = (0..channels * blocks).map(|_| random.below(4) as u8).collect();
    let at = random.below(src.len());
    src.splice(at..=at, sound_frame(random));
    src
}

/// A recording, its channels and its blocks: a few, or 2,999 to 3,001; once
/// in two times damaged.
fn recording(random: &mut Random) -> (Vec<u8>, usize, usize) {
    let channels = 1 + random.below(MOST_CHANNELS);
    let (mut src, blocks) = if random.once_in(32) {
        let blocks = random.between(2999, 3001) as usize;
        (nearly_empty(random, channels, blocks), blocks)
    } else {
        let (pool, blocks) = (pool(random), random.below(6));
        (frames(random, &pool, channels * blocks), blocks)
    };
    if random.flag() {
        damage(random, &mut src);
    }
    (src, channels, blocks)
}

pub fn blocks_case(seed: u64) -> BlocksCase {
    let mut random = Random::new(seed);
    let (src, channels, blocks) = recording(&mut random);
    let booking = match random.below(6) {
        0 => blocks as u32 + 1,
        1 => blocks.saturating_sub(1) as u32,
        2 => random.pick(&[0, 3000, 3001, u32::MAX]),
        _ => blocks as u32,
    };
    BlocksCase {
        src,
        channels: told(&mut random, channels),
        booking,
    }
}

pub fn extract_case(seed: u64) -> ExtractCase {
    let mut random = Random::new(seed);
    let (src, channels, _) = recording(&mut random);
    let channels = told(&mut random, channels);
    let channel = match random.below(16) {
        0 => random.pick(&[channels, 8, 255]),
        _ => random.below(usize::from(channels).max(1)) as u8,
    };
    let length = reference::extract(&src, channels, channel, &mut vec![0; src.len()]).length;
    ExtractCase {
        src,
        channels,
        channel,
        out: output(&mut random, length),
    }
}

/// Recordings of one channel, mostly of equal frame count.
fn recordings(random: &mut Random, count: usize) -> Vec<Vec<u8>> {
    if random.once_in(32) {
        let frames = random.between(2999, 3001) as usize;
        let long = |_| (0..frames).map(|_| random.below(4) as u8).collect();
        return (0..count).map(long).collect();
    }
    let pool = pool(random);
    let of_all = random.below(6);
    let one = |_| {
        let of_this = if random.once_in(8 * count) {
            random.below(6)
        } else {
            of_all
        };
        frames(random, &pool, of_this)
    };
    (0..count).map(one).collect()
}

/// Lengths that add up to more than there is, or that cut elsewhere.
fn change_lengths(random: &mut Random, lengths: &mut [u32]) {
    let length = &mut lengths[random.below(lengths.len())];
    *length = match random.below(4) {
        0 => u32::MAX,
        1 => length.saturating_sub(1),
        2 => 0,
        _ => *length + 1,
    };
}

pub fn join_case(seed: u64) -> JoinCase {
    let mut random = Random::new(seed);
    let count = random.pick(&[1, 2, 2, 3, 4, 5, 6, 7, 8, 8]);
    let mut parts = recordings(&mut random, count);
    if random.once_in(3) {
        let at = random.below(count);
        damage(&mut random, &mut parts[at]);
    }
    let mut lengths: Vec<u32> = parts.iter().map(|part| part.len() as u32).collect();
    let mut src = parts.concat();
    match random.below(16) {
        0 => lengths.clear(),
        1 => lengths.resize(random.pick(&[9, 10, 40]), 0),
        2 => change_lengths(&mut random, &mut lengths),
        3 => src.truncate(src.len().saturating_sub(1)),
        4 => src.extend(stored_frame(&mut random)),
        _ => {}
    }
    let needed = parts.iter().map(Vec::len).sum();
    JoinCase {
        src,
        lengths,
        out: output(&mut random, needed),
    }
}
