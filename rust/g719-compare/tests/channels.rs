//! Several channels, on each side: reading and writing a block undo each
//! other, so do joining and taking out; cuts, limits, the order of replies,
//! and what refusals leave alone.

use g719_compare::calls::{Calls, LIBRARY, REFERENCE};
use g719_compare::cases::{blocks_case, join_case, read_block_case, write_block_case};
use g719_compare::cases::{JoinCase, ReadBlockCase, WriteBlockCase};
use g719_reference::types::{Block, Check, Copied, Reading, Record, Records, Writing, MOST_CHANNELS};

const SEEDS: std::ops::Range<u64> = 0..4_000;

const NO_FRAMES: [Reading; MOST_CHANNELS] = [Reading::NONE; MOST_CHANNELS];

fn copied(reply: u8, which: u8, count: u32, place: usize, length: usize) -> Copied {
    Copied {
        reply,
        which,
        count,
        place,
        length,
    }
}

/// Each frame of a block is what reading it alone gives, in its own part of
/// the rooms; an empty one leaves its part as it was lent.
fn frames_are_those_read_alone(calls: &Calls, case: &ReadBlockCase, block: &Block, after: &ReadBlockCase) {
    let (mut codes, mut tails) = (case.codes.clone(), case.tails.clone());
    let mut at = 0;
    let parts = codes.chunks_mut(800).zip(tails.chunks_mut(320));
    for (frame, (codes, tail)) in block.frames.iter().zip(parts.take(case.channels.into())) {
        let alone = (calls.read)(&case.src[at..], codes, tail);
        assert!(alone.reply == 0 || alone.reply == 14);
        assert_eq!(*frame, alone);
        at += alone.next;
    }
    assert_eq!(block.next, at);
    assert_eq!(
        block.frames[case.channels.into()..],
        NO_FRAMES[case.channels.into()..]
    );
    assert_eq!((&after.codes, &after.tails), (&codes, &tails));
}

/// The bytes of a block, with R 0 in each frame.
fn without_reserved(src: &[u8], block: &Block) -> Vec<u8> {
    let mut bytes = src[..block.next].to_vec();
    let mut at = 0;
    for frame in block.frames.iter().take_while(|frame| frame.next > 0) {
        bytes[at] &= !3;
        at += frame.next;
    }
    bytes
}

/// What writes a block that was read.
fn records_of(block: &Block) -> Records {
    Records {
        at: block.frames.map(|frame| frame.record),
        empty: block.frames.map(|frame| frame.reply == 14),
    }
}

fn write_after_read_gives_the_bytes(calls: &Calls) {
    let mut sound = 0;
    for seed in SEEDS {
        let case = read_block_case(seed);
        let mut after = case.clone();
        let block = (calls.read_block)(&case.src, case.channels, &mut after.codes, &mut after.tails);
        if block.reply != 0 {
            assert_eq!((block.next, block.frames), (0, NO_FRAMES));
            assert_eq!((&after.codes, &after.tails), (&case.codes, &case.tails));
            continue;
        }
        sound += 1;
        frames_are_those_read_alone(calls, &case, &block, &after);
        let mut out = vec![0xa5; block.next + 5];
        let records = records_of(&block);
        let writing = (calls.write_block)(&records, case.channels, &after.codes, &after.tails, &mut out);
        assert_eq!((writing.reply, writing.next), (0, block.next));
        assert_eq!(out[..block.next], without_reserved(&case.src, &block));
        assert_eq!(out[block.next..], [0xa5; 5]);
    }
    assert!(sound > 1000);
}

fn read_after_write_gives_the_parts(calls: &Calls) {
    let mut sound = 0;
    for seed in SEEDS {
        let WriteBlockCase {
            records,
            channels,
            codes,
            tails,
            mut out,
        } = write_block_case(seed);
        let lent = out.clone();
        let writing = (calls.write_block)(&records, channels, &codes, &tails, &mut out);
        if writing.reply != 0 {
            assert_eq!(writing.next, 0);
            assert_eq!(out, lent);
            continue;
        }
        sound += 1;
        assert_eq!(out[writing.next..], lent[writing.next..]);
        let mut rooms = (codes.clone(), tails.clone());
        let block = (calls.read_block)(&out[..writing.next], channels, &mut rooms.0, &mut rooms.1);
        assert_eq!((block.reply, block.next), (0, writing.next));
        assert_eq!(rooms, (codes, tails));
        for (channel, frame) in block.frames.iter().enumerate().take(channels.into()) {
            if records.empty[channel] {
                assert_eq!((frame.reply, frame.next), (14, 1));
            } else {
                assert_eq!((frame.reply, frame.record), (0, records.at[channel]));
            }
        }
    }
    assert!(sound > 1000);
}

/// The recordings of a join, if `src` holds them all.
fn parts_of(case: &JoinCase) -> Vec<&[u8]> {
    let mut rest = &case.src[..];
    let part = |&length: &u32| {
        let (part, after) = rest.split_at_checked(length as usize)?;
        rest = after;
        Some(part)
    };
    case.lengths.iter().map_while(part).collect()
}

/// A refused join: with 10 and 17 nothing else is told, else what the check
/// of the first recording that is not sound tells.
fn join_is_refused(calls: &Calls, case: &JoinCase, join: Copied) {
    if matches!(join.reply, 10 | 17) {
        assert_eq!(join, copied(join.reply, 0, 0, 0, 0));
        return;
    }
    let booking = u32::MAX;
    let parts = parts_of(case);
    let checks = parts.iter().map(|part| (calls.check_file)(part, booking));
    let found = (1..).zip(checks).find(|(_, check)| check.reply != 11);
    let (which, check) = found.expect("a recording that is not sound");
    assert_eq!(join, copied(check.reply, which, check.count, check.place, 0));
}

/// A join is sound, and each of its channels is the recording.
fn join_is_taken_apart(calls: &Calls, case: &JoinCase, join: Copied, out: &[u8]) {
    let (parts, joined) = (parts_of(case), &out[..join.length]);
    assert_eq!(join, copied(0, 0, join.count, 0, parts.concat().len()));
    let channels = parts.len() as u8;
    let check = Check {
        reply: 0,
        count: join.count,
        place: join.length,
    };
    assert_eq!((calls.check_blocks)(joined, channels, join.count), check);
    for (channel, part) in (0..).zip(parts) {
        let mut alone = vec![0xa5; part.len() + 3];
        let taken = (calls.extract)(joined, channels, channel, &mut alone);
        assert_eq!(taken, copied(0, 0, join.count, join.length, part.len()));
        assert_eq!(alone, [part, &[0xa5; 3]].concat());
    }
}

fn channels_of_a_join_are_the_recordings(calls: &Calls) {
    let mut counts = [0; MOST_CHANNELS + 1];
    for seed in SEEDS {
        let case = join_case(seed);
        let mut out = case.out.clone();
        let join = (calls.join)(&case.src, &case.lengths, &mut out);
        assert_eq!(out[join.length..], case.out[join.length..]);
        if join.reply == 0 {
            join_is_taken_apart(calls, &case, join, &out);
            counts[case.lengths.len()] += u32::from(join.length > 0);
        } else {
            join_is_refused(calls, &case, join);
        }
    }
    assert!(counts[1..].iter().all(|&count| count > 50), "{counts:?}");
}

/// The channels of a sound recording, each taken out, and joined again.
fn join_of_all_channels_is_the_recording(calls: &Calls) {
    let mut sound = 0;
    for seed in SEEDS {
        let case = blocks_case(seed);
        let check = (calls.check_blocks)(&case.src, case.channels, case.booking);
        if !matches!(check.reply, 0 | 11) {
            continue;
        }
        sound += 1;
        let (mut parts, mut lengths) = (Vec::new(), Vec::new());
        for channel in 0..case.channels {
            let mut out = vec![0; case.src.len()];
            let taken = (calls.extract)(&case.src, case.channels, channel, &mut out);
            assert_eq!(taken, copied(0, 0, check.count, case.src.len(), taken.length));
            parts.extend_from_slice(&out[..taken.length]);
            lengths.push(taken.length as u32);
        }
        let mut out = vec![0; case.src.len()];
        let join = (calls.join)(&parts, &lengths, &mut out);
        assert_eq!(join, copied(0, 0, check.count, 0, case.src.len()));
        assert_eq!(out, case.src);
    }
    assert!(sound > 1000);
}

/// What a refused check, taken out of or not, tells and leaves alone.
fn extract_tells_what_the_check_tells(calls: &Calls) {
    for seed in SEEDS {
        let case = blocks_case(seed);
        let check = (calls.check_blocks)(&case.src, case.channels, case.booking);
        if matches!(check.reply, 0 | 11) {
            continue;
        }
        let mut out = [0xa5; 4];
        let taken = (calls.extract)(&case.src, case.channels, 0, &mut out);
        assert_eq!(taken, copied(check.reply, 0, check.count, check.place, 0));
        assert_eq!(out, [0xa5; 4]);
        if check.reply == 17 {
            assert_eq!((check.count, check.place), (0, 0));
        }
    }
}

fn one_channel_is_the_file(calls: &Calls) {
    for seed in SEEDS {
        let case = blocks_case(seed);
        let check = (calls.check_file)(&case.src, case.booking);
        assert_eq!((calls.check_blocks)(&case.src, 1, case.booking), check);
    }
}

/// Stationary, 80 bytes, all indices 20, FlagL 1.
const RECORD: Record = Record {
    flag_l: true,
    norms: [20; 44],
    tail_bits: 6,
    ..Record::ZERO
};

/// A frame of 80 bytes, an empty one with R 2, and another of 80 with R 1.
fn small_block(calls: &Calls) -> Vec<u8> {
    let mut frame = [0; 81];
    let writing = (calls.write)(&RECORD, &[0; 800], &[0; 320], &mut frame);
    assert_eq!((writing.reply, writing.next), (0, 81));
    let mut block = frame.to_vec();
    block.push(2);
    block.extend(frame);
    block[82] |= 1;
    block
}

/// A block cut at any byte is 1 before its start and 4 behind it, alone and
/// behind a whole one; never is a recording cut inside a block sound.
fn cut_at_every_byte(calls: &Calls) {
    let block = small_block(calls);
    let two = [&block[..], &block[..]].concat();
    for cut in 0..block.len() {
        let (mut codes, mut tails) = ([7; 2400], [7; 960]);
        let reply = if cut == 0 { 1 } else { 4 };
        let read = (calls.read_block)(&block[..cut], 3, &mut codes, &mut tails);
        assert_eq!((read.reply, read.next, read.frames), (reply, 0, NO_FRAMES));
        assert_eq!((codes, tails), ([7; 2400], [7; 960]));
        let check = (calls.check_blocks)(&two[..block.len() + cut], 3, 1);
        let reply = if cut == 0 { 0 } else { 4 };
        assert_eq!((check.reply, check.count, check.place), (reply, 1, block.len()));
        let mut out = [0; 200];
        let taken = (calls.extract)(&two[..block.len() + cut], 3, 2, &mut out);
        let length = if cut == 0 { 81 } else { 0 };
        assert_eq!(taken, copied(reply, 0, 1, block.len(), length));
    }
    let read = (calls.read_block)(&two, 3, &mut [0; 2400], &mut [0; 960]);
    assert_eq!((read.reply, read.next), (0, 163));
    assert_eq!(read.frames.map(|frame| frame.reply), [0, 14, 0, 0, 0, 0, 0, 0]);
    assert_eq!(read.frames.map(|frame| frame.next), [81, 1, 81, 0, 0, 0, 0, 0]);
}

/// 3,000 blocks of empty frames are sound; a byte less cuts a block or the
/// count, a byte more is too many, whatever it is.
fn three_thousand_blocks(calls: &Calls) {
    for channels in 1..=MOST_CHANNELS {
        let most = 3000 * channels;
        let mut src = vec![0; most + 1];
        src[most] = 0x80;
        let check = |count: usize, booking| {
            let check = (calls.check_blocks)(&src[..count], channels as u8, booking);
            (check.reply, check.count, check.place)
        };
        assert_eq!(check(most, 3000), (0, 3000, most));
        assert_eq!(check(most, 3001), (11, 3000, most));
        assert_eq!(check(most + 1, 3000), (15, 3000, most));
        let less = if channels == 1 { 11 } else { 4 };
        assert_eq!(check(most - 1, 3000), (less, 2999, most - channels));

        let mut out = vec![0xa5; most + 1];
        let join = |lengths: &[u32], out: &mut [u8]| (calls.join)(&src, lengths, out);
        let lengths = vec![3000; channels];
        assert_eq!(join(&lengths, &mut out), copied(0, 0, 3000, 0, most));
        assert_eq!(out[..most], src[..most]);
        assert_eq!(out[most], 0xa5);
        let mut longer = lengths;
        longer[channels - 1] = 3001;
        let which = channels as u8;
        assert_eq!(join(&longer, &mut out), copied(15, which, 3000, 3000, 0));
    }
}

fn order_of_reading(calls: &Calls) {
    let reply = |src: &[u8], channels, codes: &mut [u16], tails: &mut [u8]| {
        (calls.read_block)(src, channels, codes, tails).reply
    };
    for channels in [0, 9, 255] {
        assert_eq!(reply(&[], channels, &mut [], &mut []), 17);
    }
    assert_eq!(reply(&[], 2, &mut [0; 1599], &mut [0; 640]), 10);
    assert_eq!(reply(&[], 2, &mut [0; 1600], &mut [0; 639]), 10);
    assert_eq!(reply(&[], 2, &mut [0; 1600], &mut [0; 640]), 1);
    assert_eq!(reply(&[0], 2, &mut [0; 1600], &mut [0; 640]), 4);
    assert_eq!(reply(&[0, 0x80], 2, &mut [0; 1600], &mut [0; 640]), 2);
    assert_eq!(reply(&[0x04, 0x80], 2, &mut [0; 1600], &mut [0; 640]), 3);
    assert_eq!(reply(&[0, 3, 0x80], 2, &mut [0; 1600], &mut [0; 640]), 0);
}

/// Records that come to be right, one thing after the other.
fn order_of_writing(calls: &Calls) {
    let far = Record {
        norms: std::array::from_fn(|band| if band == 5 { 3 } else { 20 }),
        ..RECORD
    };
    let mut records = Records {
        at: [far; MOST_CHANNELS],
        empty: [false; MOST_CHANNELS],
    };
    records.at[1].mode = 20;
    let reply = |records: &Records, channels, codes: &[u16], out: &mut [u8]| {
        (calls.write_block)(records, channels, codes, &[0; 640], out).reply
    };
    assert_eq!(reply(&records, 0, &[], &mut []), 17);
    assert_eq!(reply(&records, 9, &[], &mut []), 17);
    assert_eq!(reply(&records, 2, &[0; 1599], &mut []), 10);
    assert_eq!(reply(&records, 2, &[0; 1600], &mut []), 9);
    records.at[0] = RECORD;
    assert_eq!(reply(&records, 2, &[0; 1600], &mut []), 8);
    records.at[1] = RECORD;
    assert_eq!(reply(&records, 2, &[0; 1600], &mut [0; 161]), 10);
    assert_eq!(reply(&records, 2, &[0; 1600], &mut [0; 162]), 0);
    // An empty frame has no causes of its own, but its part of the rooms.
    records.at = [far; MOST_CHANNELS];
    records.empty = [true; MOST_CHANNELS];
    assert_eq!(reply(&records, 2, &[0; 1599], &mut [0; 2]), 10);
    assert_eq!(reply(&records, 2, &[0; 1600], &mut [0; 1]), 10);
    let mut out = [0xa5; 3];
    let writing = (calls.write_block)(&records, 2, &[9; 1600], &[9; 640], &mut out);
    assert_eq!((writing, out), (Writing { reply: 0, next: 2 }, [0, 0, 0xa5]));
}

fn order_of_extract(calls: &Calls) {
    let extract =
        |src: &[u8], channels, channel, out: &mut [u8]| (calls.extract)(src, channels, channel, out);
    for (channels, channel) in [(0, 0), (9, 0), (2, 2), (8, 8), (2, 255)] {
        assert_eq!(
            extract(&[0x80], channels, channel, &mut []),
            copied(17, 0, 0, 0, 0)
        );
    }
    assert_eq!(extract(&[0, 1, 0, 0x80], 2, 1, &mut []), copied(2, 0, 1, 2, 0));
    assert_eq!(extract(&[0, 1, 0], 2, 1, &mut []), copied(4, 0, 1, 2, 0));
    assert_eq!(extract(&[0, 1, 2, 3], 2, 1, &mut [0]), copied(10, 0, 0, 0, 0));
    let mut out = [9; 3];
    assert_eq!(extract(&[0, 1, 2, 3], 2, 1, &mut out), copied(0, 0, 2, 4, 2));
    assert_eq!(out, [1, 3, 9]);
    assert_eq!(extract(&[], 8, 7, &mut []), copied(0, 0, 0, 0, 0));
}

fn order_of_join(calls: &Calls) {
    let join = |src: &[u8], lengths: &[u32], out: &mut [u8]| (calls.join)(src, lengths, out);
    let zeros = |reply| copied(reply, 0, 0, 0, 0);
    assert_eq!(join(&[0x80], &[], &mut []), zeros(17));
    assert_eq!(join(&[0x80], &[9; 9], &mut []), zeros(17));
    assert_eq!(join(&[0x80, 0], &[1, 2], &mut []), zeros(10));
    assert_eq!(join(&[0x80, 0], &[u32::MAX; 8], &mut []), zeros(10));
    assert_eq!(join(&[0, 0x04, 0x80], &[2, 1], &mut []), copied(3, 1, 1, 1, 0));
    assert_eq!(join(&[0, 0, 0x80], &[1, 2], &mut []), copied(2, 2, 1, 1, 0));
    assert_eq!(join(&[0, 1, 2, 0x80], &[1, 2], &mut []), zeros(17));
    assert_eq!(join(&[0, 1, 2, 3, 0x80], &[2, 2], &mut [0; 3]), zeros(10));
    let mut out = [9; 5];
    assert_eq!(
        join(&[0, 1, 2, 3, 0x80], &[2, 2], &mut out),
        copied(0, 0, 2, 0, 4)
    );
    assert_eq!(out, [0, 2, 1, 3, 9]);
    assert_eq!(join(&[], &[0; 8], &mut []), zeros(0));
}

fn several_channels(calls: &Calls) {
    write_after_read_gives_the_bytes(calls);
    read_after_write_gives_the_parts(calls);
    channels_of_a_join_are_the_recordings(calls);
    join_of_all_channels_is_the_recording(calls);
    extract_tells_what_the_check_tells(calls);
    one_channel_is_the_file(calls);
    cut_at_every_byte(calls);
    three_thousand_blocks(calls);
    order_of_reading(calls);
    order_of_writing(calls);
    order_of_extract(calls);
    order_of_join(calls);
}

#[test]
fn of_the_library() {
    several_channels(&LIBRARY);
}

#[test]
fn of_the_reference() {
    several_channels(&REFERENCE);
}
