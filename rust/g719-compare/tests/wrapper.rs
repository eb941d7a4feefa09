//! The safe wrapper beside the plain implementation: what it answers in its own
//! types is what the paper answers in numbers, and lent memory ends alike.

use g719::{Copied, Frame, Layout, Mode, Record, Refusal, Shares, Stop, Weights};
use g719_compare::cases;
use g719_reference as reference;
use g719_reference::reply;
use g719_reference::types::{self, BANDS, CODES, TAIL_BYTES};

/// Seeds of each call, and of the calls over recordings.
const SEEDS: u64 = 8_000;
const FILES: u64 = 1_500;

/// A reply with what comes beside it, as the wrapper answers.
fn answer<T>(reply: u8, value: T) -> Result<T, Refusal> {
    Refusal::from_number(reply).map_or(Ok(value), Err)
}

/// A record that the wrapper can hold: it has no mode over 19.
fn record(record: &types::Record) -> Option<Record> {
    Some(Record {
        mode: Mode::new(record.mode)?,
        transient: record.transient,
        flag_l: record.flag_l,
        flag_n: record.flag_n,
        flag_c: record.flag_c,
        norms: record.norms,
        noise: record.noise,
        tail_bits: record.tail_bits,
    })
}

/// The record of a reading; none of an empty frame.
fn read_record(reading: &types::Reading) -> Option<Record> {
    (reading.reply == reply::DONE).then(|| record(&reading.record).expect("a mode that was read"))
}

#[test]
fn frames_are_read() {
    for seed in 0..SEEDS {
        let case = cases::read_case(seed);
        let (mut codes, mut tail) = (case.codes.clone(), case.tail.clone());
        let (mut plain_codes, mut plain_tail) = (case.codes, case.tail);
        let read = Record::read(&case.src, &mut codes, &mut tail);
        let plain = reference::read(&case.src, &mut plain_codes, &mut plain_tail);
        assert_eq!(read, answer(plain.reply, read_record(&plain)), "seed {seed}");
        assert!((codes, tail) == (plain_codes, plain_tail), "seed {seed}");
        if let Ok(Some(record)) = read {
            assert_eq!(record.size(), plain.next, "seed {seed}");
        }

        let (mut codes, mut tail) = ([0; CODES], [0; TAIL_BYTES]);
        let plain = reference::read(&case.src, &mut codes, &mut tail);
        let frame = read_record(&plain).map(|record| Frame { record, codes, tail });
        assert_eq!(Frame::read(&case.src), answer(plain.reply, frame), "seed {seed}");
    }
}

#[test]
fn frames_are_written() {
    for seed in 0..SEEDS {
        let case = cases::write_case(seed);
        let Some(record) = record(&case.record) else {
            continue;
        };
        let (mut out, mut plain_out) = (case.out.clone(), case.out);
        let written = record.write(&case.codes, &case.tail, &mut out);
        let plain = reference::write(&case.record, &case.codes, &case.tail, &mut plain_out);
        assert_eq!(written, answer(plain.reply, plain.next), "seed {seed}");
        assert!(out == plain_out, "seed {seed}");
        let parts = reference::layout(&case.record, &case.codes);
        let layout = Layout {
            budget: parts.budget,
            rates: parts.rates,
            code_bits: parts.code_bits,
            tail_bits: parts.tail_bits,
        };
        assert_eq!(
            record.layout(&case.codes),
            answer(parts.reply, layout),
            "seed {seed}"
        );
        let choice = reference::choose_flag_c(&case.record, &case.codes);
        assert_eq!(
            record.choose_flag_c(&case.codes),
            answer(choice.reply, choice.flag),
            "seed {seed}"
        );
    }
}

#[test]
fn bytes_are_read_and_written() {
    for seed in 0..SEEDS {
        let src = cases::prefix_case(seed);
        let plain = reference::read_prefix(&src);
        let length = g719::read_prefix(&src).map(|length| length.map_or(0, |length| length.number()));
        assert_eq!(length, answer(plain.reply, plain.length), "seed {seed}");
        let (mut out, mut plain_out) = (cases::empty_case(seed), cases::empty_case(seed));
        let plain = reference::write_empty(&mut plain_out);
        assert_eq!(
            g719::write_empty(&mut out),
            answer(plain.reply, plain.next),
            "seed {seed}"
        );
        assert!(out == plain_out, "seed {seed}");
    }
    for mode in Mode::all() {
        assert_eq!(mode.prefix_byte(), reference::write_prefix(mode.number()).byte);
    }
}

#[test]
fn norms_are_chosen_and_bits_shared() {
    for seed in 0..SEEDS {
        let case = cases::norms_case(seed);
        let choice = reference::choose_flag_n(case.transient, &case.norms);
        let chosen = g719::choose_flag_n(case.transient, &case.norms);
        assert_eq!(chosen, answer(choice.reply, choice.flag), "seed {seed}");
        let plain = reference::legalise(case.transient, &case.norms);
        let legal = g719::legalise(case.transient, &case.norms);
        assert_eq!(legal, answer(plain.reply, plain.norms), "seed {seed}");
        let types::Weights {
            reply,
            weights,
            scores,
        } = reference::weigh(case.transient, &case.norms);
        let weighed = g719::weigh(case.transient, &case.norms);
        assert_eq!(weighed, answer(reply, Weights { weights, scores }), "seed {seed}");
        let case = cases::allot_case(seed);
        let plain = reference::allot(case.transient, case.wide, &case.norms, case.budget);
        let types::Shares {
            reply,
            rates,
            left,
            rounds,
        } = plain;
        let shares = g719::allot(case.transient, case.wide, &case.norms, case.budget);
        assert_eq!(shares, answer(reply, Shares { rates, left, rounds }), "seed {seed}");
    }
}

#[test]
fn points_are_mapped() {
    for seed in 0..SEEDS {
        let case = cases::lattice_point_case(seed);
        let plain = reference::lattice_point(case.rate, &case.index);
        let point = g719::lattice_point(case.rate, &case.index);
        assert_eq!(point, answer(plain.reply, plain.at), "seed {seed}");
        let case = cases::lattice_index_case(seed);
        let plain = reference::lattice_index(case.rate, &case.point);
        let index = g719::lattice_index(case.rate, &case.point);
        assert_eq!(index, answer(plain.reply, plain.at), "seed {seed}");
        let case = cases::codebook_index_case(seed);
        let plain = reference::codebook_index(1, &case.point);
        assert_eq!(
            g719::codebook_index(&case.point),
            answer(plain.reply, plain.index),
            "seed {seed}"
        );
    }
    for index in 0..=u8::MAX {
        assert_eq!(
            g719::codebook_point(index),
            reference::codebook_point(1, index.into()).at
        );
    }
}

#[test]
fn bands_have_their_places() {
    for band in 0..BANDS {
        assert_eq!(
            g719::band_places(band),
            reference::pieces::places(band),
            "band {band}"
        );
    }
    assert_eq!(g719::band_places(BANDS - 1).end, CODES);
    assert!(g719::band_places(BANDS).is_empty() && g719::band_places(usize::MAX).is_empty());
}

/// What a check answers, as the wrapper does.
fn stopped(check: types::Check) -> Result<(), Stop> {
    answer(check.reply, ()).map_err(|refusal| Stop {
        refusal,
        count: check.count,
        place: check.place,
        recording: None,
    })
}

/// The iterator goes through a recording as the check does: as many sound
/// frames, the same stop, and all bytes before it.
#[test]
fn recordings_are_checked_and_gone_through() {
    for seed in 0..FILES {
        let case = cases::check_case(seed);
        let src = case.src.as_slice();
        let plain = reference::check_file(src, case.booking);
        assert_eq!(g719::check(src, case.booking), stopped(plain), "seed {seed}");

        let (mut count, mut bytes, mut end) = (0, Vec::new(), Ok(()));
        for stored in g719::frames(src) {
            assert_eq!(end, Ok(()), "seed {seed}: nothing comes behind a stop");
            match stored {
                Ok(stored) => {
                    assert_eq!((stored.number, stored.place), (count, bytes.len()), "seed {seed}");
                    assert_eq!(Frame::read(stored.bytes), Ok(stored.frame), "seed {seed}");
                    bytes.extend_from_slice(stored.bytes);
                    count += 1;
                }
                Err(stop) => end = Err(stop),
            }
        }
        let plain = reference::check_file(src, count);
        assert_eq!(end, stopped(plain), "seed {seed}");
        assert_eq!(
            (count, bytes.as_slice()),
            (plain.count, &src[..plain.place]),
            "seed {seed}"
        );
    }
}

#[test]
fn blocks_are_read() {
    for seed in 0..FILES {
        let case = cases::read_block_case(seed);
        let (mut codes, mut tails) = (case.codes.clone(), case.tails.clone());
        let (mut plain_codes, mut plain_tails) = (case.codes, case.tails);
        let read = g719::read_block(&case.src, case.channels, &mut codes, &mut tails);
        let plain = reference::read_block(&case.src, case.channels, &mut plain_codes, &mut plain_tails);
        let told = read.map(|block| (block.size, block.records().to_vec()));
        let channels = usize::from(case.channels).min(plain.frames.len());
        let records = plain.frames[..channels].iter().map(read_record).collect();
        assert_eq!(told, answer(plain.reply, (plain.next, records)), "seed {seed}");
        assert!((codes, tails) == (plain_codes, plain_tails), "seed {seed}");
    }
}

#[test]
fn blocks_are_written() {
    for seed in 0..FILES {
        let case = cases::write_block_case(seed);
        let channel = |at: usize| match case.records.empty.get(at) {
            Some(false) => record(&case.records.at[at]).map(Some),
            _ => Some(None),
        };
        // as many records as channels; a mode over 19 cannot be said
        let Some(records) = (0..usize::from(case.channels))
            .map(channel)
            .collect::<Option<Vec<_>>>()
        else {
            continue;
        };
        let (mut out, mut plain_out) = (case.out.clone(), case.out.clone());
        let written = g719::write_block(&records, &case.codes, &case.tails, &mut out);
        let plain = reference::write_block(
            &case.records,
            case.channels,
            &case.codes,
            &case.tails,
            &mut plain_out,
        );
        assert_eq!(written, answer(plain.reply, plain.next), "seed {seed}");
        assert!(out == plain_out, "seed {seed}");
    }
    let many = vec![None; 257];
    assert_eq!(
        g719::write_block(&many, &[], &[], &mut []),
        Err(Refusal::WrongChannels)
    );
}

/// What a copying call answers, as the wrapper does.
fn copied(copied: types::Copied) -> Result<Copied, Stop> {
    let done = Copied {
        count: copied.count,
        length: copied.length,
    };
    answer(copied.reply, done).map_err(|refusal| Stop {
        refusal,
        count: copied.count,
        place: copied.place,
        recording: usize::from(copied.which).checked_sub(1),
    })
}

#[test]
fn channels_are_parted_and_joined() {
    for seed in 0..FILES {
        let case = cases::blocks_case(seed);
        let plain = reference::check_blocks(&case.src, case.channels, case.booking);
        let checked = g719::check_blocks(&case.src, case.channels, case.booking);
        assert_eq!(checked, stopped(plain), "seed {seed}");

        let (mut count, mut bytes, mut end) = (0, Vec::new(), Ok(()));
        for stored in g719::blocks(&case.src, case.channels) {
            assert_eq!(end, Ok(()), "seed {seed}: nothing comes behind a stop");
            match stored {
                Ok(block) => {
                    assert_eq!((block.number, block.place), (count, bytes.len()), "seed {seed}");
                    assert_eq!(
                        block.frames().filter(Result::is_ok).count(),
                        case.channels.into(),
                        "seed {seed}"
                    );
                    bytes.extend_from_slice(block.bytes);
                    count += 1;
                }
                Err(stop) => end = Err(stop),
            }
        }
        let plain = reference::check_blocks(&case.src, case.channels, count);
        assert_eq!(end, stopped(plain), "seed {seed}");
        assert_eq!(
            (count, bytes.as_slice()),
            (plain.count, &case.src[..plain.place]),
            "seed {seed}"
        );

        let case = cases::extract_case(seed);
        let (mut out, mut plain_out) = (case.out.clone(), case.out);
        let taken = g719::extract(&case.src, case.channels, case.channel, &mut out);
        let plain = reference::extract(&case.src, case.channels, case.channel, &mut plain_out);
        assert_eq!(taken, copied(plain), "seed {seed}");
        assert!(out == plain_out, "seed {seed}");

        let case = cases::join_case(seed);
        let (mut out, mut plain_out) = (case.out.clone(), case.out);
        let joined = g719::join(&case.src, &case.lengths, &mut out);
        let plain = reference::join(&case.src, &case.lengths, &mut plain_out);
        assert_eq!(joined, copied(plain), "seed {seed}");
        assert!(out == plain_out, "seed {seed}");
    }
}
