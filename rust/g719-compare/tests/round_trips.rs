//! Reader and writer of each side undo each other, the layout tells what they
//! need, and refusals leave lent rooms alone.

use g719_compare::calls::{Calls, LIBRARY, REFERENCE};
use g719_compare::cases::{empty_case, read_case, write_case, ReadCase, WriteCase};
use g719_reference::types::{Parts, Reading, Record, Writing};

const SEEDS: std::ops::Range<u64> = 0..20_000;

/// The parts of a sound record: its own tail count, and the rates of its
/// budget.
fn layout_is_that_of_the_frame(calls: &Calls, record: &Record, codes: &[u16]) {
    let parts = (calls.layout)(record, codes);
    assert_eq!((parts.reply, parts.tail_bits), (0, record.tail_bits));
    assert_eq!(parts.budget, parts.code_bits + parts.tail_bits);
    let wide = record.mode != 0 || record.flag_l;
    let shares = (calls.allot)(record.transient, wide, &record.norms, parts.budget.into());
    assert_eq!((shares.reply, shares.rates), (0, parts.rates));
    assert!(record.flag_c || shares.left == parts.tail_bits);
}

fn write_after_read_gives_the_bytes(calls: &Calls) {
    let mut sound = 0;
    for seed in SEEDS {
        let ReadCase {
            src,
            mut codes,
            mut tail,
        } = read_case(seed);
        let (lent_codes, lent_tail) = (codes.clone(), tail.clone());
        let reading = (calls.read)(&src, &mut codes, &mut tail);
        if reading.reply != 0 {
            let next = usize::from(reading.reply == 14);
            let record = Record::ZERO;
            assert_eq!(
                reading,
                Reading {
                    next,
                    record,
                    ..reading
                }
            );
            assert_eq!((&codes, &tail), (&lent_codes, &lent_tail));
            continue;
        }
        sound += 1;
        assert_eq!(
            (&codes[800..], &tail[320..]),
            (&lent_codes[800..], &lent_tail[320..])
        );
        layout_is_that_of_the_frame(calls, &reading.record, &codes);
        let mut out = [0xa5; 330];
        let writing = (calls.write)(&reading.record, &codes, &tail, &mut out);
        assert_eq!((writing.reply, writing.next), (0, reading.next));
        assert_eq!(
            (out[0], &out[1..writing.next]),
            (src[0] & !3, &src[1..writing.next])
        );
        assert!(out[writing.next..].iter().all(|&byte| byte == 0xa5));
    }
    assert!(sound > 5000);
}

fn read_after_write_gives_the_parts(calls: &Calls) {
    let mut sound = 0;
    for seed in SEEDS {
        let WriteCase {
            record,
            codes,
            tail,
            mut out,
        } = write_case(seed);
        let lent = out.clone();
        let writing = (calls.write)(&record, &codes, &tail, &mut out);
        if writing.reply != 0 {
            assert_eq!(writing.next, 0);
            assert_eq!(out, lent);
            continue;
        }
        sound += 1;
        assert_eq!(out[writing.next..], lent[writing.next..]);
        let (mut read_codes, mut read_tail) = ([9; 800], [9; 320]);
        let reading = (calls.read)(&out, &mut read_codes, &mut read_tail);
        assert_eq!(
            (reading.reply, reading.next, reading.record),
            (0, writing.next, record)
        );
        assert_eq!((&read_codes[..], &read_tail[..]), (&codes[..800], &tail[..320]));
    }
    assert!(sound > 3000);
}

/// A record whose noise, tail and room for the frame are mended is written
/// exactly if it has a layout, and with its tail count alone; what the layout
/// does not read does not matter to it.
fn layout_tells_what_is_written(calls: &Calls) {
    let mut replies = [0; 16];
    for seed in SEEDS {
        let WriteCase {
            mut record, codes, ..
        } = write_case(seed);
        let parts = (calls.layout)(&record, &codes);
        record.noise = 0;
        record.tail_bits = parts.tail_bits;
        assert_eq!((calls.layout)(&record, &codes), parts);
        let write = |record: &Record| (calls.write)(record, &codes, &[0; 320], &mut [0; 321]).reply;
        assert_eq!(write(&record), parts.reply);
        replies[usize::from(parts.reply)] += 1;
        if parts.reply != 0 {
            let none = Parts {
                reply: parts.reply,
                budget: 0,
                rates: [0; 44],
                code_bits: 0,
                tail_bits: 0,
            };
            assert_eq!(parts, none);
            continue;
        }
        for other in [1, 8, u16::MAX] {
            record.tail_bits = parts.tail_bits.wrapping_add(other);
            assert_eq!(write(&record), 13);
        }
    }
    assert!(
        [0, 7, 8, 9, 10, 12].iter().all(|&reply| replies[reply] > 100),
        "{replies:?}"
    );
}

fn empty_frames_are_one_byte(calls: &Calls) {
    for seed in 0..100 {
        let mut out = empty_case(seed);
        let lent = out.clone();
        let writing = (calls.write_empty)(&mut out);
        if lent.is_empty() {
            assert_eq!(writing, Writing { reply: 10, next: 0 });
        } else {
            assert_eq!(writing, Writing { reply: 0, next: 1 });
            assert_eq!((out[0], &out[1..]), (0, &lent[1..]));
        }
    }
}

fn round_trips(calls: &Calls) {
    write_after_read_gives_the_bytes(calls);
    read_after_write_gives_the_parts(calls);
    layout_tells_what_is_written(calls);
    empty_frames_are_one_byte(calls);
}

#[test]
fn of_the_library() {
    round_trips(&LIBRARY);
}

#[test]
fn of_the_reference() {
    round_trips(&REFERENCE);
}
