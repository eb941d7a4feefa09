//! Every number that a flag can be, through the C interface itself and beside
//! the plain implementation: all but 0 act as 1, and 0 or 1 comes out.

use g719::raw;
use g719_compare::cases::{allot_case, norms_case, read_case, write_block_case, write_case};
use g719_compare::cases::{WriteBlockCase, WriteCase};
use g719_compare::convert::{record_in_c, records_in_c, Plain};
use g719_compare::random::Random;
use g719_reference as reference;
use g719_reference::types::{Parts, Record, Records, Writing, MOST_CHANNELS};

/// Records, norms and budgets that are tried with every number.
const SWEPT: u64 = 40;
/// Blocks that are tried with every number.
const BLOCKS: u64 = 8;
/// Records whose flags are any numbers at once, and frames that are read.
const DRAWN: u64 = 20_000;
/// Bytes behind a lent slice, which must stay.
const BEHIND: usize = 64;
const KEPT: u8 = 0xa5;

/// What the calls on a record answer, with all of the frame's memory.
type Made = (Writing, Vec<u8>, Parts, (u8, u8));

fn made_in_c(record: raw::Record, case: &WriteCase) -> Made {
    let WriteCase { codes, tail, out, .. } = case;
    let (codes_at, codes_count) = (codes.as_ptr(), codes.len());
    let mut memory = out.clone();
    memory.resize(out.len() + BEHIND, KEPT);
    // SAFETY: pointers and counts are those of slices, of `memory` its front;
    // only that one is written, and it overlaps none of the others.
    let (writing, parts, choice) = unsafe {
        (
            raw::g719_write(
                record,
                codes_at,
                codes_count,
                tail.as_ptr(),
                tail.len(),
                memory.as_mut_ptr(),
                out.len(),
            ),
            raw::g719_layout(record, codes_at, codes_count),
            raw::g719_choose_flag_c(record, codes_at, codes_count),
        )
    };
    (
        writing.plain(),
        memory,
        parts.plain(),
        (choice.reply, choice.flag),
    )
}

fn made_plainly(record: &Record, case: &WriteCase) -> Made {
    let mut memory = case.out.clone();
    let writing = reference::write(record, &case.codes, &case.tail, &mut memory);
    memory.resize(case.out.len() + BEHIND, KEPT);
    let parts = reference::layout(record, &case.codes);
    let choice = reference::choose_flag_c(record, &case.codes);
    (writing, memory, parts, (choice.reply, choice.flag.into()))
}

/// The flags of a record in their order.
fn flags(record: &mut raw::Record) -> [&mut u8; 4] {
    [
        &mut record.transient,
        &mut record.flag_l,
        &mut record.flag_n,
        &mut record.flag_c,
    ]
}

/// The record of a case with one flag set to a number; its tail fits it, if
/// it can be laid out.
fn with_flag(case: &mut WriteCase, flag: usize, number: u8) -> Record {
    let mut record = record_in_c(&case.record);
    *flags(&mut record)[flag] = number;
    let mut record = record.plain();
    let parts = reference::layout(&record, &case.codes);
    if parts.reply == 0 {
        record.tail_bits = parts.tail_bits;
        case.tail = vec![0; 320];
    }
    record
}

#[test]
fn each_number_in_a_record() {
    let mut written = [[0; 2]; 4];
    for (seed, flag) in (0..SWEPT).flat_map(|seed| (0..4).map(move |flag| (seed, flag))) {
        for is in 0..=1u8 {
            let mut case = write_case(seed);
            let record = with_flag(&mut case, flag, is);
            let wanted = made_plainly(&record, &case);
            written[flag][usize::from(is)] += u32::from(wanted.0.reply == 0);
            for number in is..=255 * is {
                let mut record = record_in_c(&record);
                *flags(&mut record)[flag] = number;
                assert_eq!(
                    made_in_c(record, &case),
                    wanted,
                    "seed {seed}, flag {flag}, {number}"
                );
            }
        }
    }
    assert!(
        written.as_flattened().iter().all(|&count| count > 0),
        "{written:?}"
    );
}

#[test]
fn any_numbers_in_a_record() {
    for seed in 0..DRAWN {
        let mut random = Random::new(seed);
        let case = write_case(seed);
        let mut record = record_in_c(&case.record);
        for flag in flags(&mut record) {
            *flag *= 1 + random.below(255) as u8;
        }
        assert_eq!(
            made_in_c(record, &case),
            made_plainly(&case.record, &case),
            "seed {seed}"
        );
    }
}

#[test]
fn each_number_as_an_argument() {
    for (seed, number) in (0..SWEPT).flat_map(|seed| (0..=255).map(move |number| (seed, number))) {
        let is = number != 0;
        let norms = norms_case(seed).norms;
        let choice = raw::g719_choose_flag_n(number, &norms);
        let wanted = reference::choose_flag_n(is, &norms);
        assert_eq!((choice.reply, choice.flag), (wanted.reply, wanted.flag.into()));
        assert_eq!(
            raw::g719_legalise(number, &norms).plain(),
            reference::legalise(is, &norms)
        );
        assert_eq!(
            raw::g719_weigh(number, &norms).plain(),
            reference::weigh(is, &norms)
        );
        let case = allot_case(seed);
        for (transient, wide) in [(number, case.wide.into()), (case.transient.into(), number)] {
            let shares = raw::g719_allot(transient, wide, &case.norms, case.budget);
            let wanted = reference::allot(transient != 0, wide != 0, &case.norms, case.budget);
            assert_eq!(shares.plain(), wanted);
        }
    }
}

#[test]
fn numbers_that_come_out() {
    let mut seen = [[0; 2]; 4];
    for seed in 0..DRAWN {
        let mut case = read_case(seed);
        let wanted = reference::read(&case.src, &mut case.codes.clone(), &mut case.tail.clone());
        // SAFETY: pointers and counts are those of slices that do not overlap.
        let mut reading = unsafe {
            raw::g719_read(
                case.src.as_ptr(),
                case.src.len(),
                case.codes.as_mut_ptr(),
                case.codes.len(),
                case.tail.as_mut_ptr(),
                case.tail.len(),
            )
        };
        assert_eq!(reading.record, record_in_c(&wanted.record), "seed {seed}");
        for (flag, seen) in flags(&mut reading.record).into_iter().zip(&mut seen) {
            seen[usize::from(*flag)] += u32::from(reading.reply == 0);
        }
    }
    assert!(seen.as_flattened().iter().all(|&count| count > 1000), "{seen:?}");
}

/// What the block writer answers, with all of the output's memory.
fn block_in_c(records: raw::Records, case: &WriteBlockCase) -> (Writing, Vec<u8>) {
    let mut memory = case.out.clone();
    memory.resize(case.out.len() + BEHIND, KEPT);
    // SAFETY: pointers and counts are those of slices, of `memory` its front;
    // only that one is written, and it overlaps none of the others.
    let writing = unsafe {
        raw::g719_write_block(
            records,
            case.channels,
            case.codes.as_ptr(),
            case.codes.len(),
            case.tails.as_ptr(),
            case.tails.len(),
            memory.as_mut_ptr(),
            case.out.len(),
        )
    };
    (writing.plain(), memory)
}

fn block_plainly(records: &Records, case: &WriteBlockCase) -> (Writing, Vec<u8>) {
    let mut memory = case.out.clone();
    let writing = reference::write_block(records, case.channels, &case.codes, &case.tails, &mut memory);
    memory.resize(case.out.len() + BEHIND, KEPT);
    (writing, memory)
}

/// Blocks that are written, with each channel made empty by each number.
#[test]
fn each_number_of_an_empty_frame() {
    let written = |case: &WriteBlockCase| block_plainly(&case.records, case).0.reply == 0;
    let cases = (0..).map(write_block_case).filter(written);
    for case in cases.take(BLOCKS as usize) {
        for (channel, number) in (0..MOST_CHANNELS).flat_map(|channel| (0..=255).map(move |n| (channel, n))) {
            let mut records = case.records;
            records.empty[channel] = number != 0;
            let wanted = block_plainly(&records, &case);
            let mut records = records_in_c(&records);
            records.empty[channel] = number;
            assert_eq!(block_in_c(records, &case), wanted, "channel {channel}, {number}");
        }
    }
}

/// Blocks whose flags are any numbers at once.
#[test]
fn any_numbers_in_a_block() {
    for seed in 0..DRAWN / 10 {
        let mut random = Random::new(seed);
        let case = write_block_case(seed);
        let mut records = records_in_c(&case.records);
        let in_records = records.at.iter_mut().flat_map(flags);
        for flag in in_records.chain(&mut records.empty) {
            *flag *= 1 + random.below(255) as u8;
        }
        let wanted = block_plainly(&case.records, &case);
        assert_eq!(block_in_c(records, &case), wanted, "seed {seed}");
    }
}
