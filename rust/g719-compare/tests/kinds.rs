//! The seeded cases are of many kinds, and the lister tells what the file
//! check tells.

use g719_compare::cases;
use g719_reference as reference;
use g719_reference::types::Record;
use std::collections::{BTreeMap, BTreeSet};

const CASES: u64 = 20_000;

/// The mode and the four flags of a record.
fn kind(record: &Record) -> (u8, [bool; 4]) {
    let flags = [record.transient, record.flag_l, record.flag_n, record.flag_c];
    (record.mode, flags)
}

/// The last line of the lister tells what the check tells, but for a booking.
#[test]
fn the_lister_and_the_check() {
    for seed in 0..CASES / 4 {
        let case = cases::check_case(seed);
        let check = reference::check_file(&case.src, case.booking);
        let listed = reference::list(&case.src);
        if case.src.len() > 65_536 {
            assert_eq!(listed, "input too long\n");
        } else {
            let reply = if check.reply == 11 { 0 } else { check.reply };
            let total = format!("total {} answer {reply} at {}\n", check.count, check.place);
            assert!(listed.ends_with(&total), "{total}");
            let refused = !matches!(reply, 0 | 15);
            let lines = check.count as usize + usize::from(refused) + 1;
            assert_eq!(listed.lines().count(), lines);
        }
    }
}

/// Flags chosen both ways, and the reader's ends met: no tail, whole tail.
#[test]
fn sound_answers_are_many() {
    let (mut flags_n, mut flags_c) = ([0; 2], [0; 2]);
    let mut tails = BTreeMap::new();
    for seed in 0..CASES {
        let norms = cases::norms_case(seed);
        let choice = reference::choose_flag_n(norms.transient, &norms.norms);
        flags_n[usize::from(choice.flag)] += u32::from(choice.reply == 0);
        let case = cases::flag_c_case(seed);
        let choice = reference::choose_flag_c(&case.record, &case.codes);
        flags_c[usize::from(choice.flag)] += u32::from(choice.reply == 0);
        let mut case = cases::read_case(seed);
        let reading = reference::read(&case.src, &mut case.codes, &mut case.tail);
        if reading.reply == 0 {
            *tails.entry(reading.record.tail_bits.min(64) / 8).or_insert(0) += 1;
        }
    }
    println!("flag_n {flags_n:?} flag_c {flags_c:?} tail bytes {tails:?}");
    assert!(flags_n.iter().chain(&flags_c).all(|&count| count > 500));
    assert!(tails.len() == 9);
}

/// Records are laid out in every mode, kind and setting of the flags, with
/// any noise and tail count, some of them without a bit left.
#[test]
fn layouts_of_all_kinds() {
    let mut kinds = BTreeSet::new();
    let (mut whole, mut unread) = (0, 0);
    for seed in 0..CASES {
        let case = cases::layout_case(seed);
        let (record, parts) = (case.record, reference::layout(&case.record, &case.codes));
        if parts.reply == 0 {
            kinds.insert(kind(&record));
            whole += u32::from(parts.tail_bits == 0);
            unread += u32::from(record.noise > 3 && record.tail_bits != parts.tail_bits);
        }
    }
    assert_eq!(kinds.len(), 20 * 16);
    assert!(whole > 100 && unread > 1000);
}

/// Sound frames are read in every mode, kind and setting of the flags.
#[test]
fn sound_frames_of_all_kinds() {
    let mut kinds = BTreeSet::new();
    for seed in 0..CASES {
        let mut case = cases::read_case(seed);
        let reading = reference::read(&case.src, &mut case.codes, &mut case.tail);
        let record = reading.record;
        if reading.reply == 0 {
            kinds.insert(kind(&record));
        }
    }
    assert_eq!(kinds.len(), 20 * 16);
}

/// Blocks are read and written with one to eight channels, each channel with
/// data and empty; every channel is taken out, and as many are joined.
#[test]
fn blocks_of_all_kinds() {
    let (mut read, mut written) = (BTreeSet::new(), BTreeSet::new());
    let (mut taken, mut joined) = (BTreeSet::new(), BTreeSet::new());
    for seed in 0..CASES / 4 {
        let mut case = cases::read_block_case(seed);
        let block = reference::read_block(&case.src, case.channels, &mut case.codes, &mut case.tails);
        let mut case = cases::write_block_case(seed);
        let records = &case.records;
        let writing = reference::write_block(records, case.channels, &case.codes, &case.tails, &mut case.out);
        for channel in 0..8 {
            let reading = &block.frames[channel];
            if block.reply == 0 && reading.next > 0 {
                read.insert((channel, reading.reply));
            }
            if writing.reply == 0 && channel < case.channels.into() {
                written.insert((case.channels, channel, records.empty[channel]));
            }
        }
        let mut case = cases::extract_case(seed);
        let copied = reference::extract(&case.src, case.channels, case.channel, &mut case.out);
        if copied.reply == 0 && copied.length > 0 {
            taken.insert((case.channels, case.channel));
        }
        let mut case = cases::join_case(seed);
        let copied = reference::join(&case.src, &case.lengths, &mut case.out);
        if copied.reply == 0 && copied.length > 0 {
            joined.insert(case.lengths.len());
        }
    }
    assert_eq!((read.len(), written.len()), (8 * 2, 36 * 2));
    assert_eq!((taken.len(), joined.len()), (36, 8));
}
