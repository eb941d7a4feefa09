//! Library and plain implementation on the same seeded cases: answers field
//! for field, lent memory byte for byte, every reply of every call met.

use g719_compare::calls::{Calls, LIBRARY, REFERENCE};
use g719_compare::cases;
use g719_compare::random::Random;
use std::collections::BTreeMap;
use std::fmt::Debug;

/// Cases of the frame reader, the frame writer and the layout.
const FRAMES: u64 = 150_000;
/// Cases of each other call on records, norms or points.
const OTHERS: u64 = 40_000;
/// Cases of the file check, and of the calls on one byte.
const FILES: u64 = 10_000;
const BYTES: u64 = 5_000;
/// Cases of each call on several channels.
const BLOCKS: u64 = 10_000;

/// In an emulator (tests/machine.sh), which takes many times as long, frames
/// are a third of these.
fn frames() -> u64 {
    match std::env::var_os("G719_EMULATED") {
        Some(_) => FRAMES / 3,
        None => FRAMES,
    }
}

const _: () = assert!(3 * (FRAMES / 3) + 9 * OTHERS + FILES + 2 * BYTES + 5 * BLOCKS >= 200_000);

/// Lent memory: content between sentinels that no call may touch.
#[derive(Debug, PartialEq)]
struct Lent<T> {
    memory: Vec<T>,
    sentinels: usize,
}

impl<T: Copy + From<u8>> Lent<T> {
    /// Equal contents are lent from equal memory.
    fn new(content: &[T]) -> Self {
        let mut random = Random::new(content.len() as u64);
        let sentinels = 1 + random.below(9);
        let mut memory: Vec<T> = random.bytes(2 * sentinels).into_iter().map(T::from).collect();
        memory.splice(sentinels..sentinels, content.iter().copied());
        Lent { memory, sentinels }
    }

    fn lend(&mut self) -> &mut [T] {
        let end = self.memory.len() - self.sentinels;
        &mut self.memory[self.sentinels..end]
    }
}

/// Compares the answers, lent memory among them, of `count` cases, and holds
/// the replies that were met against those that the call can give.
fn compare<Case, Answer: PartialEq + Debug>(
    call: &str,
    replies: &[u8],
    count: u64,
    case: fn(u64) -> Case,
    run: impl Fn(&Calls, &Case) -> (u8, Answer),
) {
    let mut met = BTreeMap::new();
    for seed in 0..count {
        let case = case(seed);
        let (reply, answer) = run(&LIBRARY, &case);
        let expected = run(&REFERENCE, &case);
        assert!(
            (reply, &answer) == (expected.0, &expected.1),
            "{call}, seed {seed}: {reply} {answer:?}, not {expected:?}"
        );
        *met.entry(reply).or_insert(0) += 1;
    }
    println!("{call}: {count} cases, replies {met:?}");
    assert!(met.keys().eq(replies), "{call}");
}

#[test]
fn read() {
    let replies = [0, 1, 2, 3, 4, 5, 6, 7, 10, 14];
    compare("read", &replies, frames(), cases::read_case, |calls, case| {
        let mut src = Lent::new(&case.src);
        let (mut codes, mut tail) = (Lent::new(&case.codes), Lent::new(&case.tail));
        let reading = (calls.read)(src.lend(), codes.lend(), tail.lend());
        (reading.reply, (reading, src, codes, tail))
    });
}

#[test]
fn write() {
    let replies = [0, 7, 8, 9, 10, 12, 13];
    compare("write", &replies, frames(), cases::write_case, |calls, case| {
        let (mut codes, mut tail) = (Lent::new(&case.codes), Lent::new(&case.tail));
        let mut out = Lent::new(&case.out);
        let writing = (calls.write)(&case.record, codes.lend(), tail.lend(), out.lend());
        (writing.reply, (writing, codes, tail, out))
    });
}

#[test]
fn layout() {
    let replies = [0, 7, 8, 9, 10, 12];
    compare("layout", &replies, frames(), cases::layout_case, |calls, case| {
        let mut codes = Lent::new(&case.codes);
        let parts = (calls.layout)(&case.record, codes.lend());
        (parts.reply, (parts, codes))
    });
}

#[test]
fn write_empty() {
    compare(
        "write_empty",
        &[0, 10],
        BYTES,
        cases::empty_case,
        |calls, case| {
            let mut out = Lent::new(case);
            let writing = (calls.write_empty)(out.lend());
            (writing.reply, (writing, out))
        },
    );
}

#[test]
fn choose_flag_c() {
    let replies = [0, 8, 9, 10, 12];
    compare(
        "choose_flag_c",
        &replies,
        OTHERS,
        cases::flag_c_case,
        |calls, case| {
            let mut codes = Lent::new(&case.codes);
            let choice = (calls.choose_flag_c)(&case.record, codes.lend());
            (choice.reply, (choice, codes))
        },
    );
}

#[test]
fn check_file() {
    let replies = [0, 2, 3, 4, 5, 6, 7, 11, 15];
    compare("check_file", &replies, FILES, cases::check_case, |calls, case| {
        let mut src = Lent::new(&case.src);
        let check = (calls.check_file)(src.lend(), case.booking);
        (check.reply, (check, src))
    });
}

#[test]
fn read_block() {
    let replies = [0, 1, 2, 3, 4, 5, 6, 7, 10, 17];
    compare(
        "read_block",
        &replies,
        BLOCKS,
        cases::read_block_case,
        |calls, case| {
            let mut src = Lent::new(&case.src);
            let (mut codes, mut tails) = (Lent::new(&case.codes), Lent::new(&case.tails));
            let block = (calls.read_block)(src.lend(), case.channels, codes.lend(), tails.lend());
            (block.reply, (block, src, codes, tails))
        },
    );
}

#[test]
fn write_block() {
    let replies = [0, 7, 8, 9, 10, 12, 13, 17];
    compare(
        "write_block",
        &replies,
        BLOCKS,
        cases::write_block_case,
        |calls, case| {
            let (mut codes, mut tails) = (Lent::new(&case.codes), Lent::new(&case.tails));
            let mut out = Lent::new(&case.out);
            let writing = (calls.write_block)(
                &case.records,
                case.channels,
                codes.lend(),
                tails.lend(),
                out.lend(),
            );
            (writing.reply, (writing, codes, tails, out))
        },
    );
}

#[test]
fn check_blocks() {
    let replies = [0, 2, 3, 4, 5, 6, 7, 11, 15, 17];
    compare(
        "check_blocks",
        &replies,
        BLOCKS,
        cases::blocks_case,
        |calls, case| {
            let mut src = Lent::new(&case.src);
            let check = (calls.check_blocks)(src.lend(), case.channels, case.booking);
            (check.reply, (check, src))
        },
    );
}

#[test]
fn extract() {
    let replies = [0, 2, 3, 4, 5, 6, 7, 10, 15, 17];
    compare("extract", &replies, BLOCKS, cases::extract_case, |calls, case| {
        let (mut src, mut out) = (Lent::new(&case.src), Lent::new(&case.out));
        let copied = (calls.extract)(src.lend(), case.channels, case.channel, out.lend());
        (copied.reply, (copied, src, out))
    });
}

#[test]
fn join() {
    let replies = [0, 2, 3, 4, 5, 6, 7, 10, 15, 17];
    compare("join", &replies, BLOCKS, cases::join_case, |calls, case| {
        let (mut src, mut out) = (Lent::new(&case.src), Lent::new(&case.out));
        let mut lengths = Lent::new(&case.lengths);
        let copied = (calls.join)(src.lend(), lengths.lend(), out.lend());
        (copied.reply, (copied, src, lengths, out))
    });
}

#[test]
fn prefixes() {
    let replies = [0, 1, 2, 3, 14];
    compare(
        "read_prefix",
        &replies,
        BYTES,
        cases::prefix_case,
        |calls, case| {
            let mut src = Lent::new(case);
            let prefix = (calls.read_prefix)(src.lend());
            (prefix.reply, (prefix, src))
        },
    );
    compare(
        "write_prefix",
        &[0, 8],
        256,
        |mode| mode as u8,
        |calls, &mode| {
            let byte = (calls.write_prefix)(mode);
            (byte.reply, byte)
        },
    );
}

#[test]
fn norm_calls() {
    compare(
        "choose_flag_n",
        &[0, 8, 9],
        OTHERS,
        cases::norms_case,
        |calls, case| {
            let norms = case.norms;
            let choice = (calls.choose_flag_n)(case.transient, &norms);
            (choice.reply, (choice, norms))
        },
    );
    compare("legalise", &[0, 8], OTHERS, cases::norms_case, |calls, case| {
        let norms = case.norms;
        let legal = (calls.legalise)(case.transient, &norms);
        (legal.reply, (legal, norms))
    });
    compare("weigh", &[0, 8], OTHERS, cases::norms_case, |calls, case| {
        let norms = case.norms;
        let weights = (calls.weigh)(case.transient, &norms);
        (weights.reply, (weights, norms))
    });
    compare("allot", &[0, 8], OTHERS, cases::allot_case, |calls, case| {
        let norms = case.norms;
        let shares = (calls.allot)(case.transient, case.wide, &norms, case.budget);
        (shares.reply, (shares, norms))
    });
}

#[test]
fn point_calls() {
    compare(
        "lattice_point",
        &[0, 8],
        OTHERS,
        cases::lattice_point_case,
        |calls, case| {
            let index = case.index;
            let point = (calls.lattice_point)(case.rate, &index);
            (point.reply, (point, index))
        },
    );
    compare(
        "lattice_index",
        &[0, 8],
        OTHERS,
        cases::lattice_index_case,
        |calls, case| {
            let point = case.point;
            let index = (calls.lattice_index)(case.rate, &point);
            (index.reply, (index, point))
        },
    );
    compare(
        "codebook_point",
        &[0, 8],
        OTHERS,
        cases::codebook_point_case,
        |calls, case| {
            let point = (calls.codebook_point)(case.rate, case.index);
            (point.reply, point)
        },
    );
    compare(
        "codebook_index",
        &[0, 8],
        OTHERS,
        cases::codebook_index_case,
        |calls, case| {
            let point = case.point;
            let row = (calls.codebook_index)(case.rate, &point);
            (row.reply, (row, point))
        },
    );
}

/// Eight numbers of 0 to `base` − 1, each list of them by another seed.
fn digits(seed: u64, base: u64) -> [u16; 8] {
    std::array::from_fn(|at| (seed / base.pow(at as u32) % base) as u16)
}

/// A point with places from −2 to 2.
fn small_point(seed: u64) -> [i16; 8] {
    digits(seed, 5).map(|digit| digit as i16 - 2)
}

/// Every index of rate 2 and of rate 1, every point with places from −2 to 2.
#[test]
fn whole_tables() {
    compare(
        "lattice_point, rate 2",
        &[0],
        1 << 16,
        |seed| digits(seed, 4),
        |calls, index| {
            let point = (calls.lattice_point)(2, index);
            (point.reply, point)
        },
    );
    compare(
        "lattice_index, rate 2",
        &[0, 8],
        5u64.pow(8),
        small_point,
        |calls, point| {
            let index = (calls.lattice_index)(2, point);
            (index.reply, index)
        },
    );
    compare(
        "codebook_point, rate 1",
        &[0, 8],
        1 << 16,
        |seed| seed as u16,
        |calls, &index| {
            let point = (calls.codebook_point)(1, index);
            (point.reply, point)
        },
    );
    compare(
        "codebook_index, rate 1",
        &[0, 8],
        5u64.pow(8),
        small_point,
        |calls, point| {
            let row = (calls.codebook_index)(1, point);
            (row.reply, row)
        },
    );
}
