//! Both sides on a choice of cases whose answers come from a third
//! implementation of the paper. A file of data has a line per case: input,
//! colon, answer. Bytes are in hex, numbers in decimal, `3*0` is three times
//! 0 and `-` is nothing. A room is lent full of sentinels; the answer tells
//! what stands at its front after the call.

use g719_compare::calls::{Calls, SIDES};
use g719_compare::random::Random;
use g719_reference::types::{
    Block, Byte, Check, Choice, Copied, Index, Norms, Point, Prefix, Reading, Record, Records, Row, Shares,
    Weights, Writing, MOST_CHANNELS,
};
use std::fmt::Debug;
use std::str::{FromStr, SplitWhitespace};

/// The fields of a line, taken one by one.
struct Line<'a>(SplitWhitespace<'a>);

impl Line<'_> {
    fn field(&mut self) -> &str {
        let mut fields = self.0.by_ref().filter(|&field| field != ":");
        fields.next().expect("a field is missing")
    }

    /// The pieces of a field, each as often as it says.
    fn pieces(&mut self) -> Vec<&str> {
        let field = self.field();
        let pieces = field.split(',').filter(|&piece| piece != "-");
        let repeated = pieces.flat_map(|piece| match piece.split_once('*') {
            Some((times, piece)) => vec![piece; times.parse().expect("a run")],
            None => vec![piece],
        });
        repeated.collect()
    }

    fn bytes(&mut self) -> Vec<u8> {
        let hex = self.pieces().concat();
        let byte = |at| u8::from_str_radix(&hex[at..at + 2], 16).expect("a byte");
        (0..hex.len()).step_by(2).map(byte).collect()
    }

    fn numbers<T: FromStr<Err: Debug>>(&mut self) -> Vec<T> {
        self.pieces()
            .iter()
            .map(|piece| piece.parse().expect("a number"))
            .collect()
    }

    fn array<T: FromStr<Err: Debug> + Debug, const N: usize>(&mut self) -> [T; N] {
        self.numbers().try_into().expect("a list of this length")
    }

    fn number<T: FromStr<Err: Debug>>(&mut self) -> T {
        self.field().parse().expect("a number")
    }

    fn flag(&mut self) -> bool {
        self.number::<u8>() == 1
    }

    fn record(&mut self) -> Record {
        Record {
            mode: self.number(),
            transient: self.flag(),
            flag_l: self.flag(),
            flag_n: self.flag(),
            flag_c: self.flag(),
            norms: self.array(),
            noise: self.number(),
            tail_bits: self.number(),
        }
    }
}

/// A frame of a block, the parts of its rooms filled if it has data.
fn frame(line: &mut Line, codes: &mut [u16], tail: &mut [u8]) -> Reading {
    let mut frame = Reading {
        reply: line.number(),
        next: line.number(),
        ..Reading::NONE
    };
    if frame.reply == 0 {
        frame.record = line.record();
        codes.copy_from_slice(&line.numbers());
        tail.copy_from_slice(&line.bytes());
    }
    frame
}

/// Runs each line of a file on both sides.
fn run(data: &str, case: impl Fn(&Calls, &mut Line)) {
    let lines: Vec<&str> = data.lines().filter(|line| !line.starts_with('#')).collect();
    for calls in SIDES {
        for text in &lines {
            println!("{}: {text}", calls.side);
            let mut line = Line(text.split_whitespace());
            case(calls, &mut line);
            assert_eq!(line.0.next(), None);
        }
    }
}

/// A room with `front` at its front and the sentinels of its size behind.
fn room<T: Copy + From<u8>>(count: usize, front: &[T]) -> Vec<T> {
    let mut room: Vec<T> = Random::new(count as u64)
        .bytes(count)
        .into_iter()
        .map(T::from)
        .collect();
    room[..front.len()].copy_from_slice(front);
    room
}

#[test]
fn read() {
    run(include_str!("data/read.txt"), |calls, line| {
        let src = line.bytes();
        let (codes_count, tail_count) = (line.number(), line.number());
        let wanted = Reading {
            reply: line.number(),
            next: line.number(),
            record: line.record(),
        };
        let (mut codes, mut tail) = (room(codes_count, &[]), room(tail_count, &[]));
        assert_eq!((calls.read)(&src, &mut codes, &mut tail), wanted);
        if wanted.reply == 0 {
            let parts = (calls.layout)(&wanted.record, &codes);
            assert_eq!((parts.reply, parts.tail_bits), (0, wanted.record.tail_bits));
        }
        assert_eq!(codes, room(codes_count, &line.numbers()));
        assert_eq!(tail, room(tail_count, &line.bytes()));
    });
}

#[test]
fn write() {
    run(include_str!("data/write.txt"), |calls, line| {
        let (record, codes, tail) = (line.record(), line.numbers(), line.bytes());
        let count = line.number();
        let wanted = Writing {
            reply: line.number(),
            next: line.number(),
        };
        let mut out = room(count, &[]);
        assert_eq!((calls.write)(&record, &codes, &tail, &mut out), wanted);
        assert_eq!(out, room(count, &line.bytes()));
    });
    run(include_str!("data/write_empty.txt"), |calls, line| {
        let count = line.number();
        let wanted = Writing {
            reply: line.number(),
            next: line.number(),
        };
        let mut out = room(count, &[]);
        assert_eq!((calls.write_empty)(&mut out), wanted);
        assert_eq!(out, room(count, &line.bytes()));
    });
}

#[test]
fn prefixes() {
    run(include_str!("data/read_prefix.txt"), |calls, line| {
        let found = (calls.read_prefix)(&line.bytes());
        let wanted = Prefix {
            reply: line.number(),
            length: line.number(),
            bytes: line.number(),
            next: line.number(),
        };
        assert_eq!(found, wanted);
    });
    run(include_str!("data/write_prefix.txt"), |calls, line| {
        let found = (calls.write_prefix)(line.number());
        let wanted = Byte {
            reply: line.number(),
            byte: line.number(),
        };
        assert_eq!(found, wanted);
    });
}

#[test]
fn choices() {
    let wanted = |line: &mut Line| Choice {
        reply: line.number(),
        flag: line.flag(),
    };
    run(include_str!("data/choose_flag_c.txt"), |calls, line| {
        let found = (calls.choose_flag_c)(&line.record(), &line.numbers());
        assert_eq!(found, wanted(line));
    });
    run(include_str!("data/choose_flag_n.txt"), |calls, line| {
        let found = (calls.choose_flag_n)(line.flag(), &line.array());
        assert_eq!(found, wanted(line));
    });
}

#[test]
fn norm_calls() {
    run(include_str!("data/legalise.txt"), |calls, line| {
        let found = (calls.legalise)(line.flag(), &line.array());
        let wanted = Norms {
            reply: line.number(),
            norms: line.array(),
        };
        assert_eq!(found, wanted);
    });
    run(include_str!("data/weigh.txt"), |calls, line| {
        let found = (calls.weigh)(line.flag(), &line.array());
        let wanted = Weights {
            reply: line.number(),
            weights: line.array(),
            scores: line.array(),
        };
        assert_eq!(found, wanted);
    });
    run(include_str!("data/allot.txt"), |calls, line| {
        let found = (calls.allot)(line.flag(), line.flag(), &line.array(), line.number());
        let wanted = Shares {
            reply: line.number(),
            rates: line.array(),
            left: line.number(),
            rounds: line.number(),
        };
        assert_eq!(found, wanted);
    });
}

#[test]
fn points() {
    let wanted = |line: &mut Line| Point {
        reply: line.number(),
        at: line.array(),
    };
    run(include_str!("data/lattice_point.txt"), |calls, line| {
        let found = (calls.lattice_point)(line.number(), &line.array());
        assert_eq!(found, wanted(line));
    });
    run(include_str!("data/codebook_point.txt"), |calls, line| {
        let found = (calls.codebook_point)(line.number(), line.number());
        assert_eq!(found, wanted(line));
    });
}

#[test]
fn indices() {
    run(include_str!("data/lattice_index.txt"), |calls, line| {
        let found = (calls.lattice_index)(line.number(), &line.array());
        let wanted = Index {
            reply: line.number(),
            at: line.array(),
        };
        assert_eq!(found, wanted);
    });
    run(include_str!("data/codebook_index.txt"), |calls, line| {
        let found = (calls.codebook_index)(line.number(), &line.array());
        let wanted = Row {
            reply: line.number(),
            index: line.number(),
        };
        assert_eq!(found, wanted);
    });
}

#[test]
fn check_file() {
    run(include_str!("data/check_file.txt"), |calls, line| {
        let found = (calls.check_file)(&line.bytes(), line.number());
        let wanted = Check {
            reply: line.number(),
            count: line.number(),
            place: line.number(),
        };
        assert_eq!(found, wanted);
    });
}

#[test]
fn read_block() {
    run(include_str!("data/read_block.txt"), |calls, line| {
        let (src, channels) = (line.bytes(), line.number());
        let (codes_count, tails_count) = (line.number(), line.number());
        let (mut codes, mut tails) = (room(codes_count, &[]), room(tails_count, &[]));
        let found = (calls.read_block)(&src, channels, &mut codes, &mut tails);
        let mut wanted = Block {
            reply: line.number(),
            next: line.number(),
            frames: [Reading::NONE; MOST_CHANNELS],
        };
        let (mut wanted_codes, mut wanted_tails) = (room(codes_count, &[]), room(tails_count, &[]));
        if wanted.reply == 0 {
            let rooms = wanted_codes.chunks_mut(800).zip(wanted_tails.chunks_mut(320));
            for (at, (codes, tail)) in rooms.take(channels.into()).enumerate() {
                wanted.frames[at] = frame(line, codes, tail);
            }
        }
        assert_eq!(found, wanted);
        assert_eq!((codes, tails), (wanted_codes, wanted_tails));
    });
}

#[test]
fn write_block() {
    run(include_str!("data/write_block.txt"), |calls, line| {
        let channels = line.number();
        let empty: [u8; MOST_CHANNELS] = line.array();
        let records = Records {
            empty: empty.map(|number| number == 1),
            at: std::array::from_fn(|_| line.record()),
        };
        let (codes, tails, count) = (line.numbers(), line.bytes(), line.number());
        let wanted = Writing {
            reply: line.number(),
            next: line.number(),
        };
        let mut out = room(count, &[]);
        let found = (calls.write_block)(&records, channels, &codes, &tails, &mut out);
        assert_eq!(found, wanted);
        assert_eq!(out, room(count, &line.bytes()));
    });
}

#[test]
fn check_blocks() {
    run(include_str!("data/check_blocks.txt"), |calls, line| {
        let found = (calls.check_blocks)(&line.bytes(), line.number(), line.number());
        let wanted = Check {
            reply: line.number(),
            count: line.number(),
            place: line.number(),
        };
        assert_eq!(found, wanted);
    });
}

/// What was copied; the third implementation does not tell which of joined
/// recordings is refused.
fn copied(line: &mut Line, which: u8) -> Copied {
    Copied {
        reply: line.number(),
        which,
        count: line.number(),
        place: line.number(),
        length: line.number(),
    }
}

#[test]
fn extract() {
    run(include_str!("data/extract.txt"), |calls, line| {
        let (src, channels, channel) = (line.bytes(), line.number(), line.number());
        let count = line.number();
        let mut out = room(count, &[]);
        let found = (calls.extract)(&src, channels, channel, &mut out);
        assert_eq!(found, copied(line, 0));
        assert_eq!(out, room(count, &line.bytes()));
    });
}

#[test]
fn join() {
    run(include_str!("data/join.txt"), |calls, line| {
        let (src, lengths) = (line.bytes(), line.numbers());
        let count = line.number();
        let mut out = room(count, &[]);
        let found = (calls.join)(&src, &lengths, &mut out);
        assert_eq!(found, copied(line, found.which));
        assert_eq!(out, room(count, &line.bytes()));
    });
}
