//! Structs of the C interface as their namesakes of the plain implementation,
//! and back where a call takes one. They differ in flags, which are numbers
//! in C.

use g719::raw;
use g719_reference::types::{self, Record, Records};

/// A struct of the C interface that has a plain namesake.
pub trait Plain {
    type Namesake;
    fn plain(self) -> Self::Namesake;
}

/// Structs without flags: no field of either side can be left out.
macro_rules! same_fields {
    ($($name:ident { $($field:ident),* })*) => {$(
        impl Plain for raw::$name {
            type Namesake = types::$name;
            fn plain(self) -> types::$name {
                let raw::$name { $($field),* } = self;
                types::$name { $($field),* }
            }
        }
    )*};
}

same_fields! {
    Prefix { reply, length, bytes, next }
    Byte { reply, byte }
    Writing { reply, next }
    Parts { reply, budget, rates, code_bits, tail_bits }
    Norms { reply, norms }
    Weights { reply, weights, scores }
    Shares { reply, rates, left, rounds }
    Point { reply, at }
    Index { reply, at }
    Row { reply, index }
    Check { reply, count, place }
    Copied { reply, which, count, place, length }
}

impl Plain for raw::Record {
    type Namesake = Record;
    fn plain(self) -> Record {
        Record {
            mode: self.mode,
            transient: self.transient != 0,
            flag_l: self.flag_l != 0,
            flag_n: self.flag_n != 0,
            flag_c: self.flag_c != 0,
            norms: self.norms,
            noise: self.noise,
            tail_bits: self.tail_bits,
        }
    }
}

impl Plain for raw::Reading {
    type Namesake = types::Reading;
    fn plain(self) -> types::Reading {
        types::Reading {
            reply: self.reply,
            next: self.next,
            record: self.record.plain(),
        }
    }
}

impl Plain for raw::Choice {
    type Namesake = types::Choice;
    fn plain(self) -> types::Choice {
        types::Choice {
            reply: self.reply,
            flag: self.flag != 0,
        }
    }
}

impl Plain for raw::Block {
    type Namesake = types::Block;
    fn plain(self) -> types::Block {
        types::Block {
            reply: self.reply,
            next: self.next,
            frames: self.frames.map(raw::Reading::plain),
        }
    }
}

/// A record as C takes it, its flags 0 or 1.
pub fn record_in_c(record: &Record) -> raw::Record {
    raw::Record {
        mode: record.mode,
        transient: record.transient.into(),
        flag_l: record.flag_l.into(),
        flag_n: record.flag_n.into(),
        flag_c: record.flag_c.into(),
        norms: record.norms,
        noise: record.noise,
        tail_bits: record.tail_bits,
    }
}

/// The records of a block as C takes them, their flags 0 or 1.
pub fn records_in_c(records: &Records) -> raw::Records {
    raw::Records {
        at: records.at.each_ref().map(record_in_c),
        empty: records.empty.map(u8::from),
    }
}
