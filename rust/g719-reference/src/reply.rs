//! The numbered replies.

/// Done.
pub const DONE: u8 = 0;
/// No byte to read.
pub const NO_BYTE: u8 = 1;
/// F is 1.
pub const MARKED: u8 = 2;
/// L reserved.
pub const RESERVED: u8 = 3;
/// Fewer body bytes than L says.
pub const CUT: u8 = 4;
/// A norm index outside 0–39.
pub const NORM_OUTSIDE: u8 = 5;
/// Word 1111110 in the 5-bit column.
pub const NO_WORD: u8 = 6;
/// Codes go past the budget.
pub const PAST_BUDGET: u8 = 7;
/// A value that cannot be written or computed with.
pub const OUT_OF_RANGE: u8 = 8;
/// A difference outside −15..16.
pub const FAR_APART: u8 = 9;
/// Lent room short.
pub const SHORT_ROOM: u8 = 10;
/// File ended soundly, count not as booked.
pub const NOT_AS_BOOKED: u8 = 11;
/// A code too wide for its rate or an unused place nonzero.
pub const WIDE_CODE: u8 = 12;
/// Tail count or padding wrong.
pub const WRONG_TAIL: u8 = 13;
/// L 0: no data.
pub const NO_DATA: u8 = 14;
/// A byte is left after 3,000 sound frames.
pub const TOO_MANY: u8 = 15;
/// A channel count outside 1–8, a channel not among them, or unequal frame
/// counts.
pub const WRONG_CHANNELS: u8 = 17;
