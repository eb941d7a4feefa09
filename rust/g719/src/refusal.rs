//! Why a call was refused.

use crate::raw::reply;
use core::fmt;

/// A refusal by name, as C names it; its number and its words, once.
macro_rules! refusals {
    ($($name:ident = $number:ident, $text:literal;)*) => {
        /// Why a call was refused: the paper's number ([`Refusal::number`]) under the name that C gives it,
        /// and plain words ([`Display`](fmt::Display)).
        ///
        /// An empty frame (14) is no refusal: reading gives `Ok(None)` for it.
        ///
        /// ```
        /// use g719::{read_prefix, Refusal};
        /// let refusal = read_prefix(&[0x80]).unwrap_err();
        /// assert_eq!(refusal, Refusal::Marked);
        /// assert_eq!(refusal.number(), 2);
        /// assert_eq!(refusal.to_string(), "a frame begins with a bit that must be 0");
        /// ```
        #[derive(Clone, Copy, Debug, PartialEq, Eq, Hash)]
        #[non_exhaustive]
        pub enum Refusal {
            $(#[doc = concat!(stringify!($number), ": ", $text, ".")] $name,)*
            /// A number that this crate has no name for: the library is newer.
            Unknown(u8),
        }

        impl Refusal {
            /// The paper's number.
            #[must_use]
            pub const fn number(self) -> u8 {
                match self {
                    $(Refusal::$name => reply::$number,)*
                    Refusal::Unknown(number) => number,
                }
            }

            /// The refusal of a reply; none for 0, done, and for 14, an empty frame.
            #[must_use]
            pub const fn from_number(number: u8) -> Option<Refusal> {
                match number {
                    reply::DONE | reply::NO_DATA => None,
                    $(reply::$number => Some(Refusal::$name),)*
                    unknown => Some(Refusal::Unknown(unknown)),
                }
            }

            /// The refusal in plain words.
            #[must_use]
            pub const fn text(self) -> &'static str {
                match self {
                    $(Refusal::$name => $text,)*
                    Refusal::Unknown(_) => "no such reply",
                }
            }
        }
    };
}

refusals! {
    NoByte = NO_BYTE, "no byte to read";
    Marked = MARKED, "a frame begins with a bit that must be 0";
    Reserved = RESERVED, "a frame names a size that does not exist";
    Cut = CUT, "cut: the bytes end before the frame does";
    NormOutside = NORM_OUTSIDE, "a frame has a norm that does not exist";
    NoWord = NO_WORD, "a frame has a word that does not exist";
    PastBudget = PAST_BUDGET, "a frame has more codes than fit";
    OutOfRange = OUT_OF_RANGE, "a number is out of its range, or no index names the point";
    FarApart = FAR_APART, "two norms that are sent one behind the other are too far apart";
    ShortRoom = SHORT_ROOM, "the lent room is too short";
    NotAsBooked = NOT_AS_BOOKED, "not as many as booked";
    WideCode = WIDE_CODE, "a code is too wide for its rate, or an unused place is not 0";
    WrongTail = WRONG_TAIL, "the tail's bit count is wrong, or a bit behind it is not 0";
    TooMany = TOO_MANY, "bytes follow 3,000 frames";
    WrongChannels = WRONG_CHANNELS,
        "not 1 to 8 channels, a channel not among them, or recordings of unequal frame counts";
}

impl fmt::Display for Refusal {
    fn fmt(&self, formatter: &mut fmt::Formatter<'_>) -> fmt::Result {
        match self {
            Refusal::Unknown(number) => write!(formatter, "{}: {number}", self.text()),
            _ => formatter.write_str(self.text()),
        }
    }
}

impl core::error::Error for Refusal {}

#[cfg(feature = "std")]
impl From<Refusal> for std::io::Error {
    fn from(refusal: Refusal) -> Self {
        std::io::Error::new(std::io::ErrorKind::InvalidData, refusal)
    }
}

/// Done or refused; an empty frame is done.
pub(crate) const fn answered(number: u8) -> Result<(), Refusal> {
    match Refusal::from_number(number) {
        None => Ok(()),
        Some(refusal) => Err(refusal),
    }
}
