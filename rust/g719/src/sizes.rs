//! Modes and lengths: two numbers for one size, and neither stands for the other (Tables 22, A.2).

use crate::raw::{self, slices};
use crate::refusal::{answered, Refusal};
use crate::MOST_MODE;

/// How far a field L is above the mode of the same size.
const LENGTH_ABOVE_MODE: u8 = 8;

/// The size of a frame as Table 22 numbers it, 0 to 19: 80 to 320 body bytes.
///
/// ```
/// use g719::{Length, Mode};
/// let mode = Mode::new(19).unwrap();
/// assert_eq!(mode.body_bytes(), 320);
/// assert_eq!(mode.length(), Length::new(27).unwrap());
/// assert_eq!(mode.prefix_byte(), 0x6c);
/// assert!(Mode::new(20).is_none());
/// ```
#[derive(Clone, Copy, Debug, PartialEq, Eq, PartialOrd, Ord, Hash)]
pub struct Mode(u8);

/// The size of a frame with data as the field L of its prefix byte says it, 8 to 27 (Table A.2).
#[derive(Clone, Copy, Debug, PartialEq, Eq, PartialOrd, Ord, Hash)]
pub struct Length(u8);

impl Mode {
    /// The mode of a number; none over 19.
    #[must_use]
    pub const fn new(number: u8) -> Option<Mode> {
        if number <= MOST_MODE {
            Some(Mode(number))
        } else {
            None
        }
    }

    /// All twenty, smallest first.
    pub fn all() -> impl DoubleEndedIterator<Item = Mode> + ExactSizeIterator {
        // a range that includes its end has no exact size
        (0..MOST_MODE + 1).map(Mode)
    }

    /// Its number, 0 to 19.
    #[must_use]
    pub const fn number(self) -> u8 {
        self.0
    }

    /// Body bytes of a frame of this mode, 80 to 320.
    #[must_use]
    pub const fn body_bytes(self) -> usize {
        let number = self.0 as usize;
        if number <= 14 {
            80 + 10 * number
        } else {
            240 + 20 * (number - 15)
        }
    }

    /// The field L of the same size.
    #[must_use]
    pub const fn length(self) -> Length {
        Length(self.0 + LENGTH_ABOVE_MODE)
    }

    /// The prefix byte of a stored frame of this mode.
    #[must_use]
    pub fn prefix_byte(self) -> u8 {
        raw::g719_write_prefix(self.0).byte
    }

    /// The mode of a record that the library answers.
    pub(crate) const fn answered(number: u8) -> Mode {
        Mode(number)
    }
}

impl TryFrom<u8> for Mode {
    type Error = Refusal;

    fn try_from(number: u8) -> Result<Mode, Refusal> {
        Mode::new(number).ok_or(Refusal::OutOfRange)
    }
}

impl Length {
    /// The field L of a number; none for 0, which says that there is no data, and for the reserved ones.
    #[must_use]
    pub const fn new(number: u8) -> Option<Length> {
        if number < LENGTH_ABOVE_MODE || number > LENGTH_ABOVE_MODE + MOST_MODE {
            None
        } else {
            Some(Length(number))
        }
    }

    /// Its number, 8 to 27.
    #[must_use]
    pub const fn number(self) -> u8 {
        self.0
    }

    /// The mode of the same size.
    #[must_use]
    pub const fn mode(self) -> Mode {
        Mode(self.0 - LENGTH_ABOVE_MODE)
    }

    /// Body bytes that follow, 80 to 320.
    #[must_use]
    pub const fn body_bytes(self) -> usize {
        self.mode().body_bytes()
    }
}

/// What the first byte says as a prefix byte: the length of the body that follows, or none where there is no
/// data.
///
/// The other bytes are not looked at. Refused: [`NoByte`](Refusal::NoByte), [`Marked`](Refusal::Marked),
/// [`Reserved`](Refusal::Reserved).
///
/// ```
/// use g719::{read_prefix, Refusal};
/// assert_eq!(read_prefix(&[0x6c])?.unwrap().body_bytes(), 320);
/// assert_eq!(read_prefix(&[0x00])?, None);
/// assert_eq!(read_prefix(&[0x70]), Err(Refusal::Reserved));
/// # Ok::<(), Refusal>(())
/// ```
pub fn read_prefix(src: &[u8]) -> Result<Option<Length>, Refusal> {
    let prefix = slices::read_prefix(src);
    answered(prefix.reply)?;
    Ok(Length::new(prefix.length))
}
