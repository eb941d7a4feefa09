//! The prefix byte (A.4.1) and the frame sizes (Tables 22 and A.2).

use crate::reply;
use crate::types::{Byte, Prefix};

/// Number of modes.
const MODES: u8 = 20;
/// L of mode 0.
const FIRST_LENGTH: u8 = 8;

/// Body bytes of a mode, or reply 8 for a mode over 19.
pub(crate) fn frame_bytes(mode: u8) -> Result<usize, u8> {
    match mode {
        0..=14 => Ok(80 + 10 * usize::from(mode)),
        15..MODES => Ok(240 + 20 * usize::from(mode - 15)),
        _ => Err(reply::OUT_OF_RANGE),
    }
}

/// The mode that an L names; none for 0 and the reserved ones.
pub(crate) fn mode_of(length: u8) -> Option<u8> {
    let mode = length.checked_sub(FIRST_LENGTH)?;
    (mode < MODES).then_some(mode)
}

/// Reads the prefix byte at the start of `src`.
pub fn read_prefix(src: &[u8]) -> Prefix {
    let refused = |reply| Prefix {
        reply,
        length: 0,
        bytes: 0,
        next: 0,
    };
    let Some(&byte) = src.first() else {
        return refused(reply::NO_BYTE);
    };
    if byte & 0x80 != 0 {
        return refused(reply::MARKED);
    }
    let length = byte >> 2;
    if length == 0 {
        return Prefix {
            next: 1,
            ..refused(reply::NO_DATA)
        };
    }
    match mode_of(length).map(frame_bytes) {
        Some(Ok(bytes)) => Prefix {
            reply: reply::DONE,
            length,
            bytes: bytes as u16,
            next: 1,
        },
        _ => refused(reply::RESERVED),
    }
}

/// The prefix byte of a mode.
pub fn write_prefix(mode: u8) -> Byte {
    if mode >= MODES {
        return Byte {
            reply: reply::OUT_OF_RANGE,
            byte: 0,
        };
    }
    Byte {
        reply: reply::DONE,
        byte: (mode + FIRST_LENGTH) << 2,
    }
}

#[cfg(test)]
mod tests {
    use super::*;

    #[test]
    fn prefixes_of_the_examples() {
        let of = |byte| read_prefix(&[byte]);
        assert_eq!((of(0x20).reply, of(0x20).bytes), (0, 80));
        assert_eq!(of(0x04).reply, 3);
        assert_eq!((of(0x80).reply, of(0x84).reply), (2, 2));
        assert_eq!((of(0x6c).reply, of(0x6c).length, of(0x6c).bytes), (0, 27, 320));
        assert_eq!(of(0x70).reply, 3);
        for byte in 0..4 {
            assert_eq!((of(byte).reply, of(byte).next), (14, 1));
        }
        assert_eq!(read_prefix(&[]).reply, 1);
    }

    #[test]
    fn every_mode_comes_back() {
        for mode in 0..=255u8 {
            let byte = write_prefix(mode);
            assert_eq!(byte.reply, if mode < 20 { 0 } else { 8 });
            if byte.reply == 0 {
                let prefix = read_prefix(&[byte.byte]);
                assert_eq!((prefix.reply, prefix.length), (0, mode + 8));
                assert_eq!(Ok(usize::from(prefix.bytes)), frame_bytes(mode));
            }
        }
    }
}
