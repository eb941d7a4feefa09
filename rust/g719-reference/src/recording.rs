//! The file check and the lister.

use crate::reader::read;
use crate::reply;
use crate::types::{Check, CODES, TAIL_BYTES};
use std::fmt::Write;

/// Most frames of a file, or blocks of one with several channels.
pub(crate) const MOST_FRAMES: u32 = 3000;
/// Most bytes that the lister takes.
const MOST_BYTES: usize = 65_536;

/// Reads frame after frame to the end of `src` and shows `line` each one's
/// reply and body bytes. Gives the sound frames, and the reply and place of
/// the end.
pub(crate) fn walk(src: &[u8], mut line: impl FnMut(u32, u8, usize)) -> Check {
    let mut codes = [0; CODES];
    let mut tail = [0; TAIL_BYTES];
    let mut rest = src;
    let mut count = 0;
    let ended = |reply, count, rest: &[u8]| Check {
        reply,
        count,
        place: src.len() - rest.len(),
    };
    while !rest.is_empty() {
        if count == MOST_FRAMES {
            return ended(reply::TOO_MANY, count, rest);
        }
        let reading = read(rest, &mut codes, &mut tail);
        line(count, reading.reply, reading.next.saturating_sub(1));
        if !matches!(reading.reply, reply::DONE | reply::NO_DATA) {
            return ended(reading.reply, count, rest);
        }
        count += 1;
        rest = &rest[reading.next..];
    }
    ended(reply::DONE, count, rest)
}

/// Reads every frame of a file in full and holds their count against the
/// booking.
pub fn check_file(src: &[u8], booking: u32) -> Check {
    let mut check = walk(src, |_, _, _| {});
    if check.reply == reply::DONE && check.count != booking {
        check.reply = reply::NOT_AS_BOOKED;
    }
    check
}

/// The lister's whole output for an input.
pub fn list(src: &[u8]) -> String {
    if src.len() > MOST_BYTES {
        return String::from("input too long\n");
    }
    let mut lines = String::new();
    let check = walk(src, |number, reply, bytes| {
        let _ = writeln!(lines, "{number:04} {reply} {bytes}");
    });
    let Check { reply, count, place } = check;
    let _ = writeln!(lines, "total {count} answer {reply} at {place}");
    lines
}

#[cfg(test)]
mod tests {
    use super::*;

    fn found(src: &[u8], booking: u32) -> (u8, u32, usize) {
        let check = check_file(src, booking);
        (check.reply, check.count, check.place)
    }

    #[test]
    fn checks_of_the_examples() {
        assert_eq!(found(&[0x00, 0x20], 1), (4, 1, 1));
        assert_eq!(found(&[], 0), (0, 0, 0));
        assert_eq!(found(&[], 1), (11, 0, 0));
        assert_eq!(found(&[0, 3, 0], 3), (0, 3, 3));
        assert_eq!(found(&[0, 0, 0], 2), (11, 3, 3));
    }

    #[test]
    fn three_thousand_frames() {
        assert_eq!(found(&[0; 2999], 3000), (11, 2999, 2999));
        assert_eq!(found(&[0; 3000], 3000), (0, 3000, 3000));
        assert_eq!(found(&[0; 3000], 2999), (11, 3000, 3000));
        assert_eq!(found(&[0; 3001], 3001), (15, 3000, 3000));
        let mut src = [0; 3001];
        src[3000] = 0x80;
        assert_eq!(found(&src, 3000), (15, 3000, 3000));
        let listed = list(&src);
        assert_eq!(listed.lines().count(), 3001);
        assert!(listed.ends_with("2999 14 0\ntotal 3000 answer 15 at 3000\n"));
    }

    #[test]
    fn lists_of_the_examples() {
        assert_eq!(list(&[0, 0]), "0000 14 0\n0001 14 0\ntotal 2 answer 0 at 2\n");
        assert_eq!(list(&[0, 0x20]), "0000 14 0\n0001 4 0\ntotal 1 answer 4 at 1\n");
        assert_eq!(list(&[]), "total 0 answer 0 at 0\n");
        assert_eq!(list(&[0; 65_537]), "input too long\n");
        assert!(list(&[0; 65_536]).ends_with("total 3000 answer 15 at 3000\n"));
    }
}
