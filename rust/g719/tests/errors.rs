//! Refusals and stops as errors: their words, their cause, and with feature `std` as errors of input.

use g719::{check, join, Refusal, Stop};
use std::error::Error;

fn cut() -> Stop {
    check(&[0, 0x20], 2).unwrap_err()
}

#[test]
fn a_stop_says_why_and_where() {
    assert_eq!(
        cut().to_string(),
        "cut: the bytes end before the frame does (at byte 1, 1 sound)"
    );
    assert_eq!(cut().source().unwrap().to_string(), Refusal::Cut.to_string());
    let second = join(&[0, 0x80], &[1, 1], &mut [0; 2]).unwrap_err();
    assert_eq!(second.recording, Some(1));
    let words = "recording 1: a frame begins with a bit that must be 0 (at byte 0, 0 sound)";
    assert_eq!(second.to_string(), words);
}

#[test]
fn a_number_without_a_name_is_told() {
    let unknown = Refusal::from_number(99).unwrap();
    assert_eq!((unknown, unknown.number()), (Refusal::Unknown(99), 99));
    assert_eq!(unknown.to_string(), "no such reply: 99");
}

#[cfg(feature = "std")]
#[test]
fn errors_of_input() {
    use std::io;
    fn read(bytes: &[u8]) -> io::Result<()> {
        g719::read_prefix(bytes)?;
        Ok(check(bytes, 1)?)
    }
    for (bytes, words) in [
        (&[0x80], Refusal::Marked.to_string()),
        (&[0x20], {
            let stop = check(&[0x20], 1).unwrap_err();
            stop.to_string()
        }),
    ] {
        let error = read(bytes).unwrap_err();
        assert_eq!(
            (error.kind(), error.to_string()),
            (io::ErrorKind::InvalidData, words)
        );
    }
}
