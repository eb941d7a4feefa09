//! The names, numbers and words of this crate are those of C: include/g719.h and c/reply_text.c, all of them
//! and no others.

use g719::{raw::reply, Mode, Refusal};
use std::collections::BTreeMap;
use std::fs;

fn file(name: &str) -> String {
    let path = format!("{}/../../{name}", env!("CARGO_MANIFEST_DIR"));
    fs::read_to_string(&path).unwrap_or_else(|error| panic!("{path}: {error}"))
}

/// The enumerators `G719_NAME = NUMBER` of the header.
fn enumerators() -> BTreeMap<String, u64> {
    let header = file("include/g719.h");
    let rows = header.lines().filter_map(|line| {
        let (name, rest) = line.trim().strip_prefix("G719_")?.split_once(" = ")?;
        let number: String = rest.chars().take_while(char::is_ascii_digit).collect();
        Some((name.to_string(), number.parse().ok()?))
    });
    rows.collect()
}

/// The texts `[G719_NAME] = "text",` of the C file.
fn texts() -> BTreeMap<String, String> {
    let source = file("c/reply_text.c");
    let rows = source.lines().filter_map(|line| {
        let (name, rest) = line.trim().strip_prefix("[G719_")?.split_once("] = \"")?;
        Some((name.to_string(), rest.strip_suffix("\",")?.to_string()))
    });
    rows.collect()
}

macro_rules! named {
    ($from:path: $($name:ident)*) => {{
        use $from as from;
        [$((stringify!($name), u64::from(from::$name as u32)),)*]
    }};
}

fn replies() -> BTreeMap<&'static str, u64> {
    BTreeMap::from(
        named!(reply: DONE NO_BYTE MARKED RESERVED CUT NORM_OUTSIDE NO_WORD PAST_BUDGET OUT_OF_RANGE FAR_APART SHORT_ROOM
        NOT_AS_BOOKED WIDE_CODE WRONG_TAIL NO_DATA TOO_MANY WRONG_CHANNELS),
    )
}

fn limits() -> BTreeMap<&'static str, u64> {
    BTreeMap::from(
        named!(g719: BANDS CODES TAIL_BYTES FRAME_BYTES POINT_PLACES MOST_BUDGET MOST_ROUNDS MOST_FRAMES MOST_CHANNELS MOST_MODE
        MOST_NORM MOST_FIRST_NORM MOST_NOISE MOST_RATE),
    )
}

#[test]
fn constants_are_those_of_the_header() {
    let header = enumerators();
    let mut ours = replies();
    ours.extend(limits());
    let header: BTreeMap<&str, u64> = header
        .iter()
        .map(|(name, &number)| (name.as_str(), number))
        .collect();
    assert_eq!(ours, header);
}

#[test]
fn refusals_are_the_replies_but_0_and_14() {
    for number in 0..=u8::MAX {
        match Refusal::from_number(number) {
            None => assert!([reply::DONE, reply::NO_DATA].contains(&number)),
            Some(refusal) => {
                assert_eq!(refusal.number(), number);
                let named = replies().values().any(|&known| known == u64::from(number));
                assert_eq!(matches!(refusal, Refusal::Unknown(_)), !named, "{number}");
            }
        }
    }
}

#[test]
fn texts_are_those_of_c() {
    let texts = texts();
    assert!(texts.keys().eq(replies().keys()), "{texts:?}");
    for (name, number) in replies() {
        if let Some(refusal) = Refusal::from_number(number as u8) {
            assert_eq!(refusal.to_string(), texts[name], "{name}");
        }
    }
}

#[test]
fn the_version_is_that_of_the_header() {
    let header = file("include/g719.h");
    let part = |name: &str| {
        let line = header
            .lines()
            .find_map(|line| line.strip_prefix(&format!("#define G719_VERSION_{name} ")));
        line.expect("a version").trim().to_string()
    };
    assert_eq!(
        [part("MAJOR"), part("MINOR"), part("PATCH")].join("."),
        env!("CARGO_PKG_VERSION")
    );
}

/// Sizes are reckoned here so that they are constants; the library says the same of each mode's prefix byte.
#[test]
fn sizes_are_those_of_the_library() {
    assert_eq!(Mode::all().len(), 20);
    for mode in Mode::all() {
        let length = g719::read_prefix(&[mode.prefix_byte()]).unwrap().unwrap();
        assert_eq!((length, length.mode()), (mode.length(), mode));
        // SAFETY: pointer and count are those of an array that is only read.
        let prefix = unsafe { g719::raw::g719_read_prefix([mode.prefix_byte()].as_ptr(), 1) };
        assert_eq!(
            (prefix.length, usize::from(prefix.bytes)),
            (length.number(), mode.body_bytes())
        );
    }
    for byte in 0..=u8::MAX {
        let field = byte >> 2;
        let named = g719::read_prefix(&[byte]).ok().flatten();
        assert_eq!(named, g719::Length::new(field), "{byte:02x}");
    }
}
