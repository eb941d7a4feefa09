//! Names, counts and times in words.

use std::ffi::OsStr;

/// A name on one line: control characters escaped, what is no text replaced.
pub fn name(name: &OsStr) -> String {
    let lossy = name.to_string_lossy();
    let one = |character: char| {
        if character.is_control() {
            character.escape_default().to_string()
        } else {
            character.to_string()
        }
    };
    lossy.chars().map(one).collect()
}

/// Seconds of so many frames or blocks of 20 ms.
pub fn seconds(count: u32) -> String {
    format!("{}.{:02} s", count / 50, count % 50 * 2)
}

/// A count with its noun.
pub fn count(count: u32, noun: &str) -> String {
    let plural = if count == 1 { "" } else { "s" };
    format!("{count} {noun}{plural}")
}

#[cfg(test)]
mod tests {
    use super::*;
    use std::os::unix::ffi::OsStrExt;

    #[test]
    fn names_stay_on_one_line() {
        assert_eq!(name(OsStr::new("boat 7.g719")), "boat 7.g719");
        assert_eq!(name(OsStr::new("a\nb\u{1b}[2J")), "a\\nb\\u{1b}[2J");
        assert_eq!(name(OsStr::from_bytes(b"\xff")), "\u{fffd}");
    }

    #[test]
    fn seconds_of_frames() {
        let told: Vec<String> = [0, 1, 49, 50, 3000].map(seconds).into();
        assert_eq!(told, ["0.00 s", "0.02 s", "0.98 s", "1.00 s", "60.00 s"]);
    }
}
