//! Text that XML takes, and about how wide it is.

/// Stands for a character that XML forbids or that would turn the line around it.
const REPLACED: char = '\u{fffd}';

/// A text as XML takes it, in an element or in a quoted attribute.
pub fn escape(text: &str) -> String {
    let mut escaped = String::with_capacity(text.len());
    for character in text.chars() {
        match character {
            '&' => escaped.push_str("&amp;"),
            '<' => escaped.push_str("&lt;"),
            '>' => escaped.push_str("&gt;"),
            '"' => escaped.push_str("&quot;"),
            '\'' => escaped.push_str("&apos;"),
            _ if strange(character) => escaped.push(REPLACED),
            _ => escaped.push(character),
        }
    }
    escaped
}

/// Controls, what XML forbids, and the marks that change the direction of a line.
fn strange(character: char) -> bool {
    let turns =
        matches!(character, '\u{200e}' | '\u{200f}' | '\u{2028}'..='\u{202e}' | '\u{2066}'..='\u{2069}');
    character.is_control() || turns || matches!(character, '\u{fffe}' | '\u{ffff}')
}

/// About how many pixels a bold text takes, rather more than less: no font is at hand to ask.
pub fn width(text: &str, size: usize) -> usize {
    let hundredths = |character| match character {
        'm' | 'w' | 'M' | 'W' | '@' | '%' | '&' => 110,
        'A'..='Z' | '<' | '>' | '=' | '+' | '_' | '#' | '~' => 86,
        ' '..='~' => 70,
        _ => 120,
    };
    (text.chars().map(hundredths).sum::<usize>() * size).div_ceil(100)
}

/// A text that fits into a room, its middle left out if it is too long: the end of a name tells most.
pub fn cut(text: &str, size: usize, room: usize) -> String {
    if width(text, size) <= room {
        return text.into();
    }
    let characters: Vec<char> = text.chars().collect();
    let fits = |kept: &usize| width(&shortened(&characters, *kept), size) <= room;
    let kept = (0..characters.len().min(room)).rev().find(fits).unwrap_or(0);
    shortened(&characters, kept)
}

fn shortened(characters: &[char], kept: usize) -> String {
    let tail = kept / 3;
    let first = characters[..kept - tail].iter();
    let last = characters[characters.len() - tail..].iter();
    first.chain(['…'].iter()).chain(last).collect()
}

/// A count with its thousands apart.
pub fn grouped(count: usize) -> String {
    match count / 1000 {
        0 => count.to_string(),
        thousands => format!("{},{:03}", grouped(thousands), count % 1000),
    }
}

/// A count of things, one or several.
pub fn counted(count: usize, thing: &str) -> String {
    let end = if count == 1 { "" } else { "s" };
    format!("{} {thing}{end}", grouped(count))
}
