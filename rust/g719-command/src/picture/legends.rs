//! What the shades of the maps stand for.

use super::plan::MAP;
use super::shades::{LOUDNESS, RATES};
use super::svg::{rect, text, FAINT, SMALL, STRIPES};

/// A swatch is as wide as this; numbers stand behind it.
const SWATCH: usize = 16;
const BEHIND: usize = 22;
/// Pixels of a step of loudness, and of one of the rate.
const THIN: usize = 4;
const THICK: usize = 16;
/// Steps whose loudness is written.
const WRITTEN: [(usize, &str); 5] = [(39, "34"), (30, "25"), (20, "15"), (10, "5"), (0, "−5")];

/// All forty shades, the loudest above.
pub fn loudness(x: usize, top: usize) -> String {
    let y = |step| top + (LOUDNESS.steps - 1 - step) * THIN;
    let shades = (0..LOUDNESS.steps).map(|step| rect(x, y(step), (SWATCH, THIN), &LOUDNESS.shade(step)));
    let numbers = WRITTEN.map(|(step, loudness)| text(x + BEHIND, y(step) + 6, SMALL, loudness));
    shades.chain(numbers).collect::<String>() + &no_data(x, top)
}

/// The ten shades, the highest rate above, each with its number.
pub fn rates(x: usize, top: usize) -> String {
    let mut legend = String::new();
    for rate in 0..RATES.steps {
        let y = top + (RATES.steps - 1 - rate) * THICK;
        legend += &rect(x, y, (SWATCH, THICK), &RATES.shade(rate));
        legend += &text(x + BEHIND, y + 12, SMALL, &rate.to_string());
    }
    legend + &no_data(x, top)
}

/// At the foot, apart from the shades: it is not one of them.
fn no_data(x: usize, top: usize) -> String {
    let y = top + MAP - THICK;
    rect(x, y, (SWATCH, THICK), STRIPES) + &text(x + BEHIND, y + 12, FAINT, "no data")
}
