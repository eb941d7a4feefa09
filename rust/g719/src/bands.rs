//! Where the codes of each band stand.

use crate::CODES;
use core::ops::Range;

/// The places of a band among the 800 codes, lowest band first: bands 0 to 15 have 8 each, 16 to 23 have 16, 24
/// to 35 have 24, 36 to 43 have 32. A number over 43 has none.
///
/// ```
/// use g719::{band_places, Frame, Mode, BANDS};
/// let frame = Frame::new(Mode::new(0).unwrap(), false, &[20; BANDS])?;
/// for (band, rate) in frame.layout()?.rates.into_iter().enumerate() {
///     for eight in frame.codes[band_places(band)].chunks_exact(8) {
///         let point = match rate {
///             0 => [0; 8],
///             1 => g719::codebook_point(eight[0] as u8),
///             _ => g719::lattice_point(rate, eight.try_into().unwrap())?,
///         };
///         # let _ = point;
///     }
/// }
/// # Ok::<(), g719::Refusal>(())
/// ```
#[must_use]
pub const fn band_places(band: usize) -> Range<usize> {
    let (first, start, length) = match band {
        0..=15 => (0, 0, 8),
        16..=23 => (16, 128, 16),
        24..=35 => (24, 256, 24),
        36..=43 => (36, 544, 32),
        _ => return CODES..CODES,
    };
    let from = start + (band - first) * length;
    from..from + length
}
