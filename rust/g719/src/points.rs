//! Points: the lattice at rates 2 to 9, the codebook at rate 1.

use crate::refusal::{answered, Refusal};
use crate::{raw, POINT_PLACES};

/// The point that a lattice index names.
///
/// Refused: [`OutOfRange`](Refusal::OutOfRange) for a rate outside 2 to 9 or a number of 2^rate or more.
///
/// ```
/// let point = g719::lattice_point(2, &[3, 0, 0, 0, 0, 0, 0, 0])?;
/// assert_eq!(point, [-2, 0, 0, 0, 0, 0, 0, 0]);
/// assert_eq!(g719::lattice_index(2, &point)?, [3, 0, 0, 0, 0, 0, 0, 0]);
/// # Ok::<(), g719::Refusal>(())
/// ```
pub fn lattice_point(rate: u8, index: &[u16; POINT_PLACES]) -> Result<[i16; POINT_PLACES], Refusal> {
    let point = raw::g719_lattice_point(rate, index);
    answered(point.reply)?;
    Ok(point.at)
}

/// The lattice index that names a point.
///
/// Refused: [`OutOfRange`](Refusal::OutOfRange) for a rate outside 2 to 9 or a point that no index of the
/// rate names.
pub fn lattice_index(rate: u8, point: &[i16; POINT_PLACES]) -> Result<[u16; POINT_PLACES], Refusal> {
    let index = raw::g719_lattice_index(rate, point);
    answered(index.reply)?;
    Ok(index.at)
}

/// The row of the rate-1 codebook that an index names; each of the 256 names one.
///
/// ```
/// assert_eq!(g719::codebook_point(255), [1; 8]);
/// assert_eq!(g719::codebook_index(&[1; 8]), Ok(255));
/// ```
#[must_use]
pub fn codebook_point(index: u8) -> [i16; POINT_PLACES] {
    raw::g719_codebook_point(1, index.into()).at
}

/// The index of a row of the rate-1 codebook.
///
/// Refused: [`OutOfRange`](Refusal::OutOfRange) for a point that is no row.
pub fn codebook_index(point: &[i16; POINT_PLACES]) -> Result<u8, Refusal> {
    let row = raw::g719_codebook_index(1, point);
    answered(row.reply)?;
    Ok(row.index)
}
