//! The budget Ψ of a frame (7.5.2, 7.8).

/// Bits of the four flags.
pub(crate) const FLAG_BITS: u32 = 4;
/// Bits of the noise level in a stationary frame.
pub(crate) const NOISE_BITS: u32 = 2;

/// Frame bits − 4 − norm bits − 2 if stationary.
pub(crate) fn budget(bytes: usize, transient: bool, norm_bits: u32) -> u32 {
    let noise_bits = if transient { 0 } else { NOISE_BITS };
    8 * bytes as u32 - FLAG_BITS - norm_bits - noise_bits
}

/// Whether bands 36–43 compete: FlagL acts at 80 bytes alone.
pub(crate) fn wide(mode: u8, flag_l: bool) -> bool {
    mode != 0 || flag_l
}
