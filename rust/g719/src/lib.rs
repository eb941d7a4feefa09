//! Stored G.719 speech (JT-G719, equal to ITU-T G.719, Annex A): frames read and written, their bits shared,
//! lattice codes mapped to points, recordings checked, taken apart and joined.
//!
//! Each call is made by a library that is proved: on every input it answers exactly what its definition says,
//! and a refused call leaves lent memory as it was. This crate is the thin safe side of it: no `std`, no
//! heap, no dependencies.
//!
//! # A report of the night: is it whole?
//!
//! ```
//! use g719::{check, frames, Frame, Mode, Refusal, BANDS};
//!
//! // two stored frames of 80 bytes and an empty one
//! let frame = Frame::new(Mode::new(0).unwrap(), false, &[20; BANDS])?;
//! let mut report = [0; 163];
//! let size = frame.write(&mut report)?;
//! frame.write(&mut report[size..])?;
//!
//! assert_eq!(check(&report, 3), Ok(()));
//!
//! // cut inside the second frame: never complete, whatever was booked
//! let stop = check(&report[..120], 2).unwrap_err();
//! assert_eq!(stop.refusal, Refusal::Cut);
//! assert_eq!((stop.count, stop.place), (1, 81)); // one sound frame; ask again from byte 81
//!
//! // frame by frame, over the borrowed bytes
//! for stored in frames(&report) {
//!     let stored = stored?;
//!     match &stored.frame {
//!         Some(frame) => println!("{}: {} bytes", stored.number, frame.record.mode.body_bytes()),
//!         None => println!("{}: no data", stored.number),
//!     }
//! }
//! # Ok::<(), Box<dyn std::error::Error>>(())
//! ```
//!
//! # Words
//!
//! A *recording* is stored frames one behind the other, each 20 ms. A *frame* is a prefix byte and a body of
//! 80 to 320 bytes, or a prefix byte alone: an *empty* frame, which is sound and has nothing to play. A
//! *norm* is the index of a band's loudness, 0 to 39, smaller is louder. A band's *rate*, 0 to 9, says how
//! many bits its codes have; both ends work the rates out of the norms. *Booked* is how many frames a report
//! should have: only that tells a recording that was cut between two frames.
//!
//! # Features
//!
//! - `std` (off): a `std::io::Error` can be made from a [`Refusal`] and from a [`Stop`].
//!
//! # Linking
//!
//! The build script takes `libg719.a` from the folder that `G719_LIB_DIR` names, else from `target/staticlib`
//! of the repository. The library is for x86-64 Linux.
#![no_std]
#![deny(unsafe_code)]
#![warn(missing_docs)]

#[cfg(feature = "std")]
extern crate std;

mod bands;
mod channels;
mod frame;
mod norms;
mod points;
pub mod raw;
mod recording;
mod refusal;
mod sizes;
mod walk;

pub use bands::band_places;
pub use channels::{
    blocks, check_blocks, extract, join, read_block, write_block, Block, Blocks, Copied, StoredBlock,
};
pub use frame::{write_empty, Frame, Layout, Record};
pub use norms::{allot, choose_flag_n, legalise, weigh, Shares, Weights};
pub use points::{codebook_index, codebook_point, lattice_index, lattice_point};
pub use recording::{check, frames, Frames, Stop, Stored};
pub use refusal::Refusal;
pub use sizes::{read_prefix, Length, Mode};

/// Bands of a frame: norms, weights, scores, rates.
pub const BANDS: usize = 44;
/// Numbers of 16 bits that a frame's codes take, one for each coefficient.
pub const CODES: usize = 800;
/// Bytes that a frame's tail takes.
pub const TAIL_BYTES: usize = 320;
/// Bytes of the largest stored frame, prefix byte and body.
pub const FRAME_BYTES: usize = 321;
/// Places of a point and of a lattice index.
pub const POINT_PLACES: usize = 8;
/// The largest budget, in bits.
pub const MOST_BUDGET: u32 = 2560;
/// The most rounds that the sharing of a budget takes.
pub const MOST_ROUNDS: u16 = 257;
/// The most sound frames of a recording, or blocks of one with several channels.
pub const MOST_FRAMES: u32 = 3000;
/// The most channels of a recording.
pub const MOST_CHANNELS: usize = 8;
/// The largest mode.
pub const MOST_MODE: u8 = 19;
/// The largest norm index.
pub const MOST_NORM: u8 = 39;
/// The largest norm index of band 0 that a frame can carry.
pub const MOST_FIRST_NORM: u8 = 31;
/// The largest noise level.
pub const MOST_NOISE: u8 = 3;
/// The largest rate.
pub const MOST_RATE: u8 = 9;
