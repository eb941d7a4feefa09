//! Stored G.719 frames, a second time: a plain implementation, written from
//! the paper and without the proved library, to hold that one against.
//!
//! Each call has the name and the answers of its namesake in the C interface.
//! Flags are `bool`, and a slice carries its own count.
#![forbid(unsafe_code)]

mod allotment;
mod bits;
mod budget;
mod channels;
mod codebook;
mod codes;
#[cfg(test)]
mod draws;
mod lattice;
mod norms;
mod prefix;
mod reader;
mod recording;
pub mod reply;
pub mod types;
mod weights;
mod words;
mod writer;

pub use allotment::allot;
pub use channels::{check_blocks, extract, join, read_block, write_block};
pub use codebook::{codebook_index, codebook_point};
pub use lattice::{lattice_index, lattice_point};
pub use norms::{choose_flag_n, legalise};
pub use prefix::{read_prefix, write_prefix};
pub use reader::read;
pub use recording::{check_file, list};
pub use weights::weigh;
pub use writer::{choose_flag_c, layout, write, write_empty};

/// What frames are put together from, for who makes frames that no call
/// would write. Nothing else of the inside is reachable. What is asked for at
/// every place of a frame is marked inline, for calls from other packages.
#[doc(hidden)]
pub mod pieces {
    pub use crate::bits::BitWriter;
    pub use crate::codes::{code_bits, places, put_codes, Codes, Rates};
    pub use crate::norms::{put_norms, sent_order, Steps, LARGEST};
    pub use crate::words::{column, put_word, word_bits};
    pub use crate::writer::{plan, Plan};
}
