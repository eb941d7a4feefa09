//! A recording as a picture: what its frames are, how long, how loud, and where their bits went.

mod axes;
mod columns;
mod ending;
mod header;
mod legends;
mod line;
mod map;
mod marks;
mod plan;
mod shades;
mod shares;
mod sizes;
mod svg;
mod text;
mod words;

#[cfg(test)]
mod tests;
#[cfg(test)]
#[path = "../tests/xml/mod.rs"]
mod xml;

use plan::Plan;

/// Bands of a frame.
const BANDS: usize = 44;

/// A recording, frame by frame, and how its check ends: what a picture shows.
pub struct Recording {
    pub name: String,
    /// Bytes that were read: all, or as many as tell that bytes follow the last frame that may be.
    pub length: usize,
    pub frames: Vec<Seen>,
    pub end: End,
}

/// A sound frame: its place and stored bytes, prefix byte too; none of data: an empty frame (reply 14).
pub struct Seen {
    pub place: usize,
    pub size: usize,
    pub data: Option<Data>,
}

impl Seen {
    /// Bytes behind the prefix byte.
    fn body(&self) -> usize {
        self.size.saturating_sub(1)
    }
}

/// What a frame with data says of its 44 bands.
pub struct Data {
    pub transient: bool,
    pub norms: [u8; BANDS],
    pub rates: [u8; BANDS],
}

/// The check's last word: reply 0 for a recording that ends behind a sound frame, else why and where it
/// stops.
pub struct End {
    pub reply: u8,
    pub place: usize,
    pub words: String,
}

/// The picture as SVG.
pub fn draw(recording: &Recording) -> String {
    let plan = Plan::of(recording);
    let parts = [
        header::draw(recording, &plan),
        line::draw(recording, &plan),
        sizes::draw(recording, &plan),
        map::loudness(recording, &plan),
        map::rates(recording, &plan),
        shares::draw(recording, &plan),
    ];
    svg::whole(
        &plan,
        &words::title(recording),
        &words::description(recording),
        &parts.concat(),
    )
}
