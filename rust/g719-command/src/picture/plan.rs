//! Where each part of a picture stands: whole pixels, so that edges are sharp.

use super::svg::{text, FAINT};
use super::{Recording, BANDS};

/// Where the time lines begin; before it stand the numbers of the other axes.
pub const LEFT: usize = 64;
/// Room that stays free at every edge.
pub const MARGIN: usize = 20;
/// Room for the marks of the time line.
pub const LINE: usize = 48;
pub const LINE_TOP: usize = 152;
/// Two fifths of a pixel a byte: every body size is a whole number of pixels.
pub const SIZES: usize = 128;
pub const SIZES_TOP: usize = 284;
/// A band in a map.
pub const BAND: usize = 5;
pub const MAP: usize = BANDS * BAND;
pub const LOUDNESS_TOP: usize = 460;
pub const RATES_TOP: usize = 728;

/// Widest time line.
const WIDEST: usize = 1000;
/// Most columns: each is at least two pixels wide.
const MOST_COLUMNS: usize = 500;
/// Widest column: a recording of few frames makes a narrow picture.
const WIDEST_COLUMN: usize = 28;
/// Room behind the last frame for the mark of what follows it.
const BEHIND: usize = 26;
/// Room for the words that stand in place of frames.
const BLANK: usize = 124;
/// Room for legends to the right.
const LEGEND: usize = 200;
/// The foot of the picture, below the lower axis.
const HEIGHT: usize = 1004;
/// A picture narrower than this has no room for its words.
const NARROWEST: usize = 800;

pub struct Plan {
    pub frames: usize,
    /// Frames that share a column.
    pub shared: usize,
    /// Pixels of a column.
    pub column: usize,
    /// Where the last frame ends.
    pub edge: usize,
    /// Where legends begin.
    pub legend: usize,
    pub width: usize,
    pub height: usize,
}

impl Plan {
    pub fn of(recording: &Recording) -> Plan {
        let frames = recording.frames.len();
        let shared = frames.div_ceil(MOST_COLUMNS).max(1);
        let columns = frames.div_ceil(shared);
        let column = (WIDEST / columns.max(1)).min(WIDEST_COLUMN);
        let edge = LEFT + columns * column;
        let behind = if recording.end.reply == 0 { 0 } else { BEHIND };
        let blank = if frames == 0 { BLANK } else { 0 };
        let legend = edge + behind + blank + 28;
        let width = (legend + LEGEND + MARGIN).max(NARROWEST);
        Plan {
            frames,
            shared,
            column,
            edge,
            legend,
            width,
            height: HEIGHT,
        }
    }

    /// Where a frame begins in time.
    pub fn at(&self, frame: usize) -> usize {
        LEFT + frame * self.column / self.shared
    }

    /// What a part says in place of its frames, if there are none.
    pub fn nothing(&self, y: usize) -> String {
        if self.frames > 0 {
            return String::new();
        }
        text(LEFT + BEHIND + 8, y + 4, FAINT, "no sound frame")
    }

    /// What a reader must know where frames share a column.
    pub fn sharing(&self, says: &str) -> String {
        match self.shared {
            1 => String::new(),
            shared => format!(" A column stands for {shared} frames: {says}."),
        }
    }
}
