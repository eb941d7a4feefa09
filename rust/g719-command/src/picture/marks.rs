//! The shapes of the marks: each differs from the others by its form, not by its colour alone.

pub const DATA: &str = "#27496d";
pub const EMPTY: &str = "#7d7d7d";
pub const REFUSED: &str = "#a3122a";

/// The room of a mark.
#[derive(Clone, Copy)]
pub struct Cell {
    pub x: usize,
    pub y: usize,
    pub width: usize,
    pub height: usize,
}

impl Cell {
    /// A frame with data: a bar.
    pub fn bar(self) -> String {
        self.block(0, self.foot())
    }

    /// A transient frame: a bar with a slit.
    pub fn slit(self) -> String {
        let above = self.height / 4;
        let below = above + (self.height / 10).max(2);
        self.block(0, above) + &self.block(below.min(self.foot()), self.foot())
    }

    /// An empty frame: a small square halfway up.
    pub fn square(self) -> String {
        let side = self.across().min(6).min(self.height / 3).max(1);
        let (x, y) = (
            self.x + (self.across() - side) / 2,
            self.y + (self.foot() - side) / 2,
        );
        format!("M{x} {y}h{side}v{side}h-{side}z")
    }

    /// A refused frame: a cross.
    pub fn cross(self) -> String {
        format!("M{} {}l12 12m0 -12l-12 12", self.x, self.y + self.height / 2 - 6)
    }

    /// Bytes too many: two arrow heads to the right.
    pub fn arrows(self) -> String {
        format!(
            "M{} {}l6 6l-6 6m7 -12l6 6l-6 6",
            self.x,
            self.y + self.height / 2 - 6
        )
    }

    fn block(self, from: usize, to: usize) -> String {
        let wide = self.across();
        format!("M{} {}h{wide}v{}h-{wide}z", self.x, self.y + from, to - from)
    }

    /// Pixels that a mark fills across: where there is room, marks stand apart.
    fn across(self) -> usize {
        self.width - self.width / 5
    }

    /// Where a bar ends, so that rows of bars stand apart.
    fn foot(self) -> usize {
        self.height - (self.height / 12).max(1)
    }
}
