//! What stands behind the last frame: the torn edge and the byte to ask again from, or the bytes too many.

use super::marks::{Cell, REFUSED};
use super::plan::{Plan, LEFT, LINE, LINE_TOP, MARGIN};
use super::svg::{path, text, titled_path};
use super::text::width;
use super::{words, Recording};

/// Letters of the label.
const LABEL: usize = 13;
/// Two teeth of unequal size, so that an edge looks torn and not sawn.
const TEETH: [&str; 4] = ["l8 6", "l-5 6", "l4 6", "l-7 6"];

/// The torn edge of a part, if the check stops at a frame that it refuses.
pub fn torn_edge(recording: &Recording, plan: &Plan, top: usize, height: usize) -> String {
    if !words::torn(recording) {
        return String::new();
    }
    let teeth: String = TEETH.into_iter().cycle().take(height / 6).collect();
    let edge = format!("M{} {top}{teeth}V{}", plan.edge + 1, top + height);
    path(&format!(
        r#"class="torn" d="{edge}" fill="none" stroke="{REFUSED}" stroke-width="2""#
    ))
}

/// The end of the time line: its edge, its mark and its label.
pub fn draw(recording: &Recording, plan: &Plan) -> String {
    let Some(label) = words::label(recording) else {
        return String::new();
    };
    let cell = Cell {
        x: plan.edge + 12,
        y: LINE_TOP,
        width: 12,
        height: LINE,
    };
    let mark = format!("{} {}", numbers(recording), pen(recording, cell));
    torn_edge(recording, plan, LINE_TOP, LINE) + &titled_path(&mark, &label) + &label_text(plan, &label)
}

/// The mark by what it stands for, drawn with a pen: a refused frame, or bytes too many.
pub fn pen(recording: &Recording, cell: Cell) -> String {
    let shape = if words::torn(recording) {
        cell.cross()
    } else {
        cell.arrows()
    };
    format!(r#"fill="none" stroke="{REFUSED}" stroke-width="3" d="{shape}""#)
}

/// What a test reads: only a refused frame is a frame and has a number.
fn numbers(recording: &Recording) -> String {
    let (reply, place) = (recording.end.reply, recording.end.place);
    let class = if words::torn(recording) {
        format!(r#"class="frame refused" data-frame="{}""#, recording.frames.len())
    } else {
        r#"class="after""#.into()
    };
    format!(r#"{class} data-reply="{reply}" data-place="{place}""#)
}

/// The label ends over its mark. Where the left has no room for it, it begins there, or as far right as it
/// fits.
fn label_text(plan: &Plan, label: &str) -> String {
    let (wide, mark) = (width(label, LABEL), plan.edge + 26);
    let (x, anchor) = if LEFT + wide <= mark {
        (mark, "end")
    } else {
        (plan.edge.min((plan.width - MARGIN).saturating_sub(wide)), "start")
    };
    let bold = format!(r#"font-size="{LABEL}" font-weight="bold" fill="{REFUSED}""#);
    text(
        x,
        LINE_TOP - 9,
        &format!(r#"id="end" {bold} text-anchor="{anchor}""#),
        label,
    )
}
