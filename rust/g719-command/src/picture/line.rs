//! The time line: a mark for each frame by its reply.

use super::marks::{Cell, DATA, EMPTY};
use super::plan::{Plan, LEFT, LINE, LINE_TOP};
use super::svg::{heading, part, path, rect, text, titled_path, PANEL, SMALL};
use super::{axes, ending, words, Recording, Seen};

/// From line to line of the legend.
const PITCH: usize = 20;
/// How the marks are read.
const MARKS: &str = "Time runs to the right, 20 ms a frame. A bar is a frame with data (reply 0), with a \
    slit if it is transient; a small square is an empty frame (reply 14); a cross behind a torn edge is a \
    refused frame; two arrow heads are bytes behind the last frame that may be (reply 15).";

pub fn draw(recording: &Recording, plan: &Plan) -> String {
    let numbered = recording.frames.iter().enumerate();
    let marks: String = numbered
        .map(|(number, frame)| mark(plan, number, frame))
        .collect();
    let says = match plan.shared {
        1 => "a mark for each, by its reply".into(),
        shared => format!("a mark for each, by its reply; {shared} in a column, downwards"),
    };
    let inner = [
        heading(LEFT, LINE_TOP - 30, "Frames", &says),
        rect(LEFT, LINE_TOP, (plan.edge - LEFT, LINE), PANEL),
        plan.nothing(LINE_TOP + LINE / 2),
        format!("<g shape-rendering=\"crispEdges\">\n{marks}</g>\n"),
        axes::time(plan, LINE_TOP + LINE),
        ending::draw(recording, plan),
        legend(recording, plan),
    ];
    let sharing = plan.sharing("they stand one below the other in it");
    let description = format!("{MARKS}{sharing} {}", words::description(recording));
    part(
        "frames",
        "The frames over time, by reply",
        &description,
        &inner.concat(),
    )
}

/// A frame's mark. Its numbers stand with it, for whoever reads the file or points at the mark.
fn mark(plan: &Plan, number: usize, frame: &Seen) -> String {
    let height = (LINE / plan.shared).max(2);
    let (column, row) = (number / plan.shared, number % plan.shared);
    let (x, y) = (LEFT + column * plan.column, LINE_TOP + row * height);
    let cell = Cell {
        x,
        y,
        width: plan.column,
        height,
    };
    let (class, reply, fill, shape) = match &frame.data {
        None => ("empty", 14, EMPTY, cell.square()),
        Some(data) if data.transient => ("data transient", 0, DATA, cell.slit()),
        Some(_) => ("data", 0, DATA, cell.bar()),
    };
    let (place, body) = (frame.place, frame.body());
    let named = format!(r#"class="frame {class}" data-frame="{number}" data-reply="{reply}""#);
    let found = format!(r#"data-place="{place}" data-body="{body}""#);
    let drawn = format!(r#"fill="{fill}" d="{shape}""#);
    titled_path(&format!("{named} {found} {drawn}"), &words::frame(number, frame))
}

fn legend(recording: &Recording, plan: &Plan) -> String {
    let cell = |line| Cell {
        x: plan.legend + 4,
        y: LINE_TOP + line * PITCH,
        width: 8,
        height: 16,
    };
    let solid = |shape: String, fill: &str| path(&format!(r#"fill="{fill}" d="{shape}""#));
    let says = |line, words: &str| text(plan.legend + 24, cell(line).y + 12, SMALL, words);
    let mut legend = solid(cell(0).bar(), DATA) + &says(0, "data (reply 0)");
    legend += &(solid(cell(1).slit(), DATA) + &says(1, "data, transient"));
    legend += &(solid(cell(2).square(), EMPTY) + &says(2, "empty (reply 14)"));
    if recording.end.reply != 0 {
        let last = Cell {
            x: plan.legend + 1,
            ..cell(3)
        };
        let what = words::ending(recording);
        legend += &path(&ending::pen(recording, last));
        legend += &says(3, &format!("{what} (reply {})", recording.end.reply));
    }
    legend
}
