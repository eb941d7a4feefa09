//! The body sizes over time.

use super::columns::runs;
use super::ending::torn_edge;
use super::plan::{Plan, LEFT, SIZES, SIZES_TOP};
use super::svg::{heading, part, path, rect, rules, text, FAINT_END, INK, PANEL, RULE, SMALL, SMALL_END};
use super::{axes, Recording, Seen};

const LARGEST: &str = "#a9bccf";
const SMALLEST: &str = "#4a6a8c";
/// The bytes at which a line is drawn.
const TICKS: [usize; 5] = [0, 80, 160, 240, 320];
/// The largest body.
const MOST: usize = 320;
const FOOT: usize = SIZES_TOP + SIZES;

/// How far up a body of so many bytes reaches.
fn level(bytes: usize) -> usize {
    FOOT - bytes.min(MOST) * SIZES / MOST
}

pub fn draw(recording: &Recording, plan: &Plan) -> String {
    let inner = [
        heading(LEFT, SIZES_TOP - 14, "Body sizes", "bytes behind the prefix byte"),
        rect(LEFT, SIZES_TOP, (plan.edge - LEFT, SIZES), PANEL),
        grid(plan),
        plan.nothing(SIZES_TOP + SIZES / 2),
        bars(recording, plan),
        axis(plan),
        torn_edge(recording, plan, SIZES_TOP, SIZES),
        legend(recording, plan),
    ];
    let sharing = plan.sharing("the light bar ends at the largest body, the dark one at the smallest");
    let description = format!(
        "As high as the body of a frame has bytes, 80 to 320; an empty frame has none.{sharing} Here: {}.",
        range(recording)
    );
    part("sizes", "The body sizes over time", &description, &inner.concat())
}

/// The smallest and the largest body, in words.
fn range(recording: &Recording) -> String {
    let with_data = recording.frames.iter().filter(|frame| frame.data.is_some());
    let bodies = || with_data.clone().map(Seen::body);
    match (bodies().min(), bodies().max()) {
        (Some(smallest), Some(largest)) if smallest == largest => format!("{smallest} bytes each"),
        (Some(smallest), Some(largest)) => format!("{smallest} to {largest} bytes"),
        _ => "no body".into(),
    }
}

fn bars(recording: &Recording, plan: &Plan) -> String {
    let columns = || recording.frames.chunks(plan.shared);
    let smallest = columns().map(|frames| frames.iter().map(Seen::body).min());
    let largest = columns().map(|frames| frames.iter().map(Seen::body).max());
    let behind = if plan.shared > 1 {
        steps(plan, "largest", LARGEST, largest)
    } else {
        String::new()
    };
    behind + &steps(plan, "smallest", SMALLEST, smallest)
}

/// Columns of one size in one stroke; those of size 0 have nothing to draw.
fn steps(plan: &Plan, class: &str, fill: &str, sizes: impl Iterator<Item = Option<usize>>) -> String {
    let mut steps = String::new();
    for (first, count, bytes) in runs(sizes.map(|size| size.filter(|&bytes| bytes > 0))) {
        let (x, wide) = (LEFT + first * plan.column, count * plan.column);
        steps += &format!("M{x} {FOOT}V{}h{wide}V{FOOT}z", level(bytes));
    }
    path(&format!(
        r#"class="{class}" fill="{fill}" shape-rendering="crispEdges" d="{steps}""#
    ))
}

fn grid(plan: &Plan) -> String {
    let across = TICKS
        .into_iter()
        .map(|bytes| format!("M{LEFT} {}H{}", level(bytes), plan.edge));
    let down = axes::ticks(plan)
        .into_iter()
        .map(|frame| format!("M{} {SIZES_TOP}v{SIZES}", plan.at(frame)));
    rules(&across.chain(down).collect::<String>(), RULE)
}

fn axis(plan: &Plan) -> String {
    let mut numbers = text(LEFT - 9, (level(240) + level(320)) / 2 + 4, FAINT_END, "bytes");
    let mut lines = format!("M{LEFT} {FOOT}H{}", plan.edge);
    for bytes in TICKS {
        lines += &format!("M{} {}h5", LEFT - 6, level(bytes));
        numbers += &text(LEFT - 9, level(bytes) + 4, SMALL_END, &bytes.to_string());
    }
    rules(&lines, INK) + &numbers
}

/// What is found, and where frames share a column what the two bars are.
fn legend(recording: &Recording, plan: &Plan) -> String {
    let (x, y) = (plan.legend, SIZES_TOP);
    let mut legend = text(x, y + 10, SMALL, &range(recording));
    if plan.shared > 1 {
        legend += &rect(x, y + 22, (16, 12), LARGEST);
        legend += &text(x + 24, y + 32, SMALL, "largest of a column");
        legend += &rect(x, y + 41, (16, 12), SMALLEST);
        legend += &text(x + 24, y + 51, SMALL, "smallest of a column");
    }
    legend
}
