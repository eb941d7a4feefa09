//! The axes: time in seconds and frames, and the numbers of the bands.

use super::plan::{Plan, BAND, LEFT};
use super::svg::{rules, text, FAINT_END, FAINT_MIDDLE, INK, SMALL_END, SMALL_MIDDLE};
use super::words::moment;
use super::BANDS;

/// Steps from tick to tick, in frames: whole parts or multiples of a second.
const STEPS: [usize; 8] = [1, 2, 5, 10, 25, 50, 100, 250];
/// The step where none of these is wide enough.
const LONG_STEP: usize = 500;
/// Pixels that a tick's numbers take.
const APART: usize = 52;
/// Bands with a number: the ends, one between, and where the length changes.
const NUMBERED: [usize; 6] = [0, 8, 16, 24, 36, 43];

/// The frames at which ticks stand: even steps, and the end.
pub fn ticks(plan: &Plan) -> Vec<usize> {
    let wide = |step: &usize| plan.at(*step) - LEFT >= APART;
    let step = STEPS.into_iter().find(wide).unwrap_or(LONG_STEP);
    let last = plan.frames;
    let clear = |frame: &usize| *frame == 0 || plan.at(last) - plan.at(*frame) >= APART;
    let mut ticks: Vec<usize> = (0..last).step_by(step).filter(clear).collect();
    ticks.push(last);
    ticks
}

/// Time below a part that ends at y.
pub fn time(plan: &Plan, y: usize) -> String {
    let (seconds, frames) = (y + 18, y + 32);
    let mut numbers = text(LEFT - 14, seconds, FAINT_END, "seconds");
    numbers += &text(LEFT - 14, frames, FAINT_END, "frame");
    let mut lines = format!("M{LEFT} {y}H{}", plan.edge);
    for frame in ticks(plan) {
        let x = plan.at(frame);
        lines += &format!("M{x} {y}v5");
        numbers += &text(x, seconds, SMALL_MIDDLE, &moment(frame));
        numbers += &text(x, frames, FAINT_MIDDLE, &frame.to_string());
    }
    rules(&lines, INK) + &numbers
}

/// Where a band's row begins below the top of its map: the lowest band stands at the foot.
pub fn row(band: usize) -> usize {
    (BANDS - 1 - band) * BAND
}

/// The numbers of the bands, left of a map.
pub fn bands(top: usize) -> String {
    let mut lines = String::new();
    let mut numbers = text(LEFT - 9, top + row(30) + 6, FAINT_END, "band");
    for band in NUMBERED {
        let y = top + row(band) + BAND / 2;
        lines += &format!("M{} {y}h5", LEFT - 6);
        numbers += &text(LEFT - 9, y + 4, SMALL_END, &band.to_string());
    }
    rules(&lines, INK) + &numbers
}
