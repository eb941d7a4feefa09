//! What the maps show, column by column.

use super::plan::Plan;
use super::{shades, Data, Recording, Seen, BANDS};

/// A step of each band, or no data in any frame of the column.
pub type Column = Option<[usize; BANDS]>;

/// Loudness: of the frames that share a column the loudest, band by band.
pub fn loudness(recording: &Recording, plan: &Plan) -> Vec<Column> {
    let loudest = shades::LOUDNESS.steps - 1;
    highest(recording, plan, |data, band| {
        loudest.saturating_sub(data.norms[band].into())
    })
}

/// Rates: of the frames that share a column the highest, band by band.
pub fn rates(recording: &Recording, plan: &Plan) -> Vec<Column> {
    highest(recording, plan, |data, band| data.rates[band].into())
}

fn highest(recording: &Recording, plan: &Plan, step: impl Fn(&Data, usize) -> usize) -> Vec<Column> {
    let highest_of = |frames: &[Seen]| {
        let data = frames.iter().filter_map(|frame| frame.data.as_ref());
        let steps = data.map(|data| std::array::from_fn(|band| step(data, band)));
        steps.reduce(|one: [usize; BANDS], other| std::array::from_fn(|band| one[band].max(other[band])))
    };
    recording.frames.chunks(plan.shared).map(highest_of).collect()
}

/// A path for each step: its cells, neighbours of a row in one stroke, in columns and rows from the top.
pub fn paths(columns: &[Column], steps: usize) -> Vec<String> {
    let mut paths = vec![String::new(); steps];
    for row in 0..BANDS {
        let steps_of_row = columns
            .iter()
            .map(|column| column.map(|steps| steps[BANDS - 1 - row]));
        for (first, count, step) in runs(steps_of_row) {
            paths[step.min(steps - 1)] += &format!("M{first} {row}h{count}v1h-{count}z");
        }
    }
    paths
}

/// Runs of equal values: where each begins, how long it is, its value; gaps are left out.
pub fn runs(values: impl Iterator<Item = Option<usize>>) -> Vec<(usize, usize, usize)> {
    let mut runs: Vec<(usize, usize, usize)> = Vec::new();
    for (at, value) in values.enumerate() {
        let Some(value) = value else { continue };
        match runs.last_mut() {
            Some((first, count, last)) if *first + *count == at && *last == value => *count += 1,
            _ => runs.push((at, 1, value)),
        }
    }
    runs
}
