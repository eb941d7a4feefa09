//! The 44 bands over time: how loud each is, and what rate it was given.

use super::columns::{self, Column};
use super::ending::torn_edge;
use super::plan::{Plan, LEFT, LOUDNESS_TOP, MAP, RATES_TOP};
use super::shades::{Ramp, LOUDNESS, RATES};
use super::svg::{heading, part, path, rect, rules, RULE, STRIPES};
use super::{axes, legends, plan, Recording};

/// How the rows are read; the description says it of each map.
const ROWS: &str =
    "A row for each of the 44 bands, all of one height, with band 0, the lowest, at the foot. \
    Bands 0 to 15 have 8 coefficients, 16 to 23 have 16, 24 to 35 have 24, 36 to 43 have 32. \
    Stripes: no data.";

pub fn loudness(recording: &Recording, plan: &Plan) -> String {
    let top = LOUDNESS_TOP;
    let inner = [
        heading(
            LEFT,
            top - 14,
            "Loudness of the 44 bands",
            "34 − norm index; darker is louder",
        ),
        cells(plan, top, &LOUDNESS, &columns::loudness(recording, plan)),
        torn_edge(recording, plan, top, MAP),
        legends::loudness(plan.legend, top),
    ];
    let sharing = plan.sharing("a cell shows the loudest of them");
    let description = format!("{ROWS} Loudness is 34 − norm index, −5 to 34; darker is louder.{sharing}");
    part(
        "loudness",
        "The loudness of the bands over time",
        &description,
        &inner.concat(),
    )
}

pub fn rates(recording: &Recording, plan: &Plan) -> String {
    let top = RATES_TOP;
    let inner = [
        heading(
            LEFT,
            top - 14,
            "Rates of the 44 bands",
            "bits a coefficient; darker is more",
        ),
        cells(plan, top, &RATES, &columns::rates(recording, plan)),
        axes::time(plan, top + MAP),
        torn_edge(recording, plan, top, MAP),
        legends::rates(plan.legend + 140, top),
    ];
    let sharing = plan.sharing("a cell shows the highest rate of them");
    let description = format!("{ROWS} A rate is bits a coefficient, 0 to 9; darker is more.{sharing}");
    part(
        "rates",
        "The rates of the bands over time",
        &description,
        &inner.concat(),
    )
}

/// The cells over the stripes that stand for no data, a path for each step that occurs.
fn cells(plan: &Plan, top: usize, ramp: &Ramp, columns: &[Column]) -> String {
    let mut cells = String::new();
    for (step, cells_of_step) in columns::paths(columns, ramp.steps).iter().enumerate() {
        if !cells_of_step.is_empty() {
            let shade = ramp.shade(step);
            cells += &path(&format!(
                r#"class="step" data-step="{step}" fill="{shade}" d="{cells_of_step}""#
            ));
        }
    }
    let (column, band, edge) = (plan.column, plan::BAND, plan.edge);
    let placed = format!(r#"transform="translate({LEFT} {top}) scale({column} {band})""#);
    rect(LEFT, top, (edge - LEFT, MAP), STRIPES)
        + &format!("<g {placed} shape-rendering=\"crispEdges\">\n{cells}</g>\n")
        + &plan.nothing(top + MAP / 2)
        + &rules(&format!("M{edge} {top}H{LEFT}v{MAP}H{edge}"), RULE)
        + &axes::bands(top)
}
