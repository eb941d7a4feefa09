//! Where the bits went: what each band was granted over the whole recording.

use super::axes::row;
use super::plan::{Plan, MAP, RATES_TOP};
use super::svg::{part, rules, text, titled_path, FAINT, INK, SMALL, SMALL_MIDDLE};
use super::text::grouped;
use super::{Recording, BANDS};
use g719::band_places;

/// Pixels of the longest bar.
const LONGEST: usize = 110;
const FILL: &str = "#7a3b2c";

/// The bits that a band was granted: its rate for each of its coefficients, frame by frame.
fn granted(recording: &Recording, band: usize) -> usize {
    let data = recording.frames.iter().filter_map(|frame| frame.data.as_ref());
    data.map(|data| usize::from(data.rates[band]) * band_places(band).len())
        .sum()
}

pub fn draw(recording: &Recording, plan: &Plan) -> String {
    let bits: [usize; BANDS] = std::array::from_fn(|band| granted(recording, band));
    let (most, all) = (bits.into_iter().max().unwrap_or(0), bits.iter().sum::<usize>());
    let bars: String = (0..BANDS)
        .map(|band| bar(plan.legend, band, bits[band], most))
        .collect();
    let description = format!(
        "A bar for each band, beside its row: the bits granted to it in all frames, its rate times its \
         coefficients. The longest stands for {most} bits; all together are {all}."
    );
    part(
        "bits",
        "Where the bits went, band by band",
        &description,
        &(bars + &axis(plan.legend, most)),
    )
}

fn bar(x: usize, band: usize, bits: usize, most: usize) -> String {
    let (y, wide) = (RATES_TOP + row(band), (bits * LONGEST).div_ceil(most.max(1)));
    let numbers = format!(r#"class="bits" data-band="{band}" data-bits="{bits}""#);
    let shape = format!(r#"fill="{FILL}" shape-rendering="crispEdges" d="M{x} {y}h{wide}v4h-{wide}z""#);
    titled_path(
        &format!("{numbers} {shape}"),
        &format!("band {band}: {bits} bits"),
    )
}

fn axis(x: usize, most: usize) -> String {
    let foot = RATES_TOP + MAP;
    let mut axis = rules(&format!("M{x} {RATES_TOP}V{foot}"), INK);
    axis += &text(x, foot + 18, SMALL, "0");
    axis += &text(x, foot + 32, FAINT, "bits granted to each band");
    if most > 0 {
        axis += &text(x + LONGEST, foot + 18, SMALL_MIDDLE, &grouped(most));
    }
    axis
}
