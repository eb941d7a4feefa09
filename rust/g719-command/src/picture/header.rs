//! Above all: which recording this is and what the check says of it.

use super::plan::{Plan, LEFT, MARGIN};
use super::svg::{part, text};
use super::text::{cut, width};
use super::{words, Recording};

/// Letters of the name, and of the check's words.
const NAME: usize = 21;
const VERDICT: usize = 14;

pub fn draw(recording: &Recording, plan: &Plan) -> String {
    let room = plan.width - LEFT - MARGIN;
    let name = cut(&recording.name, NAME, room);
    let bold = |id, size| format!(r#"id="{id}" font-size="{size}" font-weight="bold""#);
    let inner = [
        text(LEFT, 42, &bold("name", NAME), &name),
        text(LEFT, 68, &bold("verdict", VERDICT), &verdict(recording, room)),
        text(
            LEFT,
            90,
            r##"id="counts" fill="#555b63""##,
            &words::counts(recording),
        ),
    ];
    part(
        "header",
        "The recording and its check",
        &words::description(recording),
        &inner.concat(),
    )
}

/// The check's words, cut if they are too long, and its numbers, which never are.
fn verdict(recording: &Recording, room: usize) -> String {
    let answer = format!(" {}", words::answer(recording));
    let room = room.saturating_sub(width(&answer, VERDICT));
    cut(&recording.end.words, VERDICT, room) + &answer
}
