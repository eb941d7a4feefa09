//! The marks and labels of a picture say what the recording says.

use super::xml::{parse, Element};
use super::{draw, Data, End, Recording, Seen, BANDS};

/// Frames of three kinds in turn: with data, transient, empty; norms and rates as given.
fn recording(count: usize, reply: u8, step: impl Fn(usize, usize) -> usize) -> Recording {
    let (mut place, mut frames) = (0, Vec::new());
    for number in 0..count {
        let of_band = |most: usize| std::array::from_fn(|band| (step(number, band) % most) as u8);
        let data = Data {
            transient: number % 3 == 1,
            norms: of_band(40),
            rates: of_band(10),
        };
        let (data, size) = if number % 3 == 2 {
            (None, 1)
        } else {
            (Some(data), 81 + 10 * (number % 15))
        };
        frames.push(Seen { place, size, data });
        place += size;
    }
    let end = End {
        reply,
        place,
        words: format!("words of reply {reply}"),
    };
    Recording {
        name: "report".into(),
        length: place + 9,
        frames,
        end,
    }
}

fn even(_: usize, band: usize) -> usize {
    band
}

/// No two neighbours are alike: nothing can be drawn in one stroke.
fn uneven(number: usize, band: usize) -> usize {
    number / 6 * 7 + band * 3
}

fn of_class<'a>(root: &'a Element, class: &str) -> Vec<&'a Element> {
    let has = |element: &&Element| {
        element
            .attribute("class")
            .is_some_and(|is| is.split(' ').any(|one| one == class))
    };
    root.all().into_iter().filter(has).collect()
}

fn number(element: &Element, name: &str) -> usize {
    element
        .attribute(name)
        .and_then(|value| value.parse().ok())
        .unwrap_or_else(|| panic!("no {name}"))
}

fn text_of(root: &Element, id: &str) -> Option<String> {
    root.all()
        .into_iter()
        .find(|element| element.attribute("id") == Some(id))
        .map(|found| found.text.clone())
}

#[test]
fn one_mark_a_frame_with_its_reply_place_and_bytes() {
    for count in [1, 2, 3, 199, 501, 3000] {
        let recording = recording(count, 0, even);
        let root = parse(&draw(&recording)).unwrap();
        let marks = of_class(&root, "frame");
        assert_eq!(marks.len(), count);
        for (at, (mark, frame)) in marks.into_iter().zip(&recording.frames).enumerate() {
            let reply = if frame.data.is_some() { 0 } else { 14 };
            let says = ["data-frame", "data-reply", "data-place", "data-body"].map(|name| number(mark, name));
            assert_eq!(says, [at, reply, frame.place, frame.size - 1]);
        }
        assert_eq!(of_class(&root, "transient").len(), (count + 1) / 3);
        assert!(of_class(&root, "torn").is_empty() && text_of(&root, "end").is_none());
    }
}

#[test]
fn a_refused_frame_has_a_mark_a_torn_edge_and_the_byte() {
    let causes = [
        "F is 1",
        "L reserved",
        "cut",
        "a norm outside 0–39",
        "a word that does not exist",
        "codes past the budget",
    ];
    for (reply, cause) in (2..).zip(causes) {
        for count in [0, 1, 7, 40, 600, 2999] {
            let recording = recording(count, reply, even);
            let root = parse(&draw(&recording)).unwrap();
            let place = recording.end.place;
            let refused = of_class(&root, "refused");
            let says = ["data-frame", "data-reply", "data-place"].map(|name| number(refused[0], name));
            assert_eq!((refused.len(), says), (1, [count, reply.into(), place]));
            assert_eq!(
                text_of(&root, "end"),
                Some(format!("{cause}: ask again from byte {place}"))
            );
            assert_eq!(of_class(&root, "torn").len(), 4);
        }
    }
}

#[test]
fn the_label_stays_in_the_picture() {
    for count in (0..40).chain([199, 501, 3000]) {
        // the shortest label, the longest, and the one of another kind
        for reply in [4, 6, 15] {
            let root = parse(&draw(&recording(count, reply, even))).unwrap();
            let all = root.all();
            let label = all
                .iter()
                .find(|element| element.attribute("id") == Some("end"))
                .unwrap();
            let (x, wide) = (number(label, "x"), super::text::width(&label.text, 13));
            let (from, to) = match label.attribute("text-anchor") {
                Some("end") => (x.checked_sub(wide), x),
                _ => (Some(x), x + wide),
            };
            assert!(
                from.is_some() && to <= number(&root, "width"),
                "{count} frames, reply {reply}"
            );
        }
    }
}

#[test]
fn bytes_behind_the_last_frame_that_may_be_are_no_frame() {
    let recording = recording(3000, 15, even);
    let root = parse(&draw(&recording)).unwrap();
    let after = of_class(&root, "after");
    assert_eq!(
        (after.len(), number(after[0], "data-place")),
        (1, recording.end.place)
    );
    assert_eq!(of_class(&root, "frame").len(), 3000);
    let label = format!("3,000 frames; bytes follow at byte {}", recording.end.place);
    assert_eq!(text_of(&root, "end"), Some(label));
}

#[test]
fn no_frame_is_a_picture_too() {
    let root = parse(&draw(&recording(0, 0, even))).unwrap();
    assert!(of_class(&root, "frame").is_empty());
    assert_eq!(
        root.all()
            .iter()
            .filter(|element| element.text == "no sound frame")
            .count(),
        4
    );
}

#[test]
fn every_part_has_a_title_and_a_description() {
    let root = parse(&draw(&recording(100, 4, even))).unwrap();
    let parts: Vec<&Element> = root
        .all()
        .into_iter()
        .filter(|part| part.attribute("role").is_some())
        .collect();
    let ids: Vec<_> = parts.iter().filter_map(|part| part.attribute("id")).collect();
    assert_eq!(ids, ["header", "frames", "sizes", "loudness", "rates", "bits"]);
    for part in parts {
        let first = [&part.children[0], &part.children[1]];
        assert_eq!(first.map(|child| child.name.as_str()), ["title", "desc"]);
        assert!(first.iter().all(|child| !child.text.is_empty()));
    }
}

#[test]
fn every_id_stands_once_and_every_name_leads_to_one() {
    let root = parse(&draw(&recording(100, 4, even))).unwrap();
    let ids: Vec<&str> = root
        .all()
        .into_iter()
        .filter_map(|element| element.attribute("id"))
        .collect();
    assert!(
        ids.iter()
            .all(|id| ids.iter().filter(|other| other == &id).count() == 1),
        "{ids:?}"
    );
    let named = root
        .all()
        .into_iter()
        .filter_map(|element| element.attribute("aria-labelledby"));
    assert!(named
        .flat_map(|names| names.split(' '))
        .all(|name| ids.contains(&name)));
}

#[test]
fn the_whole_is_described_by_name_frames_seconds_verdict_and_byte() {
    let root = parse(&draw(&recording(3, 4, even))).unwrap();
    assert_eq!(root.children[0].text, "The recording report");
    let description =
        "words of reply 4 (reply 4 at byte 173). 3 sound frames, 0.06 s: 2 with data (1 transient), \
                       1 empty. 182 bytes read. At its end: cut: ask again from byte 173.";
    assert_eq!(root.children[1].text, description);
}

#[test]
fn a_name_is_escaped_and_cut() {
    let mut recording = recording(3, 4, even);
    recording.name = "<a & 'b' \"c\">\u{0}\n\u{202e}\u{ffff}".into();
    recording.end.words = "]]></svg>".into();
    let root = parse(&draw(&recording)).unwrap();
    assert_eq!(
        text_of(&root, "name").unwrap(),
        "<a & 'b' \"c\">\u{fffd}\u{fffd}\u{fffd}\u{fffd}"
    );
    assert_eq!(
        text_of(&root, "verdict").unwrap(),
        "]]></svg> (reply 4 at byte 173)"
    );
    recording.name = "W".repeat(5000) + "end";
    recording.end.words = "long ".repeat(1000);
    let root = parse(&draw(&recording)).unwrap();
    let name = text_of(&root, "name").unwrap();
    assert!(
        name.chars().count() < 50 && name.contains('…') && name.ends_with("end"),
        "{name}"
    );
    let verdict = text_of(&root, "verdict").unwrap();
    assert!(
        verdict.len() < 200 && verdict.ends_with(" (reply 4 at byte 173)"),
        "{verdict}"
    );
}

#[test]
fn the_maps_and_the_bits_are_those_of_the_frames() {
    let recording = recording(2, 0, |number, band| 5 * number + band);
    let root = parse(&draw(&recording)).unwrap();
    let part = |id| {
        root.children
            .iter()
            .find(|part| part.attribute("id") == Some(id))
            .unwrap()
    };
    // Band 43 stands in row 0: norm index 3 in frame 0 and 8 in frame 1, so steps 36 and 31.
    let path = |id, step: &str| {
        let steps = of_class(part(id), "step");
        let found = steps
            .into_iter()
            .find(|path| path.attribute("data-step") == Some(step));
        found
            .and_then(|path| path.attribute("d"))
            .unwrap_or_default()
            .to_string()
    };
    assert!(
        path("loudness", "36").starts_with("M0 0h1v1h-1z"),
        "{}",
        path("loudness", "36")
    );
    assert!(
        path("loudness", "31").contains("M1 0h1v1h-1z"),
        "{}",
        path("loudness", "31")
    );
    assert!(path("rates", "3").contains("M0 0h1v1h-1z") && path("rates", "8").contains("M1 0h1v1h-1z"));
    let bits: Vec<usize> = of_class(&root, "bits")
        .into_iter()
        .map(|bar| number(bar, "data-bits"))
        .collect();
    assert_eq!((bits.len(), bits[0], bits[43]), (BANDS, 5 * 8, (3 + 8) * 32));
}

#[test]
fn a_minute_is_not_too_large_and_always_the_same() {
    let recording = recording(3000, 15, uneven);
    let picture = draw(&recording);
    assert!(picture.len() < 1_500_000, "{}", picture.len());
    assert_eq!(picture, draw(&recording));
    assert!(
        !picture.contains("<script") && !picture.contains("href") && picture.matches("http").count() == 1
    );
}
