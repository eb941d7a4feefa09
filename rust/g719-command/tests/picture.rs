//! The picture of a recording is XML, and its marks and labels say what the check answers.

mod runs;
mod xml;

use g719::raw::reply;
use g719::{frames, Refusal, Stop};
use runs::{frame, recording, report, Folder, Run};
use std::fs;
use xml::{parse, Element};

/// Draws a recording, as the command does; gives the picture.
fn drawn(folder: &Folder, name: &str, bytes: &[u8], status: i32) -> Element {
    folder.write(name, bytes);
    let run = folder.run(&["picture", name, "-o", "out.svg"]);
    assert_eq!(run, Run::of(status, "", ""), "{name}");
    let text = String::from_utf8(folder.read("out.svg")).expect("text");
    parse(&text).unwrap_or_else(|why| panic!("{name}: {why}"))
}

/// The elements of a class.
fn of_class<'a>(picture: &'a Element, class: &str) -> Vec<&'a Element> {
    let has = |element: &&Element| {
        let classes = element.attribute("class").unwrap_or_default();
        classes.split(' ').any(|one| one == class)
    };
    picture.all().into_iter().filter(has).collect()
}

fn by_id<'a>(picture: &'a Element, id: &str) -> &'a Element {
    let all = picture.all();
    let mut found = all
        .into_iter()
        .filter(|element| element.attribute("id") == Some(id));
    let one = found.next().unwrap_or_else(|| panic!("no {id}"));
    assert!(found.next().is_none(), "{id} stands twice");
    one
}

/// The numbers of a mark: frame, reply, place.
fn numbers(mark: &Element) -> [usize; 3] {
    ["data-frame", "data-reply", "data-place"].map(|name| mark.attribute(name).unwrap().parse().unwrap())
}

/// What the marks must say, frame by frame, and where the recording stops.
fn expected(bytes: &[u8]) -> (Vec<[usize; 3]>, Option<Stop>) {
    let (mut marks, mut end) = (Vec::new(), None);
    for stored in frames(bytes) {
        match stored {
            Ok(stored) => {
                let reply = stored.frame.map_or(reply::NO_DATA, |_| reply::DONE);
                marks.push([stored.number as usize, reply.into(), stored.place]);
            }
            Err(stop) => end = Some(stop),
        }
    }
    // the walk's end is the check's answer
    let count = marks.len() as u32;
    assert_eq!(g719::check(bytes, count).err(), end);
    if let Some(stop) = end.filter(|stop| stop.refusal != Refusal::TooMany) {
        marks.push([stop.count as usize, stop.refusal.number().into(), stop.place]);
    }
    (marks, end)
}

#[test]
fn marks_and_labels_are_the_checks() {
    let folder = Folder::new("picture");
    let sound = recording(40);
    let recordings: [(&str, &[u8]); 9] = [
        ("report", &report()),
        ("sound", &sound),
        ("cut", &sound[..sound.len() - 7]),
        ("one", &frame(0, 0)),
        ("none", b""),
        ("marked", &[0x80, 0]),
        ("empty", &[0; 17]),
        ("most", &frame(1, 1).repeat(3000)),
        ("over", &[0; 3001]),
    ];
    for (name, bytes) in recordings {
        let (marks, end) = expected(bytes);
        let picture = drawn(&folder, name, bytes, end.is_some().into());
        let told: Vec<[usize; 3]> = of_class(&picture, "frame").into_iter().map(numbers).collect();
        assert_eq!(told, marks, "{name}");
        assert_eq!(by_id(&picture, "name").text, name);
        let after: Vec<Option<&str>> = of_class(&picture, "after")
            .iter()
            .map(|mark| mark.attribute("data-place"))
            .collect();
        let torn = !of_class(&picture, "torn").is_empty();
        let Some(stop) = end else {
            assert!(!torn && after.is_empty(), "{name}");
            continue;
        };
        // behind 3,000 frames nothing is torn: something is left, unread
        let left = stop.refusal == Refusal::TooMany;
        let place = stop.place.to_string();
        assert_eq!(torn, !left, "{name}");
        assert_eq!(
            after,
            if left { vec![Some(place.as_str())] } else { vec![] },
            "{name}"
        );
        let said = &by_id(&picture, "verdict").text;
        let (words, number) = (stop.refusal.text(), stop.refusal.number());
        assert!(
            said.contains(words) && said.contains(&format!("reply {number}")),
            "{name}: {said}"
        );
        let label = &by_id(&picture, "end").text;
        assert!(
            label.ends_with(&format!("byte {}", stop.place)),
            "{name}: {label}"
        );
    }
}

/// Every part has a title and a description, text is text, and nothing runs or is fetched.
#[test]
fn parts_are_told_and_nothing_runs() {
    let folder = Folder::new("picture_parts");
    let picture = drawn(&folder, "report", &report(), 1);
    assert_eq!(picture.name, "svg");
    let parts: Vec<&Element> = picture.children.iter().filter(|part| part.name == "g").collect();
    let ids: Vec<&str> = parts.iter().filter_map(|part| part.attribute("id")).collect();
    assert_eq!(ids, ["header", "frames", "sizes", "loudness", "rates", "bits"]);
    for part in parts.into_iter().chain([&picture]) {
        for name in ["title", "desc"] {
            let told = part
                .children
                .iter()
                .filter(|child| child.name == name && !child.text.trim().is_empty());
            assert_eq!(told.count(), 1, "{name} of {:?}", part.attribute("id"));
        }
    }
    let known = [
        "svg", "g", "title", "desc", "defs", "pattern", "rect", "path", "text", "tspan",
    ];
    for element in picture.all() {
        assert!(known.contains(&element.name.as_str()), "{}", element.name);
        for (name, value) in &element.attributes {
            let foreign = name.starts_with("on") || name.contains("href") || value.contains("://");
            assert!(!foreign || name == "xmlns", "{name}={value}");
        }
    }
}

/// A name may be anything that a file can be called.
#[test]
fn names_are_escaped() {
    let folder = Folder::new("picture_names");
    for name in ["a<b>&\"c\".g719", "tab\there", "boot ünwetter.g719"] {
        let picture = drawn(&folder, name, &[0], 0);
        assert_eq!(by_id(&picture, "name").text, name.replace('\t', "\\t"));
    }
}

/// The pictures of docs/ are what the command draws.
#[test]
fn the_pictures_of_the_documents() {
    let folder = Folder::new("picture_documents");
    let docs = concat!(env!("CARGO_MANIFEST_DIR"), "/../../docs");
    let four_seconds = fs::read(format!("{docs}/four-seconds.g719")).expect("docs/four-seconds.g719");
    for (name, bytes) in [("report", report()), ("four-seconds", four_seconds)] {
        drawn(&folder, &format!("{name}.g719"), &bytes, 1);
        let stands = fs::read(format!("{docs}/{name}.svg")).unwrap_or_default();
        let same = folder.read("out.svg") == stands;
        assert!(
            same,
            "docs/{name}.svg is another picture: draw it again by g719 picture {name}.g719"
        );
    }
}
