//! The sample recording of docs/ is the one that examples/report.rs writes, and it is cut where it says.

#[allow(dead_code)]
#[path = "../examples/report.rs"]
mod report;

use g719::{check, frames, Refusal};

#[test]
fn the_sample_is_the_example() {
    let path = concat!(env!("CARGO_MANIFEST_DIR"), "/../../docs/four-seconds.g719");
    let sample = std::fs::read(path).expect("docs/four-seconds.g719");
    assert!(
        report::report() == Ok(sample.clone()),
        "docs/four-seconds.g719 is not what examples/report.rs writes"
    );

    let stop = check(&sample, 250).unwrap_err();
    assert_eq!(
        (stop.refusal, stop.count, stop.place),
        (Refusal::Cut, 204, 24_134)
    );
    let empty = frames(&sample).filter(|stored| matches!(stored, Ok(stored) if stored.frame.is_none()));
    assert_eq!(empty.count(), 22);
}
