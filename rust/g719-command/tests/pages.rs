//! What `g719 list` and `g719 show` print.

mod runs;

use g719::{Frame, Mode, BANDS, FRAME_BYTES};
use runs::{frame, output, recording, report, Folder, Run};
use std::fs::File;
use std::path::Path;
use std::process::Command;

/// What the proved lister prints of a file: target/bin/lister, which `tools/build lister` builds.
fn listed(file: &Path) -> String {
    let top = Path::new(env!("CARGO_MANIFEST_DIR")).join("../..");
    let lister = top.join("target/bin/lister");
    assert!(
        lister.is_file(),
        "target/bin/lister is missing: run tools/build lister"
    );
    let mut command = Command::new(top.join("tests/start"));
    command.arg(lister).stdin(File::open(file).unwrap());
    let output = output(&mut command).unwrap();
    assert!(output.status.success() && output.stderr.is_empty(), "{output:?}");
    String::from_utf8(output.stdout).unwrap()
}

#[test]
fn list_prints_what_the_lister_prints() {
    let folder = Folder::new("list");
    let sound = recording(200);
    // 65,536 bytes are taken and one more is not
    let mut full = frame(0, 1).repeat(809);
    full.resize(65_536, 0);
    let most = vec![0; 3000];
    let files: [(&[u8], i32); 12] = [
        (&report(), 1),
        (&report()[..173], 0),
        (b"", 0),
        (&[0, 0], 0),
        (&[0, 0x20], 1),
        (&[0x80], 1),
        (&[0x04, 0, 0], 1),
        (&sound, 0),
        (&sound[..sound.len() - 1], 1),
        (&most, 0),
        (&[most.as_slice(), &[0x80]].concat(), 1),
        (&full, 0),
    ];
    for (number, (bytes, status)) in files.into_iter().enumerate() {
        let name = number.to_string();
        folder.write(&name, bytes);
        let text = listed(&folder.path(&name));
        assert!(text.lines().last().unwrap().starts_with("total "));
        assert_eq!(
            folder.run(&["list", &name]),
            Run::of(status, &text, ""),
            "file {number}"
        );
        assert_eq!(
            folder.run_on(bytes, &["list", "-"]),
            Run::of(status, &text, ""),
            "file {number}"
        );
    }
    full.push(0);
    folder.write("over", &full);
    assert_eq!(listed(&folder.path("over")), "input too long\n");
    assert_eq!(folder.run(&["list", "over"]), Run::of(2, "input too long\n", ""));
}

/// 01's starred example: stationary, 80 bytes, all indices 20, FlagN 0, FlagL 1.
#[test]
fn show_of_the_starred_frame() {
    let folder = Folder::new("show");
    let mut frame = Frame::new(Mode::new(0).unwrap(), false, &[20; BANDS]).unwrap();
    frame.record.flag_n = false;
    frame.record.tail_bits = frame.layout().unwrap().tail_bits;
    let mut bytes = [0; FRAME_BYTES];
    let size = frame.write(&mut bytes).unwrap();
    folder.write("frames", &[&[0], &bytes[..size]].concat());

    let run = folder.run(&["show", "frames", "--frame", "1"]);
    let mut page = String::from(
        "frames: frame 1 at byte 1, 0.02 s from the start, 81 bytes\n\
         mode        0  80 body bytes\n\
         IsTransient 0  a stationary frame\n\
         FlagL       1  bands 36 to 43 compete\n\
         FlagN       0  norm differences are fixed codes\n\
         FlagC       0  codes are fixed\n\
         noise       0\n\n\
         bits 640: flags 4, norms 220, codes 408, noise 2, tail 6; budget 414\n\n\
         band  norm  loudness  score in 1/16  rate  coefficients  bits granted\n",
    );
    for band in 0..BANDS {
        let length = match band {
            0..16 => 8,
            16..24 => 16,
            24..36 => 24,
            _ => 32,
        };
        let rate = match band {
            0 => 2,
            1..30 => 1,
            _ => 0,
        };
        page += &format!(
            "{band:4}    20        14            224  {rate:4}  {length:12}  {:12}\n",
            rate * length
        );
    }
    page += &format!("all {:66}\n", 408);
    assert_eq!(run, Run::of(0, &page, ""));

    let run = folder.run(&["show", "frames"]);
    let page = "frames: frame 0 at byte 0, 0.00 s from the start, 1 byte\nan empty frame: it says that it has no data\n";
    assert_eq!(run, Run::of(0, page, ""));
    let run = folder.run(&["show", "frames", "--frame", "2"]);
    assert_eq!(
        run,
        Run::of(2, "", "g719: frames: no frame 2: it has 2 sound frames\n")
    );
}

/// The sound frames of a report that is cut are shown, and the status tells of the cut.
#[test]
fn show_of_a_cut_report() {
    let folder = Folder::new("show_cut");
    folder.write("report", &report());
    for number in ["0", "1", "2"] {
        let run = folder.run(&["show", "report", "--frame", number]);
        assert_eq!((run.status, run.said.as_str()), (1, ""), "{number}");
        assert!(run
            .printed
            .starts_with(&format!("report: frame {number} at byte ")));
    }
    let run = folder.run(&["show", "report", "--frame", "3"]);
    let said = "g719: report: no frame 3: it has 3 sound frames; at byte 173: cut: the bytes end before the frame does\n";
    assert_eq!(run, Run::of(2, "", said));
}

/// The parts of a body add up. Codes are fixed in these frames, so what the bands were granted is what the codes took.
#[test]
fn show_adds_up() {
    let folder = Folder::new("show_sums");
    folder.write("recording", &recording(40));
    for number in [0, 4, 9, 18, 19, 34, 39] {
        let run = folder.run(&["show", "recording", "--frame", &number.to_string()]);
        assert_eq!(run.status, 0);
        let bits = run
            .printed
            .lines()
            .find(|line| line.starts_with("bits "))
            .unwrap();
        let numbers: Vec<u32> = bits
            .split(|character: char| !character.is_ascii_digit())
            .filter_map(|word| word.parse().ok())
            .collect();
        let [body, flags, norms, codes, noise, tail, budget] = numbers[..] else {
            panic!("{bits}");
        };
        assert_eq!(body, flags + norms + noise + budget, "{bits}");
        assert_eq!(budget, codes + tail, "{bits}");
        let granted: u32 = run.printed.lines().last().unwrap()[4..].trim().parse().unwrap();
        assert_eq!(granted, codes, "{bits}");
    }
}
