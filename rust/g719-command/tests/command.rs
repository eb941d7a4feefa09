//! The command on files that are complete, cut, overlong, empty, and that cannot be read or written.

mod runs;

use runs::{command_by, frame, output, recording, report, started, Folder, Run, STARTING};
use std::fs;
use std::io::Write;
use std::os::unix::fs::{symlink, FileTypeExt, MetadataExt, PermissionsExt};
use std::os::unix::process::CommandExt;
use std::process::Stdio;
use std::sync::PoisonError;
use std::thread::sleep;
use std::time::Duration;

const CHECK_USAGE: &str = "usage: g719 check FILE... --booked N [--channels C]\n";

#[test]
fn check_says_complete_or_why_not() {
    let folder = Folder::new("check");
    let whole = recording(50);
    let inside = whole.len() - 3;
    let last = whole.len() - frame(9, 49).len();
    folder.write("whole", &whole);
    folder.write("inside", &whole[..inside]);
    folder.write("between", &whole[..last]);
    folder.write("more", &[whole.as_slice(), &[0]].concat());
    folder.write("torn", &[whole.as_slice(), &[0x20]].concat());
    folder.write("marked", &[&[0, 0x80], whole.as_slice()].concat());
    folder.write("overlong", &vec![0; 3001]);
    folder.write("empty", b"");
    let check = |name: &str, status, line: &str| {
        let run = folder.run(&["check", name, "--booked", "50"]);
        assert_eq!(run, Run::of(status, &format!("{name}: {line}\n"), ""));
    };
    check("whole", 0, "complete; 50 sound frames of 50 booked, 1.00 s");
    let again = format!("49 sound frames of 50 booked, 0.98 s; ask again from byte {last}");
    check(
        "inside",
        1,
        &format!("not complete: cut: the bytes end before the frame does; {again}"),
    );
    check(
        "between",
        1,
        &format!("not complete: not as many as booked; {again}"),
    );
    check(
        "more",
        1,
        "not complete: not as many as booked; 51 sound frames of 50 booked, 1.02 s; ask what was booked",
    );
    check(
        "torn",
        1,
        "not complete: cut: the bytes end before the frame does; 50 sound frames of 50 booked, 1.00 s; ask what was booked",
    );
    check(
        "marked",
        1,
        "not complete: a frame begins with a bit that must be 0; 1 sound frame of 50 booked, 0.02 s; ask again from byte 1",
    );
    check(
        "overlong",
        1,
        "not complete: bytes follow 3,000 frames; 3000 sound frames of 50 booked, 60.00 s; ask what was booked",
    );
    check(
        "empty",
        1,
        "not complete: not as many as booked; 0 sound frames of 50 booked, 0.00 s; ask again from byte 0",
    );
    let none = folder.run(&["check", "empty", "--booked=0"]);
    assert_eq!(
        none,
        Run::of(0, "empty: complete; 0 sound frames of 0 booked, 0.00 s\n", "")
    );
}

/// However long a file is, the answer is that of the whole: 3,000 of the largest frames fill the room but for
/// its last byte.
#[test]
fn check_of_the_longest() {
    let folder = Folder::new("longest");
    let most = frame(19, 0).repeat(3000);
    folder.write("most", &most);
    folder.write("over", &[most.as_slice(), &most].concat());
    let run = folder.run(&["check", "most", "over", "--booked", "3000"]);
    let lines = "most: complete; 3000 sound frames of 3000 booked, 60.00 s\n\
        over: not complete: bytes follow 3,000 frames; 3000 sound frames of 3000 booked, 60.00 s; ask what was booked\n";
    assert_eq!(run, Run::of(1, lines, ""));
}

#[test]
fn eleven_files_at_once() {
    let folder = Folder::new("eleven");
    let names: Vec<String> = (1..=11).map(|boat| format!("boat{boat:02}")).collect();
    for (boat, name) in names.iter().enumerate() {
        // the seventh boat's report is cut, the ninth's is not there
        match boat {
            6 => folder.write(name, &recording(12)[..500]),
            8 => {}
            _ => folder.write(name, &recording(12)),
        }
    }
    let mut words = vec!["check", "--booked", "12"];
    words.extend(names.iter().map(String::as_str));
    let run = folder.run(&words);
    assert_eq!(run.status, 2);
    assert_eq!(
        run.said,
        "g719: boat09: not read: No such file or directory (os error 2)\n"
    );
    let lines: Vec<&str> = run.printed.lines().collect();
    assert_eq!(lines.len(), 10);
    let complete = |line: &&&str| line.ends_with(": complete; 12 sound frames of 12 booked, 0.24 s");
    assert_eq!(lines.iter().filter(complete).count(), 9);
    assert!(lines[6].starts_with("boat07: not complete: cut"), "{}", lines[6]);

    words.retain(|&word| word != "boat09");
    assert_eq!(folder.run(&words).status, 1);
    words.retain(|&word| word != "boat07");
    assert_eq!(folder.run(&words).status, 0);
}

#[test]
fn check_of_several_channels() {
    let folder = Folder::new("blocks");
    let block = [frame(3, 0), vec![0]].concat();
    folder.write("whole", &block.repeat(4));
    folder.write("lacks", &[block.repeat(3), frame(3, 0)].concat());
    let run = folder.run(&["check", "whole", "lacks", "--booked", "4", "--channels", "2"]);
    let lines = format!(
        "whole: complete; 4 sound blocks of 4 booked, 0.08 s\n\
         lacks: not complete: cut: the bytes end before the frame does; 3 sound blocks of 4 booked, 0.06 s; ask again from byte {}\n",
        3 * block.len()
    );
    assert_eq!(run, Run::of(1, &lines, ""));
    for channels in ["0", "9", "256", "x"] {
        let run = folder.run(&["check", "whole", "--booked", "4", "--channels", channels]);
        assert_eq!((run.status, run.printed.as_str()), (2, ""));
        assert!(run.said.ends_with(CHECK_USAGE), "{}", run.said);
    }
}

#[test]
fn standard_input_and_output() {
    let folder = Folder::new("standard");
    let run = folder.run_on(&report(), &["check", "-", "--booked", "4"]);
    let line = "standard input: not complete: cut: the bytes end before the frame does; 3 sound frames of 4 booked, 0.06 s; \
        ask again from byte 173\n";
    assert_eq!(run, Run::of(1, line, ""));
    let run = folder.run_on(
        &[0, 0],
        &["extract", "-", "--channels", "2", "--channel", "1", "-o", "-"],
    );
    assert_eq!(run, Run::of(0, "\0", ""));
    assert_eq!(folder.run_on(&[0], &["join", "-", "-", "-o", "-"]).status, 2);
}

#[test]
fn what_cannot_be_read() {
    let folder = Folder::new("unread");
    folder.write("none", b"");
    fs::create_dir(folder.path("folder")).unwrap();
    let commands: [&[&str]; 6] = [
        &["check", "--booked", "0"],
        &["list"],
        &["show"],
        &["picture", "-o", "out"],
        &["extract", "--channels", "1", "--channel", "0", "-o", "out"],
        &["join", "-o", "out"],
    ];
    for words in commands {
        let run = folder.run(&[words, &["folder"]].concat());
        assert_eq!(
            run,
            Run::of(2, "", "g719: folder: not read: Is a directory (os error 21)\n")
        );
        let run = folder.run(&[words, &["nothing"]].concat());
        assert_eq!(
            run,
            Run::of(
                2,
                "",
                "g719: nothing: not read: No such file or directory (os error 2)\n"
            )
        );
    }
    assert_eq!(folder.names(), ["folder", "none"]);
}

/// Root may read everything, so where the tests are root's the command runs as nobody, in a folder that
/// nobody can enter.
#[test]
fn no_permission() {
    let path = std::env::temp_dir().join(format!("g719-{}", std::process::id()));
    fs::create_dir(&path).unwrap();
    let allow =
        |name: &str, mode| fs::set_permissions(path.join(name), fs::Permissions::from_mode(mode)).unwrap();
    fs::copy(env!("CARGO_BIN_EXE_g719"), path.join("command")).unwrap();
    fs::write(path.join("report"), report()).unwrap();
    allow("", 0o755);
    allow("command", 0o755);
    allow("report", 0o000);
    let run = |words: &[&str]| {
        let mut command = command_by(&started(&path.join("command")));
        command.args(words).current_dir(&path);
        if fs::metadata("/proc/self").unwrap().uid() == 0 {
            command.uid(65_534);
        }
        // A test beside this one that starts a program at the very moment of the copy holds the copy open for
        // writing until that program runs: then it is busy (26), and soon is not.
        for _ in 0..500 {
            match output(&mut command) {
                Err(busy) if busy.raw_os_error() == Some(26) => sleep(Duration::from_millis(10)),
                answer => return Run::from(answer.unwrap()),
            }
        }
        panic!("the copy of the command stays busy")
    };
    let unread = run(&["check", "report", "--booked", "3"]);
    allow("report", 0o444);
    allow("", 0o555);
    let unwritten = run(&["picture", "report", "-o", "out.svg"]);
    let listed = run(&["list", "report"]);
    fs::remove_dir_all(&path).unwrap();
    assert_eq!(
        unread,
        Run::of(2, "", "g719: report: not read: Permission denied (os error 13)\n")
    );
    assert_eq!(
        unwritten,
        Run::of(
            2,
            "",
            "g719: out.svg: not written: Permission denied (os error 13)\n"
        )
    );
    assert_eq!(listed.status, 1);
}

/// A file is whole or not there: on a full disk, here one that takes 1,024 bytes, the old one stays and no
/// part is left.
#[test]
fn a_full_disk() {
    let folder = Folder::new("full");
    folder.write("long", &recording(50));
    folder.write("out", b"as it was");
    let extract = [
        "extract",
        "long",
        "--channels",
        "1",
        "--channel",
        "0",
        "-o",
        "out",
    ];
    let full = "trap '' XFSZ; ulimit -f 1; exec \"$@\"";
    let run = folder.run_in_shell(full, &extract);
    assert_eq!(
        run,
        Run::of(2, "", "g719: out: not written: File too large (os error 27)\n")
    );
    assert_eq!(folder.read("out"), b"as it was");
    assert_eq!(folder.names(), ["long", "out"]);

    assert_eq!(folder.run(&extract), Run::of(0, "", ""));
    assert_eq!(folder.read("out"), folder.read("long"));
    assert_eq!(folder.names(), ["long", "out"]);

    let unwritten = "output not written: No space left on device (os error 28)";
    let checked = folder.run_in_shell("exec \"$@\" >/dev/full", &["check", "long", "--booked", "50"]);
    assert_eq!(checked, Run::of(2, "", &format!("g719: {unwritten}\n")));
    let help = folder.run_in_shell("exec \"$@\" >/dev/full", &["--help"]);
    assert_eq!(help, Run::of(2, "", &format!("g719: {unwritten}\n")));
    let silent = folder.run_in_shell("exec \"$@\" >/dev/full 2>/dev/full", &["list", "long"]);
    assert_eq!(silent.status, 2);
}

#[test]
fn a_closed_pipe() {
    let folder = Folder::new("pipe");
    let mut command = folder.command(&["list", "-"]);
    command
        .stdin(Stdio::piped())
        .stdout(Stdio::piped())
        .stderr(Stdio::piped());
    // alone, so that no program that a test beside this one starts holds the pipe's end open
    let alone = STARTING.write().unwrap_or_else(PoisonError::into_inner);
    let mut child = command.spawn().unwrap();
    drop(child.stdout.take());
    drop(alone);
    child.stdin.take().unwrap().write_all(&report()).unwrap();
    let run = Run::from(child.wait_with_output().unwrap());
    assert_eq!(
        run,
        Run::of(2, "", "g719: output not written: Broken pipe (os error 32)\n")
    );
}

/// Behind a link the file is replaced and the link stays; a folder is not written to.
#[test]
fn links_and_folders() {
    let folder = Folder::new("places");
    folder.write("report", &recording(3));
    fs::create_dir(folder.path("folder")).unwrap();
    folder.write("folder/real", b"old");
    symlink("folder/real", folder.path("link")).unwrap();
    let out = |name: &str| folder.run(&["join", "report", "-o", name]);
    assert_eq!(out("link"), Run::of(0, "", ""));
    assert!(folder.path("link").is_symlink());
    assert_eq!(folder.read("folder/real"), folder.read("report"));
    assert_eq!(
        out("folder"),
        Run::of(2, "", "g719: folder: not written: Is a directory (os error 21)\n")
    );
    assert_eq!(
        out("no/such"),
        Run::of(
            2,
            "",
            "g719: no/such: not written: No such file or directory (os error 2)\n"
        )
    );
    assert_eq!(out("report"), Run::of(0, "", ""));
    assert_eq!(folder.read("report"), recording(3));
    assert_eq!(folder.names(), ["folder", "link", "report"]);
}

/// What is no plain file is written to as it is. The test makes a pipe of its own: a command that renamed over a
/// device would spoil the machine that it is tried on.
#[test]
fn what_is_no_plain_file() {
    let folder = Folder::new("no_file");
    folder.write("report", &recording(3));
    let script = "mkfifo pipe; timeout 20 cat pipe >copy & \"$@\"; status=$?; wait; exit $status";
    let run = folder.run_in_shell(script, &["join", "report", "-o", "pipe"]);
    assert_eq!(run, Run::of(0, "", ""));
    assert!(fs::metadata(folder.path("pipe")).unwrap().file_type().is_fifo());
    assert_eq!(folder.read("copy"), folder.read("report"));
    assert_eq!(folder.names(), ["copy", "pipe", "report"]);
}

#[test]
fn joined_and_taken_apart() {
    let folder = Folder::new("channels");
    let parts = [recording(7), vec![0; 7], frame(19, 3).repeat(7)];
    for (name, part) in ["a", "b", "c"].iter().zip(&parts) {
        folder.write(name, part);
    }
    assert_eq!(
        folder.run(&["join", "a", "b", "c", "-o", "all"]),
        Run::of(0, "", "")
    );
    assert_eq!(
        folder
            .run(&["check", "all", "--booked", "7", "--channels", "3"])
            .status,
        0
    );
    for (channel, part) in parts.iter().enumerate() {
        let channel = channel.to_string();
        let run = folder.run(&[
            "extract",
            "all",
            "--channels",
            "3",
            "--channel",
            &channel,
            "-o",
            "one",
        ]);
        assert_eq!(run, Run::of(0, "", ""));
        assert_eq!(&folder.read("one"), part);
    }

    folder.write("short", &recording(6));
    let run = folder.run(&["join", "a", "short", "-o", "none"]);
    let said = "g719: a: 7 sound frames\ng719: short: 6 sound frames\n\
        g719: recordings of unequal frame counts are not joined; nothing was written\n";
    assert_eq!(run, Run::of(1, "", said));
    folder.write("cut", &report());
    let run = folder.run(&["join", "a", "cut", "-o", "none"]);
    let said = "g719: cut: cut: the bytes end before the frame does; 3 sound frames before byte 173; nothing was written\n";
    assert_eq!(run, Run::of(1, "", said));
    let run = folder.run(&[
        "extract",
        "cut",
        "--channels",
        "1",
        "--channel",
        "0",
        "-o",
        "none",
    ]);
    let said = "g719: cut: cut: the bytes end before the frame does; 3 sound blocks before byte 173; nothing was written\n";
    assert_eq!(run, Run::of(1, "", said));
    assert!(!folder.path("none").exists());
}

#[test]
fn what_is_not_understood() {
    let folder = Folder::new("words");
    folder.write("report", &recording(3));
    let wrong: [&[&str]; 18] = [
        &[],
        &["chekc"],
        &["check", "report"],
        &["check", "--booked", "3"],
        &["check", "report", "--booked"],
        &["check", "report", "--booked", "-3"],
        &["check", "report", "--booked", "+3"],
        &["check", "report", "--booked", ""],
        &["check", "report", "--booked", "4294967296"],
        &["check", "report", "--booked", "3", "--booked", "3"],
        &["check", "report", "--booked", "3", "--loud", "yes"],
        &["list"],
        &["list", "report", "report"],
        &["show", "report", "--frame", "3"],
        &["picture", "report"],
        &[
            "extract",
            "report",
            "--channels",
            "2",
            "--channel",
            "2",
            "-o",
            "out",
        ],
        &["join", "-o", "out"],
        &["join", "-o", "out", "a", "a", "a", "a", "a", "a", "a", "a", "a"],
    ];
    for words in wrong {
        let run = folder.run(words);
        assert_eq!((run.status, run.printed.as_str()), (2, ""), "{words:?}");
        assert!(run.said.starts_with("g719: "), "{words:?}: {}", run.said);
    }
    assert_eq!(folder.names(), ["report"]);
    folder.write("--booked", &recording(3));
    let run = folder.run(&["check", "--booked=3", "--", "--booked"]);
    assert_eq!(
        run,
        Run::of(0, "--booked: complete; 3 sound frames of 3 booked, 0.06 s\n", "")
    );
    folder.write("two\nlines", &recording(3));
    assert_eq!(
        folder
            .run(&["check", "--booked", "3", "two\nlines"])
            .printed
            .lines()
            .count(),
        1
    );
}

#[test]
fn help_for_each() {
    let folder = Folder::new("help");
    let whole = folder.run(&["--help"]);
    assert_eq!((whole.status, whole.said.as_str()), (0, ""));
    for command in ["check", "list", "show", "picture", "extract", "join"] {
        for word in ["--help", "-h"] {
            let page = folder.run(&[command, word]);
            assert_eq!((page.status, page.said.as_str()), (0, ""), "{command}");
            let usage = page.printed.lines().next().unwrap();
            let called = usage.strip_prefix("usage: ").unwrap();
            assert!(whole.printed.contains(called), "{usage}");
        }
    }
    let version = folder.run(&["--version"]);
    assert_eq!(
        version,
        Run::of(0, &format!("g719 {}\n", env!("CARGO_PKG_VERSION")), "")
    );
}
