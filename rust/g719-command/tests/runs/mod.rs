//! Runs of the built command on real files, each test in a folder of its own.
#![allow(dead_code)] // each test file uses a part of it

use g719::{Frame, Mode, BANDS, FRAME_BYTES};
use std::ffi::OsStr;
use std::fs;
use std::io::Write;
use std::path::{Path, PathBuf};
use std::process::{Child, Command, Output, Stdio};
use std::sync::{PoisonError, RwLock};

/// What a run printed, said on standard error, and its status.
#[derive(Debug, PartialEq)]
pub struct Run {
    pub printed: String,
    pub said: String,
    pub status: i32,
}

impl From<Output> for Run {
    fn from(output: Output) -> Self {
        let text = |bytes| String::from_utf8(bytes).expect("text");
        Run {
            printed: text(output.stdout),
            said: text(output.stderr),
            status: output.status.code().expect("an end without a signal"),
        }
    }
}

impl Run {
    pub fn of(status: i32, printed: &str, said: &str) -> Run {
        Run {
            printed: printed.into(),
            said: said.into(),
            status,
        }
    }
}

/// A program and its first words: on another machine than x86-64 cargo is told by what it is run, and so are
/// these tests.
pub fn started(program: &Path) -> Vec<String> {
    let runner = std::env::var("CARGO_TARGET_X86_64_UNKNOWN_LINUX_GNU_RUNNER").unwrap_or_default();
    let mut words: Vec<String> = runner.split_whitespace().map(String::from).collect();
    words.push(program.to_str().expect("a path of text").into());
    words
}

pub fn command_by(words: &[String]) -> Command {
    let mut command = Command::new(&words[0]);
    command.args(&words[1..]).stdin(Stdio::null());
    command
}

/// A program that is being started holds a copy of every end of a pipe that this process has. So whoever starts one
/// holds this with others, and whoever needs an end closed for good holds it alone.
pub static STARTING: RwLock<()> = RwLock::new(());

/// Starts a program; once it runs it holds no end of a pipe but its own.
pub fn start(command: &mut Command) -> std::io::Result<Child> {
    let _starting = STARTING.read().unwrap_or_else(PoisonError::into_inner);
    command.spawn()
}

/// What a program says; the caller has told it its input.
pub fn output(command: &mut Command) -> std::io::Result<Output> {
    command.stdout(Stdio::piped()).stderr(Stdio::piped());
    start(command)?.wait_with_output()
}

pub fn built() -> &'static Path {
    Path::new(env!("CARGO_BIN_EXE_g719"))
}

/// A folder for one test, empty at first.
pub struct Folder(PathBuf);

impl Folder {
    pub fn new(test: &str) -> Folder {
        let path = Path::new(env!("CARGO_TARGET_TMPDIR")).join(test);
        if path.exists() {
            fs::remove_dir_all(&path).expect("an old folder removed");
        }
        fs::create_dir_all(&path).expect("a folder");
        Folder(path)
    }

    pub fn path(&self, name: &str) -> PathBuf {
        self.0.join(name)
    }

    pub fn write(&self, name: &str, bytes: &[u8]) {
        fs::write(self.path(name), bytes).expect("a file written");
    }

    pub fn read(&self, name: &str) -> Vec<u8> {
        fs::read(self.path(name)).expect("a file read")
    }

    /// Names of all that is there.
    pub fn names(&self) -> Vec<String> {
        let entries = fs::read_dir(&self.0).expect("a folder");
        let name = |entry: std::io::Result<fs::DirEntry>| entry.expect("an entry").file_name();
        let mut names: Vec<String> = entries
            .map(|entry| name(entry).into_string().expect("text"))
            .collect();
        names.sort();
        names
    }

    pub fn command<W: AsRef<OsStr>>(&self, words: &[W]) -> Command {
        let mut command = command_by(&started(built()));
        command.args(words).current_dir(&self.0);
        command
    }

    pub fn run(&self, words: &[&str]) -> Run {
        output(&mut self.command(words)).expect("a run").into()
    }

    /// A run with bytes on standard input.
    pub fn run_on(&self, input: &[u8], words: &[&str]) -> Run {
        let mut command = self.command(words);
        command
            .stdin(Stdio::piped())
            .stdout(Stdio::piped())
            .stderr(Stdio::piped());
        let mut child = start(&mut command).expect("a run");
        let mut pipe = child.stdin.take().expect("a pipe");
        // what is not read to its end closes the pipe
        let _ = pipe.write_all(input);
        drop(pipe);
        child.wait_with_output().expect("an end").into()
    }

    /// A run under a shell's words, in which "$@" is the command.
    pub fn run_in_shell(&self, script: &str, words: &[&str]) -> Run {
        let mut command = Command::new("bash");
        command
            .args(["-c", script, "bash"])
            .args(started(built()))
            .args(words);
        command.current_dir(&self.0).stdin(Stdio::null());
        output(&mut command).expect("a run").into()
    }
}

/// A stored frame of a mode, its norms told apart by a number.
pub fn frame(mode: u8, number: u8) -> Vec<u8> {
    let mut norms = [20; BANDS];
    norms[7] = 10 + number % 16;
    let frame = Frame::new(Mode::new(mode).expect("a mode"), number % 5 == 4, &norms).expect("norms");
    let mut bytes = [0; FRAME_BYTES];
    let size = frame.write(&mut bytes).expect("a frame");
    bytes[..size].to_vec()
}

/// A sound recording of so many frames, every sixth one empty.
pub fn recording(count: usize) -> Vec<u8> {
    let stored = |number: usize| match number % 6 {
        5 => vec![0],
        _ => frame((number % 20) as u8, number as u8),
    };
    (0..count).flat_map(stored).collect()
}

/// The report of the lister's own run: two frames with data, an empty one, and a cut one.
pub fn report() -> Vec<u8> {
    let path = concat!(env!("CARGO_MANIFEST_DIR"), "/../../crates/lister/stdin");
    fs::read(path).expect("the lister's report")
}
