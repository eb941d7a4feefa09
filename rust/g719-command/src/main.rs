//! g719: what people do with recordings of stored G.719 speech. It checks, lists, shows and draws them, takes
//! a channel out and joins.
//!
//! Ends with 0 only if all is complete, with 1 if a recording is not, with 2 if something could not be read,
//! written or understood.
#![forbid(unsafe_code)]

mod arguments;
mod channels;
mod check;
mod draw;
mod files;
mod help;
mod list;
mod picture;
mod show;
mod words;

use std::ffi::OsString;
use std::process::ExitCode;

/// How a command ends, best first.
#[derive(Clone, Copy, Debug, PartialEq, Eq, PartialOrd, Ord)]
pub enum Verdict {
    Complete,
    NotComplete,
    /// Something could not be read, written or understood.
    Failed,
}

/// What could not be read, written or understood, in words.
#[derive(Debug)]
pub struct Failure(pub String);

impl From<Verdict> for ExitCode {
    fn from(verdict: Verdict) -> Self {
        ExitCode::from(verdict as u8)
    }
}

/// Says on standard error what went wrong. Where even that cannot be written, the status still tells.
pub fn complain(words: &str) {
    use std::io::Write;
    let _ = writeln!(std::io::stderr(), "g719: {words}");
}

fn run(words: &[OsString]) -> Result<Verdict, Failure> {
    let Some((command, rest)) = words.split_first() else {
        return Err(Failure(help::USAGE.trim_end().into()));
    };
    match command.to_str() {
        Some("check") => check::run(rest),
        Some("list") => list::run(rest),
        Some("show") => show::run(rest),
        Some("picture") => draw::run(rest),
        Some("extract") => channels::extract(rest),
        Some("join") => channels::join(rest),
        Some("--help" | "-h" | "help") => help::print(help::WHOLE),
        Some("--version" | "-V") => help::print(concat!("g719 ", env!("CARGO_PKG_VERSION"), "\n")),
        _ => Err(Failure(format!(
            "there is no command {}; g719 --help says which there are",
            words::name(command)
        ))),
    }
}

fn main() -> ExitCode {
    let words: Vec<OsString> = std::env::args_os().skip(1).collect();
    run(&words)
        .unwrap_or_else(|Failure(why)| {
            complain(&why);
            Verdict::Failed
        })
        .into()
}
