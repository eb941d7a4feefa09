//! Recordings read and files written. A failed or partial read is never an end, and a file appears under its
//! name only when it is whole.

use crate::{words, Failure};
use std::ffi::{OsStr, OsString};
use std::fs::{self, File, OpenOptions};
use std::io::{self, Read, Write};
use std::path::{Path, PathBuf};

/// Whether a name is that of standard input or output.
fn is_standard(name: &OsStr) -> bool {
    name == "-"
}

/// The name of an input in words.
pub fn shown(name: &OsStr) -> String {
    if is_standard(name) {
        "standard input".into()
    } else {
        words::name(name)
    }
}

fn read_from(source: impl Read, most: usize) -> io::Result<Vec<u8>> {
    let mut bytes = Vec::new();
    source.take(most as u64).read_to_end(&mut bytes)?;
    Ok(bytes)
}

/// The first `most` bytes of a file or, for `-`, of standard input. Where a read fails nothing is answered.
pub fn read(name: &OsStr, most: usize) -> Result<Vec<u8>, Failure> {
    let bytes = if is_standard(name) {
        read_from(io::stdin().lock(), most)
    } else {
        File::open(name).and_then(|file| read_from(file, most))
    };
    bytes.map_err(|error| Failure(format!("{}: not read: {error}", shown(name))))
}

/// Writes a text to standard output.
pub fn print(text: &str) -> Result<(), Failure> {
    let mut output = io::stdout().lock();
    let written = output.write_all(text.as_bytes()).and_then(|()| output.flush());
    written.map_err(|error| Failure(format!("output not written: {error}")))
}

/// Writes a file under another name beside it and renames it when it is whole and on the disk. What stood
/// under the name before stays until then. `-` is standard output; what is no plain file (a pipe, a device)
/// is written to as it is.
pub fn write(name: &OsStr, bytes: &[u8]) -> Result<(), Failure> {
    let written = if is_standard(name) {
        let mut output = io::stdout().lock();
        output.write_all(bytes).and_then(|()| output.flush())
    } else {
        write_file(Path::new(name), bytes)
    };
    written.map_err(|error| Failure(format!("{}: not written: {error}", words::name(name))))
}

fn write_file(path: &Path, bytes: &[u8]) -> io::Result<()> {
    match fs::metadata(path) {
        // a folder refuses this with its own words
        Ok(found) if !found.is_file() => OpenOptions::new().write(true).open(path)?.write_all(bytes),
        // behind a link the file that it leads to is replaced, and the link stays
        Ok(_) => write_beside(&fs::canonicalize(path)?, bytes),
        Err(_) => write_beside(path, bytes),
    }
}

fn write_beside(path: &Path, bytes: &[u8]) -> io::Result<()> {
    let part = part_name(path).ok_or(io::ErrorKind::InvalidInput)?;
    let written = File::create_new(&part).and_then(|mut file| {
        file.write_all(bytes)?;
        file.sync_all()
    });
    let renamed = written.and_then(|()| fs::rename(&part, path));
    if renamed
        .as_ref()
        .is_err_and(|error| error.kind() != io::ErrorKind::AlreadyExists)
    {
        // the part is of no use; that it cannot be removed changes nothing
        let _ = fs::remove_file(&part);
    }
    renamed
}

/// A name beside `path` that no other run of this command takes at the same time.
fn part_name(path: &Path) -> Option<PathBuf> {
    let mut name = OsString::from(".");
    name.push(path.file_name()?);
    name.push(format!(".{}.part", std::process::id()));
    Some(path.with_file_name(name))
}
