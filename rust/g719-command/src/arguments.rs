//! The words behind a command: files, and options that each take a value.

use crate::{help, words, Failure};
use std::ffi::{OsStr, OsString};
use std::str::FromStr;

/// Files in order, and the values of options by name.
pub struct Arguments {
    help: &'static str,
    pub files: Vec<OsString>,
    options: Vec<(&'static str, OsString)>,
}

/// Takes the words behind a command apart. `help` is its page, whose first line says how it is called;
/// `names` are its options. A word `--` ends the options, and a lone `-` is standard input or output. Where
/// help is asked for, the page is printed and there is nothing more to do.
pub fn take(
    given: &[OsString],
    help: &'static str,
    names: &[&'static str],
) -> Result<Option<Arguments>, Failure> {
    let mut arguments = Arguments {
        help,
        files: Vec::new(),
        options: Vec::new(),
    };
    let mut rest = given.iter();
    while let Some(word) = rest.next() {
        match word.to_str() {
            Some("--help" | "-h") => return help::print(help).map(|_| None),
            Some("--") => arguments.files.extend(rest.by_ref().cloned()),
            Some(option) if option.starts_with('-') && option != "-" => {
                let (name, value) = match option.split_once('=') {
                    Some((name, value)) if name.starts_with("--") => (name, Some(OsString::from(value))),
                    _ => (option, rest.next().cloned()),
                };
                let value = arguments.option(names, name, value)?;
                arguments.options.push(value);
            }
            // what is not UTF-8 is no option, even if it begins with a dash
            _ => arguments.files.push(word.clone()),
        }
    }
    Ok(Some(arguments))
}

impl Arguments {
    /// How the command is called, behind what is wrong.
    pub fn wrong(&self, why: &str) -> Failure {
        let usage = self.help.lines().next().unwrap_or_default();
        Failure(format!("{why}\n{usage}"))
    }

    /// An option that the command has, is not given yet and has a value.
    fn option(
        &self,
        names: &[&'static str],
        name: &str,
        value: Option<OsString>,
    ) -> Result<(&'static str, OsString), Failure> {
        let Some(&known) = names.iter().find(|&&known| known == name) else {
            return Err(self.wrong(&format!("there is no option {}", words::name(OsStr::new(name)))));
        };
        if self.value(known).is_some() {
            return Err(self.wrong(&format!("{known} is given twice")));
        }
        let value = value.ok_or_else(|| self.wrong(&format!("{known} needs a value")))?;
        Ok((known, value))
    }

    pub fn value(&self, name: &str) -> Option<&OsStr> {
        let found = self.options.iter().find(|(known, _)| *known == name);
        found.map(|(_, value)| value.as_os_str())
    }

    fn missing(&self, name: &str) -> Failure {
        self.wrong(&format!("{name} is missing"))
    }

    /// The value of an option that must be there.
    pub fn needed(&self, name: &str) -> Result<&OsStr, Failure> {
        self.value(name).ok_or_else(|| self.missing(name))
    }

    /// A number in decimal digits alone, if the option is there.
    pub fn number<T: FromStr>(&self, name: &str) -> Result<Option<T>, Failure> {
        let parse = |value: &OsStr| {
            let text = value
                .to_str()
                .filter(|text| text.bytes().all(|byte| byte.is_ascii_digit()));
            let number = text.and_then(|text| text.parse().ok());
            number.ok_or_else(|| self.wrong(&format!("{name} {}: no such number", words::name(value))))
        };
        self.value(name).map(parse).transpose()
    }

    /// A number that must be there.
    pub fn needed_number<T: FromStr>(&self, name: &str) -> Result<T, Failure> {
        self.number(name)?.ok_or_else(|| self.missing(name))
    }

    /// The one file of a command that takes one.
    pub fn file(&self) -> Result<&OsStr, Failure> {
        match self.files.as_slice() {
            [file] => Ok(file),
            [] => Err(self.wrong("no file is named")),
            _ => Err(self.wrong("more than one file is named")),
        }
    }
}
