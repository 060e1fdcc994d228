//! The words after a command: options by name, `--` as their end, and operands. `-` is an operand.

use crate::failure::{unusable, Failure};
use crate::output::quoted;
use std::ffi::{OsStr, OsString};
use std::os::unix::ffi::OsStrExt;

/// An option, and whether a value follows it (`--limit 5` or `--limit=5`).
pub struct Known {
    pub name: &'static str,
    pub has_value: bool,
}

#[derive(Default)]
pub struct Args {
    given: Vec<(&'static str, OsString)>,
    pub operands: Vec<OsString>,
}

impl Args {
    pub fn has(&self, name: &str) -> bool {
        self.given.iter().any(|(given, _)| *given == name)
    }

    /// All values of an option that may be given more than once.
    pub fn values(&self, name: &'static str) -> impl Iterator<Item = &OsStr> {
        self.given.iter().filter(move |(given, _)| *given == name).map(|(_, value)| &**value)
    }

    /// The value of an option that may be given once.
    pub fn value(&self, name: &'static str) -> Result<Option<&OsStr>, Failure> {
        let mut all = self.values(name);
        let first = all.next();
        match all.next() {
            Some(_) => Err(unusable(format!("{name} is given twice"))),
            None => Ok(first),
        }
    }
}

pub fn parse(words: &[OsString], known: &[Known]) -> Result<Args, Failure> {
    let mut args = Args::default();
    let mut rest = words.iter();
    while let Some(word) = rest.next() {
        if word == "--" {
            args.operands.extend(rest.by_ref().cloned());
        } else if word == "-" || !word.as_bytes().starts_with(b"-") {
            args.operands.push(word.clone());
        } else {
            let (name, inside) = split(word);
            let option = known.iter().find(|option| name == option.name);
            let option = option.ok_or_else(|| unknown(word))?;
            let value = match (option.has_value, inside) {
                (true, Some(value)) => value,
                (true, None) => rest
                    .next()
                    .cloned()
                    .ok_or_else(|| unusable(format!("{} wants a value after it", option.name)))?,
                (false, None) => OsString::new(),
                (false, Some(_)) => {
                    return Err(unusable(format!("{} takes no value", option.name)))
                }
            };
            args.given.push((option.name, value));
        }
    }
    Ok(args)
}

/// An option's name, and the value that stands behind `=`.
fn split(word: &OsStr) -> (&OsStr, Option<OsString>) {
    let bytes = word.as_bytes();
    match bytes.iter().position(|byte| *byte == b'=') {
        Some(at) => {
            (OsStr::from_bytes(&bytes[..at]), Some(OsStr::from_bytes(&bytes[at + 1..]).into()))
        }
        None => (word, None),
    }
}

fn unknown(word: &OsStr) -> Failure {
    let shown = quoted(word);
    unusable(format!(
        "there is no option {shown}; before a file name that starts with a dash put --"
    ))
}
