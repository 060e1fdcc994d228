//! What people see: lines that are written or told to be lost, messages, file names that can't be taken for
//! anything else, and lists.

use crate::failure::{unanswered, Failure};
use std::ffi::OsStr;
use std::fs::File;
use std::io::{self, BufWriter, IsTerminal, Write};
use std::os::fd::AsFd;
use std::os::unix::ffi::OsStrExt;

/// Standard output. Rust's own passes over some writes that fail; a file over the same descriptor doesn't.
pub struct Output(BufWriter<File>);

impl Output {
    pub fn open() -> Result<Output, Failure> {
        let own = io::stdout().as_fd().try_clone_to_owned().map_err(lost)?;
        Ok(Output(BufWriter::new(File::from(own))))
    }

    pub fn line(&mut self, text: &str) -> Result<(), Failure> {
        writeln!(self.0, "{text}").map_err(lost)
    }

    /// A command's answer counts once this has gone well.
    pub fn flush(&mut self) -> Result<(), Failure> {
        self.0.flush().map_err(lost)
    }
}

fn lost(error: io::Error) -> Failure {
    unanswered(format!("the output can't be written: {}", plain(&error)))
}

/// A message on standard error, in one piece, so that two at once don't mix.
pub fn tell(text: &str) -> Result<(), Failure> {
    let line = format!("cantivorex: {text}\n");
    io::stderr().write_all(line.as_bytes()).map_err(|_| unanswered(""))
}

/// The line on a terminal that says how far a long command is; nowhere else.
pub struct Progress {
    is_shown: bool,
    is_there: bool,
}

impl Progress {
    pub fn new() -> Progress {
        Progress { is_shown: io::stderr().is_terminal(), is_there: false }
    }

    pub fn show(&mut self, text: &str) {
        if self.is_shown {
            self.is_there = true;
            // One row of a terminal; no loss, since it is no part of the answer.
            let text: String = text.chars().take(79).collect();
            let _ = write!(io::stderr(), "\r\x1b[K{text}");
        }
    }

    pub fn clear(&mut self) {
        if self.is_there {
            self.is_there = false;
            let _ = write!(io::stderr(), "\r\x1b[K");
        }
    }
}

/// The system's reason without its number.
pub fn plain(error: &io::Error) -> String {
    let text = error.to_string();
    match text.split_once(" (os error") {
        Some((reason, _)) => reason.to_string(),
        None => text,
    }
}

/// No character that moves the cursor or turns the direction of writing.
pub fn is_plain(c: char) -> bool {
    !c.is_control()
        && !matches!(c, '\u{200e}' | '\u{200f}' | '\u{2028}'..='\u{202e}' | '\u{2066}'..='\u{2069}')
}

/// A name on one line: whatever isn't plain text is written by its number.
pub fn escaped(name: &OsStr) -> String {
    let mut out = String::new();
    for chunk in name.as_bytes().utf8_chunks() {
        for c in chunk.valid().chars() {
            match c {
                '\n' => out.push_str("\\n"),
                '\t' => out.push_str("\\t"),
                '\\' => out.push_str("\\\\"),
                _ if is_plain(c) => out.push(c),
                _ => out.push_str(&format!("\\u{{{:x}}}", c as u32)),
            }
        }
        chunk.invalid().iter().for_each(|byte| out.push_str(&format!("\\x{byte:02x}")));
    }
    out
}

pub fn quoted(name: &OsStr) -> String {
    format!("'{}'", escaped(name).replace('\'', "\\'"))
}

/// A name as it is if it is one plain word, else in quotes.
pub fn named(name: &OsStr) -> String {
    let is_word = |c: char| c.is_ascii_alphanumeric() || "._-+@%=,/()".contains(c);
    match name.to_str() {
        Some(text) if !text.is_empty() && text.chars().all(is_word) => text.to_string(),
        _ => quoted(name),
    }
}

/// "1 pair", "2 pairs".
pub fn counted(count: usize, what: &str) -> String {
    format!("{count} {what}{}", if count == 1 { "" } else { "s" })
}

/// Entries with commas, at most so many of them, or `none`.
pub fn listed(entries: impl Iterator<Item = String>, most: usize) -> String {
    let all: Vec<String> = entries.collect();
    let shown = all[..all.len().min(most)].join(", ");
    match all.len() {
        0 => "none".to_string(),
        n if n > most => format!("{shown} and {} more", n - most),
        _ => shown,
    }
}
