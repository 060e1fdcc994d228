//! `night FOLDER`: all pairs of a folder, or one model with all its traces. The names are listed here, checked in
//! pairs.rs and printed in report.rs.

use crate::args::{Args, Known};
use crate::failure::{unanswered, unusable, Failure};
use crate::judge;
use crate::output::{listed, plain, quoted, tell};
use crate::pairs::{start, Night, Shared};
use crate::report::Report;
use crate::{operands, Command};
use std::collections::BTreeSet;
use std::ffi::{OsStr, OsString};
use std::fs;
use std::path::{Path, PathBuf};
use std::sync::Arc;
use std::time::Duration;

pub const COMMAND: Command = Command {
    name: "night",
    usage: "night FOLDER [--model MODEL] [OPTION]...",
    brief: "all pairs of a folder, or one model with all traces",
    help: "\
Checks every pair NAME.model, NAME.trace of the folder, or with --model every
NAME.trace, in the order of the names. Each has a line that starts with the
verdict's line and ends in the name. Then a line counts them, and the refused
and unread ones follow by name. Folders inside are not looked into.

  --model MODEL    one model for all traces
  --tsv            rows for other programs, with tabs between the columns; the
                   first row names them. There are the SHA-256 of both files
                   as they were read, by sha256sum (- for a file over its
                   size), the seconds taken and the checker's version. What
                   counts and lists them goes to standard error
  --only VERDICT   lines of this verdict alone; may be given more than once.
                   All are counted, and listed below, all the same
  --limit SECONDS  a pair without an answer by then is given up, and the
                   report says so

On a terminal standard error shows how far it is. A pair that takes more than
a second is told there with its time.

Exit: 0 every file had its partner and every pair its verdict; 1 not so, or
nothing to check, or lines that can't be written; 2 wrong usage, or a folder or
model that can't be read.

Examples:
  cantivorex night samples --model samples/desk.model
  cantivorex night portal --only ATTACK --limit 60
  cantivorex night portal --tsv > report.tsv && sign report.tsv",
    known: &[
        Known { name: "--model", has_value: true },
        Known { name: "--tsv", has_value: false },
        Known { name: "--only", has_value: true },
        Known { name: "--limit", has_value: true },
    ],
    run,
};

/// Some thirty years; more would overflow a clock.
const MOST_SECONDS: f64 = 1e9;

fn run(args: &Args) -> Result<u8, Failure> {
    let [folder] = operands(args, &COMMAND)?;
    let only = args.values("--only").map(verdict_name).collect::<Result<BTreeSet<_>, _>>()?;
    let limit = args.value("--limit")?.map(seconds).transpose()?;
    let is_tsv = args.has("--tsv");
    let model = args.value("--model")?.map(|name| Shared::read(name, is_tsv)).transpose()?;
    let names = list(Path::new(folder), model.is_some())?;
    if names.is_empty() {
        let what = if model.is_some() { "no trace" } else { "no model and no trace" };
        return Err(unanswered(format!("there is {what} in {}", quoted(folder))));
    }
    let night = Arc::new(Night { folder: folder.into(), names, model, limit, is_tsv });
    let answers = start(&night);
    let mut report = Report::new(&night, only)?;
    report.collect(&answers)?;
    report.finish()
}

fn verdict_name(word: &OsStr) -> Result<&'static str, Failure> {
    let upper = word.to_string_lossy().to_uppercase();
    let known = judge::names().find(|name| *name == upper);
    known.ok_or_else(|| {
        let all = listed(judge::names().map(String::from), usize::MAX);
        unusable(format!("there is no verdict {}; the verdicts are {all}", quoted(word)))
    })
}

fn seconds(word: &OsStr) -> Result<Duration, Failure> {
    let value = word.to_str().and_then(|text| text.parse::<f64>().ok());
    let limit = value
        .filter(|value| *value > 0.0 && *value <= MOST_SECONDS)
        .and_then(|value| Duration::try_from_secs_f64(value).ok());
    limit.ok_or_else(|| {
        unusable(format!("--limit wants seconds, more than 0, and not {}", quoted(word)))
    })
}

/// A name of the folder, and which of its two files are there.
pub struct Found {
    pub name: OsString,
    pub has_model: bool,
    pub has_trace: bool,
}

/// The names in a folder, in the order of their bytes. Files that belong to no night are told once.
fn list(folder: &Path, is_shared: bool) -> Result<Vec<Found>, Failure> {
    let unread = |error: std::io::Error| {
        unusable(format!(
            "the folder {} can't be read: {}",
            quoted(folder.as_os_str()),
            plain(&error)
        ))
    };
    let (mut models, mut traces, mut others) = (BTreeSet::new(), BTreeSet::new(), BTreeSet::new());
    for entry in fs::read_dir(folder).map_err(unread)? {
        let path = PathBuf::from(entry.map_err(unread)?.file_name());
        let name = path.file_stem().unwrap_or_default().to_os_string();
        match path.extension().and_then(OsStr::to_str) {
            Some("trace") => drop(traces.insert(name)),
            Some("model") if is_shared => {}
            Some("model") => drop(models.insert(name)),
            Some("names") => {}
            _ if folder.join(&path).is_dir() => {}
            _ => drop(others.insert(path)),
        }
    }
    if !others.is_empty() {
        let names = listed(others.iter().map(|other| quoted(other.as_os_str())), 10);
        tell(&format!("left out, neither a model nor a trace: {names}"))?;
    }
    let found = |name: &OsString| {
        let (has_model, has_trace) = (models.contains(name), traces.contains(name));
        Found { name: name.clone(), has_model, has_trace }
    };
    Ok(models.union(&traces).map(found).collect())
}
