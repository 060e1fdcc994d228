//! Reading the files that people name. Each is read once and to its end, or to one byte past its bound, or it is
//! told why not.

use crate::failure::{unusable, Failure};
use crate::layout;
use crate::output::{plain, quoted};
use std::ffi::{OsStr, OsString};
use std::fs::{self, File};
use std::io::{self, ErrorKind, Read};
use std::os::fd::AsFd;
use std::os::unix::fs::FileTypeExt;

/// The most bytes that each may have.
pub const MODEL_BYTES: usize = 65_536;
pub const TRACE_BYTES: usize = 4_096;

/// A model and a trace as they were read, with the names that they were given by.
pub struct Pair {
    pub model_name: OsString,
    pub trace_name: OsString,
    pub model: Vec<u8>,
    pub trace: Vec<u8>,
}

impl Pair {
    pub fn read(model_name: &OsStr, trace_name: &OsStr) -> Result<Pair, Failure> {
        if model_name == "-" && trace_name == "-" {
            return Err(unusable("only one of the two files can be standard input"));
        }
        let model = read_model(model_name)?;
        let trace = read(trace_name, TRACE_BYTES)?;
        Ok(Pair { model_name: model_name.into(), trace_name: trace_name.into(), model, trace })
    }

    /// A model by itself: the trace asks for goal 0 without a step.
    pub fn of_model(name: &OsStr) -> Result<Pair, Failure> {
        let (model_name, trace_name) = (name.into(), OsString::new());
        Ok(Pair { model_name, trace_name, model: read_model(name)?, trace: layout::trace(0, &[]) })
    }
}

pub fn read_model(name: &OsStr) -> Result<Vec<u8>, Failure> {
    read(name, MODEL_BYTES)
}

/// `-` is standard input.
fn read(name: &OsStr, most: usize) -> Result<Vec<u8>, Failure> {
    if name == "-" {
        let own = io::stdin().as_fd().try_clone_to_owned();
        return own
            .and_then(|own| take(File::from(own), most))
            .map_err(|error| unread("standard input", &error));
    }
    // A pipe with a name may wait for its writer for ever. One without, from `<(..)`, has one; it leads to no path.
    let is_named_pipe = is_fifo(name) && fs::canonicalize(name).is_ok();
    if is_named_pipe {
        let hint = "a named pipe may wait for ever; use - or <(..)";
        return Err(unusable(format!("{} is not read: {hint}", quoted(name))));
    }
    read_named(name, most)
}

fn is_fifo(name: &OsStr) -> bool {
    fs::metadata(name).is_ok_and(|about| about.file_type().is_fifo())
}

/// A file that nobody named on the command line: pipes and devices are no part of it.
pub fn read_plain(name: &OsStr, most: usize) -> Result<Vec<u8>, Failure> {
    let is_other = fs::metadata(name).is_ok_and(|about| !about.is_file() && !about.is_dir());
    if is_other {
        return Err(unusable(format!("{} is not read: it is a pipe or a device", quoted(name))));
    }
    read_named(name, most)
}

fn read_named(name: &OsStr, most: usize) -> Result<Vec<u8>, Failure> {
    let shown = quoted(name);
    let file = File::open(name).map_err(|error| match error.kind() {
        ErrorKind::NotFound => unusable(format!("there is no file {shown}")),
        _ => unread(&shown, &error),
    })?;
    if file.metadata().is_ok_and(|about| about.is_dir()) {
        return Err(unusable(format!("{shown} is a folder, not a file")));
    }
    take(file, most).map_err(|error| unread(&shown, &error))
}

/// One byte more than the bound shows that a file is over it.
fn take(file: File, most: usize) -> io::Result<Vec<u8>> {
    let mut bytes = Vec::new();
    file.take(most as u64 + 1).read_to_end(&mut bytes)?;
    Ok(bytes)
}

fn unread(shown: &str, error: &io::Error) -> Failure {
    unusable(format!("{shown} can't be read: {}", plain(error)))
}
