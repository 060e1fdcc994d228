//! What a signed report says about itself: the SHA-256 of what was checked, and which checker it was.

use crate::failure::{unanswered, Failure};
use std::io::Write;
use std::process::{Command, Stdio};

/// The command's version and the library that it is linked with.
pub fn version() -> String {
    let library = env!("LIBRARY_SHA256");
    format!("cantivorex {} library {}", env!("CARGO_PKG_VERSION"), &library[..16])
}

/// By `sha256sum`, over the bytes that were read: the file itself may have changed since.
pub fn sha256(bytes: &[u8]) -> Result<String, Failure> {
    sum(bytes).map_err(|reason| unanswered(format!("there is no SHA-256: sha256sum {reason}")))
}

fn sum(bytes: &[u8]) -> Result<String, String> {
    let mut command = Command::new("sha256sum");
    command.stdin(Stdio::piped()).stdout(Stdio::piped());
    let mut child = command.spawn().map_err(|error| format!("can't be run: {error}"))?;
    let written = child.stdin.take().map(|mut to| to.write_all(bytes));
    let said = child.wait_with_output().map_err(|error| error.to_string())?;
    let text = String::from_utf8_lossy(&said.stdout);
    match (written, said.status.success(), text.get(..64)) {
        (Some(Ok(())), true, Some(digits)) => Ok(digits.to_string()),
        _ => Err("failed".to_string()),
    }
}
