//! A limit on the time of a check. A running check can't be stopped from inside its process, so where a limit is
//! set a second process checks, one pair after the other, and is ended when it is too late.

use crate::failure::Failure;
use crate::judge;
use library::{Verdict, VALUES};
use std::io::{self, ErrorKind, Read, Write};
use std::os::fd::OwnedFd;
use std::os::unix::net::UnixStream;
use std::process::{self, Child, Command};
use std::sync::mpsc::channel;
use std::thread;
use std::time::{Duration, Instant};

/// How the second process is started; not for people.
pub const WORD: &str = "--helper";

/// A process that checks, and the line to it.
pub struct Helper {
    child: Child,
    line: UnixStream,
}

impl Helper {
    pub fn start() -> io::Result<Helper> {
        let (line, theirs) = UnixStream::pair()?;
        let [input, output] = [OwnedFd::from(theirs.try_clone()?), OwnedFd::from(theirs)];
        let mut command = Command::new("/proc/self/exe");
        let child = command.arg(WORD).stdin(input).stdout(output).spawn()?;
        Ok(Helper { child, line })
    }

    /// The verdict, or none where there was none in time; then the helper has to go.
    pub fn check(
        &mut self,
        model: &[u8],
        trace: &[u8],
        limit: Duration,
    ) -> io::Result<Option<Verdict>> {
        let until = Instant::now() + limit;
        for file in [model, trace] {
            self.line.write_all(&(file.len() as u32).to_be_bytes())?;
            self.line.write_all(file)?;
        }
        let mut values = [0; 8 * VALUES];
        let mut got = 0;
        while got < values.len() {
            let left = until.saturating_duration_since(Instant::now());
            if left.is_zero() {
                return Ok(None);
            }
            self.line.set_read_timeout(Some(left))?;
            match self.line.read(&mut values[got..]) {
                Ok(0) => return Err(ErrorKind::UnexpectedEof.into()),
                Ok(n) => got += n,
                Err(error) => match error.kind() {
                    ErrorKind::WouldBlock | ErrorKind::TimedOut | ErrorKind::Interrupted => {}
                    _ => return Err(error),
                },
            }
        }
        Ok(Some(verdict(&values)))
    }
}

impl Drop for Helper {
    fn drop(&mut self) {
        // It may have ended by itself.
        let _ = self.child.kill();
        let _ = self.child.wait();
    }
}

/// The second process: answers pairs until the line is closed, and ends then even in the midst of a check.
pub fn serve() -> Result<u8, Failure> {
    let (send, pairs) = channel();
    thread::spawn(move || {
        let mut input = io::stdin().lock();
        while let [Ok(model), Ok(trace)] = [0; 2].map(|_| receive(&mut input)) {
            if send.send((model, trace)).is_err() {
                break;
            }
        }
        process::exit(0);
    });
    let mut output = io::stdout().lock();
    for (model, trace) in pairs {
        let values = values(&judge::check(&model, &trace).verdict);
        if output.write_all(&values).and_then(|()| output.flush()).is_err() {
            break;
        }
    }
    Ok(0)
}

fn receive(input: &mut impl Read) -> io::Result<Vec<u8>> {
    let mut length = [0; 4];
    input.read_exact(&mut length)?;
    let mut bytes = vec![0; u32::from_be_bytes(length) as usize];
    input.read_exact(&mut bytes)?;
    Ok(bytes)
}

/// A verdict's values on the line, eight bytes each.
fn values(verdict: &Verdict) -> Vec<u8> {
    verdict.values().iter().flat_map(|value| value.to_be_bytes()).collect()
}

fn verdict(bytes: &[u8; 8 * VALUES]) -> Verdict {
    let value = |i: usize| bytes[8 * i..][..8].iter().fold(0, |sum, byte| sum << 8 | *byte as u64);
    Verdict::of(std::array::from_fn(value))
}
