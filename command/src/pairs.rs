//! The checks of a night, by a thread for each core. Each name's answer goes to the thread that prints.

use crate::failure::{unanswered, Failure};
use crate::files::{read_model, read_plain, Pair, MODEL_BYTES, TRACE_BYTES};
use crate::helper::Helper;
use crate::identity;
use crate::judge::{self, is_refusal};
use crate::night::Found;
use crate::output::plain;
use crate::places::refusal;
use library::Verdict;
use std::ffi::{OsStr, OsString};
use std::path::PathBuf;
use std::sync::atomic::{AtomicUsize, Ordering};
use std::sync::mpsc::{channel, Receiver, Sender};
use std::sync::Arc;
use std::thread;
use std::time::{Duration, Instant};

/// The one model of all traces.
pub struct Shared {
    pub name: OsString,
    bytes: Vec<u8>,
    sum: String,
}

impl Shared {
    pub fn read(name: &OsStr, is_summed: bool) -> Result<Shared, Failure> {
        let bytes = read_model(name)?;
        let sum = if is_summed { checksum(&bytes, MODEL_BYTES)? } else { String::new() };
        Ok(Shared { name: name.into(), bytes, sum })
    }
}

/// A file over its size isn't read to its end, so that there is nothing to sum.
fn checksum(bytes: &[u8], most: usize) -> Result<String, Failure> {
    if bytes.len() > most {
        return Ok("-".to_string());
    }
    identity::sha256(bytes)
}

/// What is asked for.
pub struct Night {
    pub folder: PathBuf,
    pub names: Vec<Found>,
    pub model: Option<Shared>,
    pub limit: Option<Duration>,
    pub is_tsv: bool,
}

/// A verdict, with the words for a refusal, and the sums of both files where they are asked for.
pub struct Answered {
    pub verdict: Verdict,
    pub words: Option<String>,
    pub sums: [String; 2],
}

/// Why a name has no verdict.
pub enum Trouble {
    NoModel,
    NoTrace,
    NotRead(String),
    NotAnswered,
}

/// What came of one name; a failure ends the night.
pub type Outcome = Result<Answered, Trouble>;

pub struct Answer {
    pub index: usize,
    pub outcome: Result<Outcome, Failure>,
    pub taken: Duration,
}

/// A thread for each core, which takes the next name until there is none.
pub fn start(night: &Arc<Night>) -> Receiver<Answer> {
    let (send, answers) = channel();
    let next = Arc::new(AtomicUsize::new(0));
    let cores = thread::available_parallelism().map_or(1, |count| count.get());
    for _ in 0..cores.min(night.names.len()) {
        let (night, next, send) = (Arc::clone(night), Arc::clone(&next), send.clone());
        thread::spawn(move || night.work(&next, &send));
    }
    answers
}

impl Night {
    fn work(&self, next: &AtomicUsize, send: &Sender<Answer>) {
        let mut helper = None;
        loop {
            let index = next.fetch_add(1, Ordering::Relaxed);
            let Some(found) = self.names.get(index) else { return };
            let begun = Instant::now();
            let outcome = self.judge(found, &mut helper);
            if send.send(Answer { index, outcome, taken: begun.elapsed() }).is_err() {
                return;
            }
        }
    }

    fn judge(&self, found: &Found, helper: &mut Option<Helper>) -> Result<Outcome, Failure> {
        if !found.has_trace {
            return Ok(Err(Trouble::NoTrace));
        }
        if !found.has_model && self.model.is_none() {
            return Ok(Err(Trouble::NoModel));
        }
        let pair = match self.read(found) {
            Ok(pair) => pair,
            Err(failure) => return Ok(Err(Trouble::NotRead(failure.message))),
        };
        let Some(verdict) = self.verdict(&pair, helper)? else {
            return Ok(Err(Trouble::NotAnswered));
        };
        let words = is_refusal(&verdict).then(|| refusal(&verdict, &pair));
        Ok(Ok(Answered { verdict, words, sums: self.sums(&pair)? }))
    }

    /// Both files, the model once for all where it is shared.
    fn read(&self, found: &Found) -> Result<Pair, Failure> {
        let path = |ending: &str| {
            let mut file = found.name.clone();
            file.push(ending);
            self.folder.join(file).into_os_string()
        };
        let (model_name, model) = match &self.model {
            Some(shared) => (shared.name.clone(), shared.bytes.clone()),
            None => (path(".model"), read_plain(&path(".model"), MODEL_BYTES)?),
        };
        let trace_name = path(".trace");
        let trace = read_plain(&trace_name, TRACE_BYTES)?;
        Ok(Pair { model_name, trace_name, model, trace })
    }

    /// In this process, or where there is a limit in a helper, which is then started anew when it was too late.
    fn verdict(
        &self,
        pair: &Pair,
        helper: &mut Option<Helper>,
    ) -> Result<Option<Verdict>, Failure> {
        let Some(limit) = self.limit else {
            return Ok(Some(judge::check(&pair.model, &pair.trace).verdict));
        };
        let failed =
            |error| unanswered(format!("the process that checks failed: {}", plain(&error)));
        let mut running = match helper.take() {
            Some(running) => running,
            None => Helper::start().map_err(failed)?,
        };
        let verdict = running.check(&pair.model, &pair.trace, limit).map_err(failed)?;
        if verdict.is_some() {
            *helper = Some(running);
        }
        Ok(verdict)
    }

    fn sums(&self, pair: &Pair) -> Result<[String; 2], Failure> {
        if !self.is_tsv {
            return Ok([String::new(), String::new()]);
        }
        let model = match &self.model {
            Some(shared) => shared.sum.clone(),
            None => checksum(&pair.model, MODEL_BYTES)?,
        };
        Ok([model, checksum(&pair.trace, TRACE_BYTES)?])
    }
}
