//! What a night prints, in the order of the names. What happened stands first on a line and the file's name last,
//! so that no name can pass for a verdict.

use crate::failure::{unanswered, Failure};
use crate::identity;
use crate::judge;
use crate::output::{counted, escaped, listed, named, tell, Output, Progress};
use crate::pairs::{Answer, Answered, Night, Outcome, Trouble};
use std::collections::{BTreeMap, BTreeSet};
use std::ffi::OsStr;
use std::sync::mpsc::{Receiver, RecvTimeoutError};
use std::time::{Duration, Instant};

/// The width of the verdict's line, so that names stand below each other.
const WIDTH: usize = 72;

/// A pair that takes longer is told with its time.
const SLOW: Duration = Duration::from_secs(1);

/// The table's columns; those from the verdict to round are the line's.
const COLUMNS: [&str; 15] = [
    "name",
    "verdict",
    "step",
    "fact",
    "rounds",
    "held",
    "kind",
    "round",
    "file",
    "start",
    "size",
    "model_sha256",
    "trace_sha256",
    "seconds",
    "checker",
];

/// Prints the answers, and keeps what the end tells.
pub struct Report<'a> {
    night: &'a Night,
    only: BTreeSet<&'static str>,
    output: Output,
    progress: Progress,
    begun: Instant,
    counts: BTreeMap<&'static str, usize>,
    pairs: usize,
    /// For the end: refused, without a partner, not read, not answered.
    listed: [Vec<String>; 4],
}

const REFUSED: usize = 0;
const ALONE: usize = 1;
const UNREAD: usize = 2;
const LATE: usize = 3;

impl<'a> Report<'a> {
    pub fn new(night: &'a Night, only: BTreeSet<&'static str>) -> Result<Report<'a>, Failure> {
        let mut output = Output::open()?;
        if night.is_tsv {
            output.line(&COLUMNS.join("\t"))?;
        }
        let (counts, listed) = (BTreeMap::new(), Default::default());
        let (progress, begun) = (Progress::new(), Instant::now());
        Ok(Report { night, only, output, progress, begun, counts, pairs: 0, listed })
    }

    /// Every answer in its place, as soon as those before it are there.
    pub fn collect(&mut self, answers: &Receiver<Answer>) -> Result<(), Failure> {
        let total = self.night.names.len();
        let mut early: BTreeMap<usize, Answer> = BTreeMap::new();
        let (mut done, mut printed) = (0, 0);
        while printed < total {
            match answers.recv_timeout(Duration::from_millis(200)) {
                Ok(answer) => {
                    done += 1;
                    early.insert(answer.index, answer);
                }
                Err(RecvTimeoutError::Timeout) => self.wait(done, printed)?,
                Err(RecvTimeoutError::Disconnected) => {
                    return Err(unanswered("a check ended without an answer"));
                }
            }
            while let Some(answer) = early.remove(&printed) {
                printed += 1;
                self.tell(answer)?;
            }
        }
        self.progress.clear();
        Ok(())
    }

    /// Nothing came for a while: what is there is written, and a terminal sees how far it is.
    fn wait(&mut self, done: usize, printed: usize) -> Result<(), Failure> {
        self.progress.clear();
        self.output.flush()?;
        let (total, name) = (self.night.names.len(), named(&self.night.names[printed].name));
        let taken = self.begun.elapsed().as_secs();
        self.progress.show(&format!("{done} of {total} done in {taken} s, waiting for {name}"));
        Ok(())
    }

    fn tell(&mut self, answer: Answer) -> Result<(), Failure> {
        let name = &self.night.names[answer.index].name;
        let outcome = answer.outcome?;
        let is_shown = self.count(name, &outcome);
        self.progress.clear();
        if answer.taken > SLOW && outcome.is_ok() {
            tell(&format!("{} took {:.1} s", named(name), answer.taken.as_secs_f64()))?;
        }
        if !is_shown {
            return Ok(());
        }
        let line = match self.night.is_tsv {
            true => row(name, &outcome, answer.taken),
            false => format!("{:<WIDTH$}  {}", self.what(&outcome), named(name)),
        };
        self.output.line(&line)
    }

    /// Adds to what the end tells, and answers whether the name has a line of its own.
    fn count(&mut self, name: &OsStr, outcome: &Outcome) -> bool {
        let name = named(name);
        let trouble = match outcome {
            Ok(Answered { verdict, words, .. }) => {
                self.pairs += 1;
                let verdict = judge::name(verdict);
                *self.counts.entry(verdict).or_default() += 1;
                if let Some(words) = words {
                    self.listed[REFUSED].push(format!("{name}: {words}"));
                }
                return self.only.is_empty() || self.only.contains(verdict);
            }
            Err(trouble) => trouble,
        };
        let (which, text) = match trouble {
            Trouble::NoModel => (ALONE, format!("{name}.trace")),
            Trouble::NoTrace => (ALONE, format!("{name}.model")),
            Trouble::NotRead(reason) => (UNREAD, format!("{name}: {reason}")),
            Trouble::NotAnswered => (LATE, name),
        };
        self.pairs += (which != ALONE) as usize;
        self.listed[which].push(text);
        self.only.is_empty()
    }

    fn what(&self, outcome: &Outcome) -> String {
        match outcome {
            Ok(answered) => answered.verdict.line(),
            Err(Trouble::NotAnswered) => self.late(),
            Err(trouble) => word(trouble).to_string(),
        }
    }

    fn late(&self) -> String {
        let limit = self.night.limit.unwrap_or_default().as_secs_f64();
        format!("not answered within {limit} s")
    }

    /// The counting line and the lists: a report's last lines, for other programs on standard error.
    pub fn finish(&mut self) -> Result<u8, Failure> {
        let mut lines = vec![self.summary()];
        for (which, word) in [(REFUSED, "refused"), (UNREAD, "not read")] {
            lines.extend(self.listed[which].iter().map(|entry| format!("{word}: {entry}")));
        }
        for (which, words) in [(ALONE, "without a partner"), (LATE, &self.late())] {
            if !self.listed[which].is_empty() {
                lines.push(format!("{words}: {}", self.listed[which].join(", ")));
            }
        }
        lines.extend(self.hint());
        for line in lines {
            match self.night.is_tsv {
                true => tell(&line)?,
                false => self.output.line(&line)?,
            }
        }
        self.output.flush()?;
        let is_whole = self.listed[ALONE..].iter().all(Vec::is_empty);
        Ok(if is_whole { 0 } else { 1 })
    }

    fn summary(&self) -> String {
        let [alone, unread, late] = [ALONE, UNREAD, LATE].map(|which| self.listed[which].len());
        let (of_what, alone) = match &self.night.model {
            Some(shared) => (
                format!("{} with {}", counted(self.pairs, "trace"), named(&shared.name)),
                String::new(),
            ),
            None => (counted(self.pairs, "pair"), format!("{alone} without a partner, ")),
        };
        let counts = self.counts.iter().map(|(name, count)| format!("{name} {count}"));
        let verdicts = if self.counts.is_empty() {
            String::new()
        } else {
            format!(": {}", listed(counts, usize::MAX))
        };
        let late = match self.night.limit {
            Some(_) => format!(", {late} {}", self.late()),
            None => String::new(),
        };
        format!("{of_what}{verdicts}; {alone}{unread} not read{late}")
    }

    /// A folder with one model and traces of other names is meant for that model.
    fn hint(&self) -> Option<String> {
        let mut models = self.night.names.iter().filter(|found| found.has_model);
        let only = models.next().filter(|_| models.next().is_none() && self.pairs == 0)?;
        let (folder, mut file) = (&self.night.folder, only.name.clone());
        file.push(".model");
        let [shown, model] =
            [folder.clone(), folder.join(file)].map(|path| named(path.as_os_str()));
        Some(format!(
            "to check all traces with the one model: cantivorex night {shown} --model {model}"
        ))
    }
}

fn word(trouble: &Trouble) -> &'static str {
    match trouble {
        Trouble::NoModel => "no model",
        Trouble::NoTrace => "no trace",
        Trouble::NotRead(_) => "not read",
        Trouble::NotAnswered => "not answered",
    }
}

/// A row of the table; what there is none of is a dash.
fn row(name: &OsStr, outcome: &Outcome, taken: Duration) -> String {
    let mut columns = vec![escaped(name)];
    match outcome {
        Ok(Answered { verdict, sums, .. }) => {
            // The line is the verdict's name, then names and values by turns.
            columns.extend(verdict.line().split(' ').step_by(2).map(String::from));
            let file = if verdict.mark == 0 { "model" } else { "trace" };
            columns.extend([file.to_string(), verdict.start.to_string(), verdict.size.to_string()]);
            columns.extend(sums.clone());
        }
        Err(trouble) => {
            columns.push(word(trouble).to_string());
            columns.resize(COLUMNS.len() - 2, "-".to_string());
        }
    }
    columns.extend([format!("{:.3}", taken.as_secs_f64()), identity::version()]);
    columns.join("\t")
}
