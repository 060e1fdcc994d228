//! A refusal in plain words: which file, which bytes, in which section or record, and what was expected there.
//! The number and the bytes are the library's; the words follow the file to them.

use crate::files::{Pair, MODEL_BYTES, TRACE_BYTES};
use crate::formulas::Formula;
use crate::judge;
use crate::layout::{self, lists, records, sections, Kind, List, Of, Piece, Role, Versions};
use crate::output::{counted, quoted};
use library::Verdict;
use std::ffi::OsStr;

/// More bytes than these are not written out.
const BYTES_SHOWN: usize = 16;

/// Said where this reader and the library don't see the same; no test has found such a file.
const UNPLACED: &str = "which this command can't place: tell its authors";

/// The refusal of a pair.
pub fn refusal(verdict: &Verdict, pair: &Pair) -> String {
    let place = Place { verdict, pair };
    let found = place.words().unwrap_or_else(|| UNPLACED.to_string());
    let (word, name, file) = place.file();
    let span = span(file, verdict.start, verdict.size);
    let (verdict, name, hint) = (judge::name(verdict), quoted(name), mistaken(pair));
    format!("{verdict}: the {word} {name}, {span}, {found}{hint}")
}

/// A file that was named in the other's place. A model that is cut off may look like a trace.
fn mistaken(pair: &Pair) -> &'static str {
    if judge::is_trace(&pair.model) && !judge::is_trace(&pair.trace) {
        " (it was given a trace for the model: are the two files swapped?)"
    } else if judge::counts(&pair.trace).is_some() {
        " (it was given a model for the trace)"
    } else {
        ""
    }
}

/// The bytes at fault with their place, from 0.
fn span(file: &[u8], start: usize, size: usize) -> String {
    let bytes: Vec<String> =
        file.iter().skip(start).take(size).map(|b| format!("{b:02x}")).collect();
    let shown = match bytes.len() {
        0..=BYTES_SHOWN => bytes.join(" "),
        _ => format!("{} ..", bytes[..BYTES_SHOWN].join(" ")),
    };
    match size {
        0 => format!("before byte {start}"),
        1 => format!("byte {start} ({shown})"),
        _ => format!("bytes {start} to {} ({shown})", start + size - 1),
    }
}

struct Place<'a> {
    verdict: &'a Verdict,
    pair: &'a Pair,
}

impl Place<'_> {
    /// The file at fault: what it is, its name and its bytes.
    fn file(&self) -> (&'static str, &OsStr, &[u8]) {
        match self.verdict.mark {
            0 => ("model", &self.pair.model_name, &self.pair.model),
            _ => ("trace", &self.pair.trace_name, &self.pair.trace),
        }
    }

    fn versions(&self) -> Versions {
        match self.verdict.mark {
            0 => layout::MODEL,
            _ => layout::TRACE,
        }
    }

    /// Where the bytes lie and what was expected; none where this reader and the library don't see the same.
    fn words(&self) -> Option<String> {
        let (word, _, file) = self.file();
        let most = if self.verdict.mark == 0 { MODEL_BYTES } else { TRACE_BYTES };
        match self.verdict.number {
            2 => Some(format!("the whole file: a {word} has at most {most} bytes")),
            3 if file.is_empty() => Some(format!(
                "the file is empty: a {word} starts with the version, {}",
                any_of(self.versions(), 1)
            )),
            3 => Some(format!("the version: a {word} starts with {}", any_of(self.versions(), 2))),
            9 => self.lacking(),
            _ => self.in_section(),
        }
    }

    /// NAME: a goal or a rule that the model lacks.
    fn lacking(&self) -> Option<String> {
        let index = self.verdict.start.checked_sub(5)? / 2;
        let number = *layout::trace_names(&self.pair.trace).get(index)?;
        let counts = judge::counts(&self.pair.model)?;
        let (place, word, count) = match index {
            0 => ("the goal".to_string(), "goal", counts.goals),
            _ => (format!("step {}", index - 1), "rule", counts.rules),
        };
        Some(format!(
            "{place}: it names {word} {number}, and the model has {}",
            numbered(word, count)
        ))
    }

    /// 4 to 7, 12 and 17: the section first.
    fn in_section(&self) -> Option<String> {
        let (_, _, file) = self.file();
        let all = sections(file, self.versions());
        let start = self.verdict.start;
        let at_fault = all.iter().find(|(role, s)| !s.is_whole() || self.is_in(*role, s));
        let Some((role, section)) = at_fault else {
            let end = all.last()?.1.end();
            let left = format!("after the last section, which ends at byte {end}");
            return (start == end).then(|| format!("{left}: nothing was expected"));
        };
        let word = role.section();
        if !section.is_whole() {
            let found = short(section, file.len(), 4, "the file");
            return (start == section.at).then(|| format!("section {word}: {found}"));
        }
        Some(match role.kind() {
            Some(kind) => format!("section {word}, {}", self.in_record(*role, &kind, section)?),
            None => format!("section {word}: {}", self.in_lists(*role, section.bytes)?),
        })
    }

    /// Whether a section has the bytes at fault: in one of its records, or it is they.
    fn is_in(&self, role: Role, section: &Piece) -> bool {
        let (start, size) = (self.verdict.start, self.verdict.size);
        match role.kind() {
            Some(_) => section.start <= start && start < section.end(),
            // An empty list of facts or names is fine; empty sizes and an empty trace are not.
            None if size == 0 && !matches!(role, Role::Sizes | Role::Trace) => false,
            None => (start, size) == (section.start, section.bytes.len()),
        }
    }

    /// Then the record.
    fn in_record(&self, role: Role, kind: &Kind, section: &Piece) -> Option<String> {
        let cut = records(section);
        let number = cut.iter().position(|record| record.at == self.verdict.start)?;
        let record = &cut[number];
        let found = if !record.is_whole() {
            short(record, section.end(), 2, "its section")
        } else if self.verdict.number == 5 && number >= kind.most {
            format!("a model has at most {} of them", kind.most)
        } else {
            self.in_lists(role, record.bytes)?
        };
        Some(format!("{} {number}: {found}", kind.word))
    }

    /// Then the list and the number in it.
    fn in_lists(&self, role: Role, bytes: &[u8]) -> Option<String> {
        let cut = match lists(role, bytes) {
            Err(found) => return (self.verdict.number == 4).then_some(found),
            Ok(cut) => cut,
        };
        match self.verdict.number {
            5 => cut.iter().find_map(|list| too_many(role, list)),
            6 => {
                // The library counts no model that it refuses.
                let facts = layout::facts(&self.pair.model);
                let (fact, list) = beyond(&cut, Of::Facts, facts)?;
                let known = numbered("fact", facts);
                Some(format!("fact {fact} stands in its {list}, and the model has {known}"))
            }
            7 => cut.iter().find_map(|list| {
                let two = list.numbers.windows(2).find(|two| two[0] >= two[1])?;
                let ([first, then], what) = ([two[0], two[1]], list.of.word());
                Some(format!(
                    "in its {} {what} {first} stands before {what} {then}: {what}s ascend",
                    list.word
                ))
            }),
            12 => {
                let (name, list) = beyond(&cut, Of::Names, layout::NAMES)?;
                let most = layout::NAMES - 1;
                Some(format!("name {name} stands in its {list}, and a name is at most {most}"))
            }
            17 => Formula::read(&cut.first()?.numbers).err(),
            _ => None,
        }
    }
}

/// The first of these numbers that isn't below the end, and how its list is called.
fn beyond(cut: &[List], of: Of, end: usize) -> Option<(usize, &'static str)> {
    cut.iter().find_map(|list| {
        let number = list.all(of).find(|number| *number >= end)?;
        Some((number, list.word))
    })
}

/// The versions that there are, of so many digits: "01, 02 or 03".
fn any_of(versions: Versions, digits: usize) -> String {
    let all: Vec<String> = (1..=versions.len()).map(|n| format!("{n:0digits$}")).collect();
    match all.split_last() {
        Some((last, others @ [_, ..])) => format!("{} or {last}", others.join(", ")),
        _ => all.concat(),
    }
}

/// A length that isn't whole or says more than there is up to `end`.
fn short(piece: &Piece, end: usize, wide: usize, around: &str) -> String {
    match piece.claimed {
        None => {
            let left = counted(end - piece.at, "byte");
            format!("its length of {wide} bytes was expected, {around} has {left} more")
        }
        Some(claimed) => {
            let (claimed, left) = (counted(claimed, "byte"), counted(piece.bytes.len(), "byte"));
            format!("its length says {claimed}, {around} has {left} more")
        }
    }
}

/// COUNT in a record or a bare section.
fn too_many(role: Role, list: &List) -> Option<String> {
    let count = list.numbers.len();
    match role {
        Role::Sizes => {
            Some(format!("F is {}, and at most {} is allowed", list.numbers[0], layout::FACTS))
        }
        Role::Trace => {
            Some(format!("it has {} steps, and at most {} are allowed", count - 1, layout::STEPS))
        }
        _ if count > list.most => Some(format!(
            "its {} has {count} {}s, and at most {} are allowed",
            list.word,
            list.of.word(),
            list.most
        )),
        _ => None,
    }
}

/// "no rule", "rule 0 only", "rules 0 to 4".
fn numbered(word: &str, count: usize) -> String {
    match count {
        0 => format!("no {word}"),
        1 => format!("{word} 0 only"),
        _ => format!("{word}s 0 to {}", count - 1),
    }
}

#[cfg(test)]
mod tests {
    use super::*;

    /// What versions 2 to 4 add, by its words, with the numbers that it is refused with.
    const ADDED: [(&str, &[usize]); 4] = [
        ("section persistent facts: ", &[4, 6, 7]),
        ("section names in use: ", &[4, 7, 12]),
        (" its list of names", &[4, 5, 7, 12]),
        ("section formulas, formula ", &[4, 5, 6, 17]),
    ];

    /// Every refusal of many damaged pairs is placed, and each number occurs, also in what later versions add.
    #[test]
    fn every_refusal_has_its_words() {
        let mut seen = [0; library::NAMES.len()];
        let mut added = [seen; ADDED.len()];
        for index in 0..10_000 {
            let second::gen::Pair { model, trace, .. } = second::gen::damaged(5, index);
            let verdict = judge::check(&model, &trace).verdict;
            seen[verdict.number as usize] += 1;
            let [model_name, trace_name] = ["m", "t"].map(Into::into);
            let pair = Pair { model_name, trace_name, model, trace };
            if judge::is_refusal(&verdict) {
                let words = refusal(&verdict, &pair);
                assert!(!words.contains(UNPLACED), "pair {index}: {words}");
                for (counts, (part, _)) in added.iter_mut().zip(ADDED) {
                    counts[verdict.number as usize] += words.contains(part) as usize;
                }
            }
        }
        let refusals = [2, 3, 4, 5, 6, 7, 9, 12, 17].map(|number| seen[number]);
        assert!(refusals.iter().all(|count| *count > 10), "too few of some number: {seen:?}");
        for (counts, (part, numbers)) in added.iter().zip(ADDED) {
            let is_seen = numbers.iter().all(|number| counts[*number] > 10);
            assert!(is_seen, "too few of some of {part}: {counts:?}");
        }
    }
}
