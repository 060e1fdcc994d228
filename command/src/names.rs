//! Names beside numbers. `NAME.names` beside `NAME.model` has lines `fact 5 edits(ben)`, `rule 0 sign`, `goal 0 ..`,
//! and `name 7 nonce1` for what a model's own names are called; the goals are its attack states and then its formulas.
//! Empty lines and lines that start with # are passed over. A file that doesn't fit its model is told and not used.

use crate::failure::Failure;
use crate::files::read_plain;
use crate::formulas::is_operator;
use crate::judge;
use crate::layout::{self, Of};
use crate::output::{is_plain, named, quoted, tell};
use std::collections::HashMap;
use std::ffi::OsStr;
use std::path::Path;

const KINDS: [&str; 4] = ["fact", "rule", "goal", "name"];

/// How many there are of each kind.
type Most = [usize; KINDS.len()];

/// The most bytes of a names file.
const BYTES: usize = 1 << 20;

#[derive(Default)]
pub struct Names([HashMap<usize, String>; KINDS.len()]);

impl Names {
    /// The names of a model; none where there is no names file, or where the model can't be followed.
    pub fn beside(model_name: &OsStr, model: &[u8]) -> Result<Names, Failure> {
        let path = Path::new(model_name);
        let file = path.with_extension("names");
        let is_there =
            path.extension() == Some("model".as_ref()) && file.symlink_metadata().is_ok();
        let Some(counts) = judge::counts(model).filter(|_| is_there) else {
            return Ok(Names::default());
        };
        let bytes = read_plain(file.as_os_str(), BYTES).map_err(|failure| failure.message);
        let most = [counts.facts, counts.rules, counts.goals, layout::names(model)];
        bytes.and_then(|bytes| parse(&bytes, &most)).or_else(|reason| {
            let shown = quoted(file.as_os_str());
            tell(&format!("the names in {shown} are not used: {reason}"))?;
            Ok(Names::default())
        })
    }

    pub fn fact(&self, number: usize) -> String {
        self.beside_number(0, number)
    }

    pub fn rule(&self, number: usize) -> String {
        self.beside_number(1, number)
    }

    pub fn goal(&self, number: usize) -> String {
        self.beside_number(2, number)
    }

    pub fn name(&self, number: usize) -> String {
        self.beside_number(3, number)
    }

    /// A number of a list.
    pub fn of(&self, of: Of, number: usize) -> String {
        match of {
            Of::Facts => self.fact(number),
            Of::Names => self.name(number),
            Of::Codes | Of::Others => number.to_string(),
        }
    }

    /// A fact as a word of a formula: its name alone if that can be taken for nothing else there, or its number.
    pub fn fact_alone(&self, number: usize) -> String {
        let facts = &self.0[0];
        let Some(name) = facts.get(&number) else { return number.to_string() };
        let is_shared = facts.iter().any(|(other, called)| *other != number && called == name);
        let is_number = name.bytes().all(|byte| byte.is_ascii_digit());
        if is_shared {
            number.to_string()
        } else if is_number || is_operator(name) || !is_closed(name) {
            quoted(name.as_ref())
        } else {
            named(name.as_ref())
        }
    }

    /// The facts that a word stands for: the one of a number, whether the model has it or not, or all that are called
    /// so, with the number before the name or without.
    pub fn facts_called(&self, word: &OsStr) -> Vec<usize> {
        let Some(word) = word.to_str() else { return vec![] };
        if !word.is_empty() && word.bytes().all(|byte| byte.is_ascii_digit()) {
            // A number too large for any is the greatest there is.
            return vec![word.parse().unwrap_or(usize::MAX)];
        }
        let is_called =
            |(number, name): &(&usize, &String)| *name == word || self.fact(**number) == word;
        let mut facts: Vec<usize> = self.0[0].iter().filter(is_called).map(|(n, _)| *n).collect();
        facts.sort_unstable();
        facts
    }

    /// Without any, a list of all facts would say nothing.
    pub fn has_facts(&self) -> bool {
        !self.0[0].is_empty()
    }

    fn beside_number(&self, kind: usize, number: usize) -> String {
        match self.0[kind].get(&number) {
            Some(name) => format!("{number} {name}"),
            None => number.to_string(),
        }
    }
}

fn parse(bytes: &[u8], most: &Most) -> Result<Names, String> {
    if bytes.len() > BYTES {
        return Err(format!("the file has over {BYTES} bytes"));
    }
    let text = std::str::from_utf8(bytes)
        .map_err(|error| format!("byte {} is not text", error.valid_up_to()))?;
    let mut names = Names::default();
    for (index, line) in text.lines().enumerate() {
        if !line.is_empty() && !line.starts_with('#') {
            add(&mut names, line, most)
                .map_err(|reason| format!("line {}: {reason}", index + 1))?;
        }
    }
    Ok(names)
}

fn add(names: &mut Names, line: &str, most: &Most) -> Result<(), String> {
    let (kind, number, name) =
        split(line).ok_or("expected fact, rule, goal or name, a number and what it is called")?;
    let word = KINDS[kind];
    if !line.chars().all(is_plain) {
        return Err("it has a character that isn't plain text".to_string());
    }
    if number >= most[kind] {
        return Err(lacking(word, number, most[kind]));
    }
    match names.0[kind].insert(number, name.to_string()) {
        Some(before) => Err(format!("{word} {number} has a name already, {before}")),
        None => Ok(()),
    }
}

/// Whether no bracket of a name could belong to what stands around it.
fn is_closed(name: &str) -> bool {
    let open = name.chars().try_fold(0_usize, |open, c| match c {
        '(' => Some(open + 1),
        ')' => open.checked_sub(1),
        _ => Some(open),
    });
    open == Some(0) && !name.starts_with('(')
}

/// How many names there are is no figure of the model, so that it is told.
fn lacking(word: &str, number: usize, most: usize) -> String {
    let why = match (word, most) {
        ("name", 0) => ": there are names from version 3 on".to_string(),
        ("name", _) => format!(": a name is at most {}", most - 1),
        _ => String::new(),
    };
    format!("the model has no {word} {number}{why}")
}

/// A line's kind, number and name.
fn split(line: &str) -> Option<(usize, usize, &str)> {
    let mut words = line.splitn(3, ' ');
    let word = words.next()?;
    let kind = KINDS.iter().position(|kind| *kind == word)?;
    let digits = words.next().filter(|digits| digits.bytes().all(|byte| byte.is_ascii_digit()))?;
    let name = words.next()?.trim();
    (!name.is_empty()).then_some((kind, digits.parse().ok()?, name))
}

#[cfg(test)]
mod tests {
    use super::*;

    impl Names {
        /// Facts from 0 on that are called so.
        pub fn of_facts(called: &[&str]) -> Names {
            let mut names = Names::default();
            names.0[0] = called.iter().map(|name| name.to_string()).enumerate().collect();
            names
        }
    }

    /// No name passes for an operator, a bracket, a number or another fact.
    #[test]
    fn names_within_formulas() {
        let called = ["signed(ana)", "p", "Since", "7", "a b", "p", "not)", "(x)", "x'", "and"];
        let names = Names::of_facts(&called);
        for (number, shown) in [
            (0, "signed(ana)"),
            (1, "1"),
            (2, "'Since'"),
            (3, "'7'"),
            (4, "'a b'"),
            (5, "5"),
            (6, "'not)'"),
            (7, "'(x)'"),
            (8, "'x\\''"),
            (9, "'and'"),
            (10, "10"),
        ] {
            assert_eq!(names.fact_alone(number), shown);
        }
    }
}
