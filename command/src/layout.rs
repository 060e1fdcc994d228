//! The sections and records of a file, for people. What a file is worth the library has judged; this reader
//! follows it as far as its lengths go. A later version of a file is one more list of roles, a later section one
//! more role.

use crate::formulas::{self, Formula};
use crate::output::counted;
use Role::*;

#[derive(Clone, Copy, Debug, PartialEq, Eq)]
pub enum Role {
    Sizes,
    Initial,
    Persistent,
    InUse,
    Clauses,
    Rules,
    /// With a fourth list, the names that a rule makes.
    MakingRules,
    Goals,
    Formulas,
    Trace,
}

/// The sections, in order, of each version of a file; version 1 comes first.
pub type Versions = &'static [&'static [Role]];

pub const MODEL: Versions = &[
    &[Sizes, Initial, Clauses, Rules, Goals],
    &[Sizes, Initial, Persistent, Clauses, Rules, Goals],
    &[Sizes, Initial, Persistent, InUse, Clauses, MakingRules, Goals],
    &[Sizes, Initial, Persistent, InUse, Clauses, MakingRules, Goals, Formulas],
];
pub const TRACE: Versions = &[&[Trace]];

/// The most facts, names and steps. Names are the numbers below theirs, whatever the model.
pub const FACTS: usize = 4_096;
pub const NAMES: usize = 1_024;
pub const STEPS: usize = 1_024;

/// How the records of a section are called, and how many there may be.
pub struct Kind {
    pub word: &'static str,
    pub most: usize,
}

impl Role {
    pub fn section(self) -> &'static str {
        match self {
            Sizes => "sizes",
            Initial => "initial facts",
            Persistent => "persistent facts",
            InUse => "names in use",
            Clauses => "clauses",
            Rules | MakingRules => "rules",
            Goals => "attack states",
            Formulas => "formulas",
            Trace => "goal and steps",
        }
    }

    /// None for a section of bare numbers.
    pub fn kind(self) -> Option<Kind> {
        match self {
            Clauses => Some(Kind { word: "clause", most: 4_096 }),
            Rules | MakingRules => Some(Kind { word: "rule", most: 2_048 }),
            Goals => Some(Kind { word: "goal", most: 64 }),
            Formulas => Some(Kind { word: "formula", most: 64 }),
            Sizes | Initial | Persistent | InUse | Trace => None,
        }
    }
}

/// What a list has the numbers of.
#[derive(Clone, Copy, Debug, PartialEq, Eq)]
pub enum Of {
    Facts,
    Names,
    /// Of a formula: facts and operators.
    Codes,
    /// Sizes and traces, which are told in words of their own.
    Others,
}

impl Of {
    /// One of them.
    pub fn word(self) -> &'static str {
        match self {
            Of::Facts => "fact",
            Of::Names => "name",
            Of::Codes => "code",
            Of::Others => "number",
        }
    }
}

/// One list of a record or of a section of bare numbers: how it is called, its bound, its numbers.
pub struct List {
    pub word: &'static str,
    pub of: Of,
    pub most: usize,
    pub numbers: Vec<usize>,
}

impl List {
    fn new(word: &'static str, of: Of, most: usize, bytes: &[u8]) -> List {
        let numbers = bytes.chunks_exact(2).map(number).collect();
        List { word, of, most, numbers }
    }

    /// Those of its numbers that are facts, or names; some codes are facts.
    pub fn all(&self, of: Of) -> impl Iterator<Item = usize> + '_ {
        let has_facts = (self.of, of) == (Of::Codes, Of::Facts);
        let is_one = move |number| self.of == of || has_facts && formulas::is_fact(number);
        self.numbers.iter().copied().filter(move |number| is_one(*number))
    }
}

/// Big-endian.
fn number(bytes: &[u8]) -> usize {
    bytes.iter().fold(0, |value, byte| value << 8 | *byte as usize)
}

/// The lists of a record (without its length) or of a bare section; or, in words, why its bytes have not that shape.
pub fn lists(role: Role, bytes: &[u8]) -> Result<Vec<List>, String> {
    let size = bytes.len();
    let fits = |is_fit: bool, wanted: &str| match is_fit {
        true => Ok(()),
        false => Err(format!("it has {}, {wanted}", counted(size, "byte"))),
    };
    match role {
        Sizes => {
            fits(size == 2, "exactly 2 were expected")?;
            Ok(vec![List::new("F", Of::Others, 1, bytes)])
        }
        Initial | Persistent => {
            fits(size.is_multiple_of(2), "2 for each fact were expected")?;
            Ok(vec![List::new("list", Of::Facts, FACTS, bytes)])
        }
        InUse => {
            fits(size.is_multiple_of(2), "2 for each name were expected")?;
            Ok(vec![List::new("list", Of::Names, NAMES, bytes)])
        }
        Trace => {
            fits(
                size > 0 && size.is_multiple_of(2),
                "2 for the goal and 2 for each step were expected",
            )?;
            Ok(vec![List::new("list", Of::Others, STEPS + 1, bytes)])
        }
        Clauses => {
            fits(
                size > 0 && size.is_multiple_of(2),
                "2 for the head and 2 for each body fact were expected",
            )?;
            let (head, body) = bytes.split_at(2);
            Ok(vec![List::new("head", Of::Facts, 1, head), List::new("body", Of::Facts, 16, body)])
        }
        Rules => counted_lists(&[P, N, A], bytes),
        MakingRules => counted_lists(&[P, N, A, MADE], bytes),
        Goals => counted_lists(&[P, N], bytes),
        Formulas => {
            fits(size.is_multiple_of(2), "2 for each code were expected")?;
            Ok(vec![List::new("list of codes", Of::Codes, 255, bytes)])
        }
    }
}

/// How a counted list is called, and what it has.
type Called = (&'static str, Of);

const P: Called = ("P", Of::Facts);
const N: Called = ("N", Of::Facts);
const A: Called = ("A", Of::Facts);
const MADE: Called = ("list of names", Of::Names);

/// Lists that each stand behind their count, and fill the record.
fn counted_lists(called: &[Called], bytes: &[u8]) -> Result<Vec<List>, String> {
    let mut rest = bytes;
    let mut out = Vec::new();
    for (word, of) in called {
        let Some((count, after)) = rest.split_at_checked(2) else {
            return Err(format!(
                "it ends where the 2 bytes of the count of its {word} were expected"
            ));
        };
        let count = number(count);
        let Some((numbers, after)) = after.split_at_checked(2 * count) else {
            let (claimed, left) = (counted(count, of.word()), counted(after.len(), "byte"));
            return Err(format!("the count of its {word} says {claimed}, it has {left} more"));
        };
        out.push(List::new(word, *of, 32, numbers));
        rest = after;
    }
    match rest.len() {
        0 => Ok(out),
        left => Err(format!("its lists end {} before it does", counted(left, "byte"))),
    }
}

/// A stretch of a file behind its length: a section or a record. `at` is the length's place.
pub struct Piece<'a> {
    pub at: usize,
    /// What the length says; none where it isn't whole itself.
    pub claimed: Option<usize>,
    pub start: usize,
    /// As far as there are bytes.
    pub bytes: &'a [u8],
}

impl Piece<'_> {
    pub fn is_whole(&self) -> bool {
        self.claimed == Some(self.bytes.len())
    }

    pub fn end(&self) -> usize {
        self.start + self.bytes.len()
    }
}

/// The piece whose length of `wide` bytes stands at a place of these bytes, which start at `base` in their file.
fn piece(bytes: &[u8], base: usize, at: usize, wide: usize) -> Piece<'_> {
    // An empty file ends before its first section.
    let rest = bytes.get(at..).unwrap_or_default();
    let (claimed, inside) = match rest.split_at_checked(wide) {
        Some((length, after)) => (Some(number(length)), after),
        None => (None, &rest[rest.len()..]),
    };
    let size = claimed.unwrap_or(0).min(inside.len());
    let start = base + bytes.len() - inside.len();
    Piece { at: base + at, claimed, start, bytes: &inside[..size] }
}

/// The sections by the file's version, of which there must be one; up to the first that isn't whole, that one included.
pub fn sections(file: &[u8], versions: Versions) -> Vec<(Role, Piece<'_>)> {
    let version = file.first().map_or(0, |byte| *byte as usize);
    let roles = version.checked_sub(1).and_then(|at| versions.get(at));
    let mut out: Vec<(Role, Piece)> = Vec::new();
    for role in roles.copied().unwrap_or_default() {
        let at = out.last().map_or(1, |(_, before)| before.end());
        let next = piece(file, 0, at, 4);
        let is_whole = next.is_whole();
        out.push((*role, next));
        if !is_whole {
            break;
        }
    }
    out
}

/// The records of a section up to the first that isn't whole, that one included.
pub fn records<'a>(section: &Piece<'a>) -> Vec<Piece<'a>> {
    let mut out: Vec<Piece> = Vec::new();
    let mut at = 0;
    while at < section.bytes.len() && out.last().is_none_or(Piece::is_whole) {
        let next = piece(section.bytes, section.start, at, 2);
        at = next.end() - section.start;
        out.push(next);
    }
    out
}

/// A model's lists, as far as it can be followed: all of one that the library has judged to be well-formed.
#[derive(Default)]
pub struct Model {
    pub initial: Vec<usize>,
    /// None where the version has no such section.
    pub persistent: Option<Vec<usize>>,
    /// The names in use at the start, or none likewise.
    pub in_use: Option<Vec<usize>>,
    pub clauses: Vec<Vec<List>>,
    pub rules: Vec<Vec<List>>,
    /// The attack states; the formulas' goal numbers run on from theirs.
    pub goals: Vec<Vec<List>>,
    pub formulas: Option<Vec<Formula>>,
}

impl Model {
    pub fn read(file: &[u8]) -> Model {
        let mut model = Model::default();
        for (role, section) in sections(file, MODEL) {
            let cut = || -> Vec<Vec<List>> {
                records(&section).iter().map_while(|r| lists(role, r.bytes).ok()).collect()
            };
            match role {
                Initial => model.initial = numbers(role, &section),
                Persistent => model.persistent = Some(numbers(role, &section)),
                InUse => model.in_use = Some(numbers(role, &section)),
                Clauses => model.clauses = cut(),
                Rules | MakingRules => model.rules = cut(),
                Goals => model.goals = cut(),
                Formulas => model.formulas = Some(cut().iter().map_while(formula).collect()),
                Sizes | Trace => {}
            }
        }
        model
    }

    /// The goals that are formulas, by number.
    pub fn formulas(&self) -> impl Iterator<Item = (usize, &Formula)> {
        self.formulas.iter().flatten().enumerate().map(|(i, one)| (self.goals.len() + i, one))
    }

    /// The formula of a goal; none where it is an attack state.
    pub fn formula(&self, goal: usize) -> Option<&Formula> {
        self.formulas().find_map(|(number, one)| (number == goal).then_some(one))
    }
}

fn formula(record: &Vec<List>) -> Option<Formula> {
    Formula::read(&record[0].numbers).ok()
}

/// F as the sizes have it, if only they can be followed.
pub fn facts(file: &[u8]) -> usize {
    let cut = sections(file, MODEL);
    cut.first().and_then(|(role, section)| numbers(*role, section).first().copied()).unwrap_or(0)
}

/// How many names a model may speak of: none before version 3.
pub fn names(file: &[u8]) -> usize {
    let has_names = sections(file, MODEL).iter().any(|(role, _)| *role == InUse);
    if has_names {
        NAMES
    } else {
        0
    }
}

/// The numbers of a bare section.
fn numbers(role: Role, section: &Piece) -> Vec<usize> {
    lists(role, section.bytes).map_or(Vec::new(), |mut all| all.remove(0).numbers)
}

/// The goal and the steps that a trace names.
pub fn trace_names(file: &[u8]) -> Vec<usize> {
    sections(file, TRACE).first().map_or(Vec::new(), |(role, section)| numbers(*role, section))
}

/// A trace file.
pub fn trace(goal: usize, steps: &[usize]) -> Vec<u8> {
    let mut out = vec![1];
    out.extend((2 + 2 * steps.len() as u32).to_be_bytes());
    for name in [&[goal], steps].concat() {
        out.extend((name as u16).to_be_bytes());
    }
    out
}

#[cfg(test)]
mod tests {
    use super::*;

    fn numbers(cut: &[Vec<List>]) -> Vec<Vec<Vec<usize>>> {
        let of_record =
            |record: &Vec<List>| record.iter().map(|list| list.numbers.clone()).collect();
        cut.iter().map(of_record).collect()
    }

    fn wide(list: &[u16]) -> Vec<usize> {
        list.iter().map(|number| *number as usize).collect()
    }

    /// A sound model is read as the independent second program reads it.
    #[test]
    fn a_model_is_what_the_second_program_reads() {
        for index in 0..5_000 {
            let file = second::gen::sound(7, index).model;
            let ours = Model::read(&file);
            let theirs = second::parse_model(&file).expect("a sound model");
            let clause = |c: &second::Clause| vec![vec![c.head as usize], wide(&c.body)];
            // A fourth list there is exactly if there is the section of names.
            let most = if theirs.names.is_some() { 4 } else { 3 };
            let rule = |r: &second::Rule| {
                let lists = [&r.pos, &r.neg, &r.add, &r.names].map(|list| wide(list));
                lists[..most].to_vec()
            };
            let goal = |a: &second::Attack| [&a.pos, &a.neg].map(|list| wide(list)).to_vec();
            assert_eq!(facts(&file), theirs.facts as usize, "pair {index}");
            assert_eq!(ours.initial, wide(&theirs.initial), "pair {index}");
            assert_eq!(ours.persistent, theirs.persistent.map(|list| wide(&list)), "pair {index}");
            assert_eq!(names(&file), if theirs.names.is_some() { NAMES } else { 0 });
            assert_eq!(ours.in_use, theirs.names.map(|list| wide(&list)), "pair {index}");
            assert_eq!(numbers(&ours.clauses), Vec::from_iter(theirs.clauses.iter().map(clause)));
            assert_eq!(numbers(&ours.rules), Vec::from_iter(theirs.rules.iter().map(rule)));
            assert_eq!(numbers(&ours.goals), Vec::from_iter(theirs.attacks.iter().map(goal)));
            let codes = |all: &Vec<Formula>| Vec::from_iter(all.iter().map(Formula::codes));
            let wanted = |all: &Vec<Vec<u16>>| Vec::from_iter(all.iter().map(|list| wide(list)));
            assert_eq!(ours.formulas.as_ref().map(codes), theirs.formulas.as_ref().map(wanted));
        }
    }
}
