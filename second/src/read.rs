//! From bytes to owned lists, or to the first fault in the fixed order.

use crate::formula::{self, OPERATORS};
use crate::{
    Fault, BADNAME, COUNT, FACT, FORMULA, LONG, MODEL, NAME, ORDER, SHAPE, TRACE, VERSION,
};

#[derive(Clone, Debug, Default, PartialEq, Eq)]
pub struct Clause {
    pub head: u16,
    pub body: Vec<u16>,
}

#[derive(Clone, Debug, Default, PartialEq, Eq)]
pub struct Rule {
    pub pos: Vec<u16>,
    pub neg: Vec<u16>,
    pub add: Vec<u16>,
    /// The names it makes; only versions 3 and 4 have the list.
    pub names: Vec<u16>,
}

#[derive(Clone, Debug, Default, PartialEq, Eq)]
pub struct Attack {
    pub pos: Vec<u16>,
    pub neg: Vec<u16>,
}

#[derive(Clone, Debug, Default, PartialEq, Eq)]
pub struct Model {
    pub facts: u16,
    pub initial: Vec<u16>,
    /// Versions 2 to 4 have the section, even if it is empty; version 1 has none.
    pub persistent: Option<Vec<u16>>,
    /// The names in use at the start: only versions 3 and 4 have the section.
    pub names: Option<Vec<u16>>,
    pub clauses: Vec<Clause>,
    pub rules: Vec<Rule>,
    pub attacks: Vec<Attack>,
    /// The formulas as codes: only version 4 has the section.
    pub formulas: Option<Vec<Vec<u16>>>,
}

impl Model {
    /// How many goals can be named: the formulas' numbers run on from the attack states.
    pub fn goals(&self) -> usize {
        self.attacks.len() + self.formulas.iter().flatten().count()
    }
}

#[derive(Clone, Debug, Default, PartialEq, Eq)]
pub struct Trace {
    pub goal: u16,
    pub steps: Vec<u16>,
}

#[derive(Clone, Debug, PartialEq, Eq)]
pub struct Parsed {
    pub model: Model,
    pub trace: Trace,
    /// Each goal's record with its length, since NOATTACK hands it back.
    pub goal_places: Vec<Part>,
}

/// A stretch of one file.
#[derive(Clone, Copy, Debug, PartialEq, Eq)]
pub struct Part {
    pub start: usize,
    pub len: usize,
}

impl Part {
    fn end(self) -> usize {
        self.start + self.len
    }
    fn of(self, file: &[u8]) -> &[u8] {
        &file[self.start..self.end()]
    }
}

/// A fault inside one file; the mark is put on by whoever knows which file it is.
type Fail = (u8, Part);

fn fail_if(bad: bool, number: u8, part: Part) -> Result<(), Fail> {
    if bad {
        return Err((number, part));
    }
    Ok(())
}

fn in_model((number, Part { start, len }): Fail) -> Fault {
    Fault { number, mark: MODEL, start, len }
}

fn in_trace((number, Part { start, len }): Fail) -> Fault {
    Fault { number, mark: TRACE, start, len }
}

/// The first bytes that there are.
const MODEL_VERSIONS: &[u8] = &[1, 2, 3, 4];
const TRACE_VERSIONS: &[u8] = &[1];

/// Everything judged before the first step, buffers apart: numbers 2 to 9, 12 and 17.
pub fn parse(model: &[u8], trace: &[u8]) -> Result<Parsed, Fault> {
    parse_for(model, trace, |_| Ok(()))
}

/// The same with a refusal that hangs on the model: it comes after all of the model's, and before the
/// trace's but for 2 and 3.
pub(crate) fn parse_for(
    model: &[u8],
    trace: &[u8],
    judge: impl FnOnce(&Model) -> Result<(), Fault>,
) -> Result<Parsed, Fault> {
    judge_size(model, 65_536).map_err(in_model)?;
    judge_size(trace, 4_096).map_err(in_trace)?;
    judge_version(model, MODEL_VERSIONS).map_err(in_model)?;
    judge_version(trace, TRACE_VERSIONS).map_err(in_trace)?;
    let (model, goal_places) = read_model(model).map_err(in_model)?;
    judge(&model)?;
    let trace = read_trace(trace, &model).map_err(in_trace)?;
    Ok(Parsed { model, trace, goal_places })
}

/// The model's share of that, numbers 2 to 7, 12 and 17, for closing called by itself.
pub fn parse_model(model: &[u8]) -> Result<Model, Fault> {
    judge_size(model, 65_536).map_err(in_model)?;
    judge_version(model, MODEL_VERSIONS).map_err(in_model)?;
    let (model, _) = read_model(model).map_err(in_model)?;
    Ok(model)
}

fn judge_size(file: &[u8], most: usize) -> Result<(), Fail> {
    fail_if(file.len() > most, LONG, rest_of(file, 0))
}

fn judge_version(file: &[u8], known: &[u8]) -> Result<(), Fail> {
    let is_known = file.first().is_some_and(|version| known.contains(version));
    fail_if(!is_known, VERSION, Part { start: 0, len: file.len().min(1) })
}

fn rest_of(file: &[u8], start: usize) -> Part {
    Part { start, len: file.len() - start }
}

/// The payload of the section whose length stands at `at`.
fn section(file: &[u8], at: usize) -> Result<Part, Fail> {
    let rest = rest_of(file, at);
    fail_if(rest.len < 4, SHAPE, rest)?;
    let len = u32::from_be_bytes([file[at], file[at + 1], file[at + 2], file[at + 3]]) as usize;
    fail_if(len > rest.len - 4, SHAPE, rest)?;
    Ok(Part { start: at + 4, len })
}

fn judge_tail(file: &[u8], last: Part) -> Result<(), Fail> {
    fail_if(last.end() < file.len(), SHAPE, rest_of(file, last.end()))
}

pub(crate) fn numbers(bytes: &[u8]) -> Vec<u16> {
    bytes.chunks_exact(2).map(|b| u16::from_be_bytes([b[0], b[1]])).collect()
}

fn ascending(list: &[u16]) -> bool {
    list.windows(2).all(|w| w[0] < w[1])
}

fn read_model(file: &[u8]) -> Result<(Model, Vec<Part>), Fail> {
    let sizes = section(file, 1)?;
    let facts = read_sizes(sizes.of(file), sizes)?;
    let below_f = Below { end: facts, number: FACT };
    let (end, initial) = read_bare(file, sizes.end(), below_f)?;
    let (end, persistent) = read_later(file, end, PERSISTENT, below_f)?;
    let (end, names) = read_later(file, end, NAMES_IN_USE, A_NAME)?;
    let rule_kind = if names.is_some() { &RULE_WITH_NAMES } else { &RULE };
    let (end, clauses) = read_lists(file, end.end(), facts, &CLAUSE)?;
    let (end, rules) = read_lists(file, end.end(), facts, rule_kind)?;
    let (end, attacks) = read_lists(file, end.end(), facts, &ATTACK_STATE)?;
    let (end, formulas) = read_formulas(file, end, facts)?;
    judge_tail(file, end)?;

    let attack_places = attacks.iter().map(|(part, _)| *part);
    let formula_places = formulas.iter().flatten().map(|(part, _)| *part);
    let goal_places = attack_places.chain(formula_places).collect();
    let model = Model {
        facts,
        initial,
        persistent,
        names,
        clauses: clauses.into_iter().map(|(_, split)| clause(split)).collect(),
        rules: rules.into_iter().map(|(_, split)| rule(split)).collect(),
        attacks: attacks.into_iter().map(|(_, split)| attack(split)).collect(),
        formulas: formulas.map(|all| all.into_iter().map(|(_, codes)| codes).collect()),
    };
    Ok((model, goal_places))
}

/// Where the clause section's bytes lie in a model already found well-formed.
pub(crate) fn clause_section(model: &[u8]) -> Option<Part> {
    section_part(model, bare_sections(model))
}

/// The bytes of a section, counted from 0, or the rest from its length on where that doesn't fit. None if the ones
/// before it don't fit.
pub(crate) fn section_part(model: &[u8], index: usize) -> Option<Part> {
    let mut at = 1;
    for _ in 0..index {
        at = section(model, at).ok()?.end();
    }
    Some(section(model, at).unwrap_or_else(|(_, rest)| rest))
}

/// The initial facts of a file, as far as they can be followed.
pub(crate) fn initial_in(model: &[u8]) -> Vec<u16> {
    let all = if model.is_empty() { None } else { section_part(model, 1) };
    all.map_or(Vec::new(), |part| numbers(part.of(model)))
}

/// The body places of a file's clauses, as far as they can be followed.
pub(crate) fn places_in(model: &[u8]) -> usize {
    let clauses = records_in(model, 0);
    clauses.iter().map(|record| record.len.saturating_sub(4) / 2).sum()
}

/// The rules of a file likewise.
pub(crate) fn rules_in(model: &[u8]) -> usize {
    records_in(model, 1).len()
}

/// The records of a section, the clauses being 0, with their lengths.
fn records_in(model: &[u8], section: usize) -> Vec<Part> {
    let section = || section_part(model, bare_sections(model) + section);
    let all = if model.is_empty() { None } else { section() };
    let Some(Part { mut start, len }) = all else { return Vec::new() };
    let (end, mut records) = (start + len, Vec::new());
    while let Ok(record) = record_place(model, Part { start, len: end - start }) {
        records.push(record);
        start = record.end();
    }
    records
}

/// What the names of a rule's record are refused with if nothing else in it is: SHAPE, COUNT, BADNAME or ORDER.
pub(crate) fn names_at_fault(model: &[u8], record: Part) -> Option<u8> {
    let rules = section_part(model, NAMES_IN_USE + 2)?;
    let is_rule = rules.start <= record.start && record.end() <= rules.end() && record.len > 2;
    if bare_sections(model) <= NAMES_IN_USE || !is_rule {
        return None;
    }
    let mut rest = &record.of(model)[2..];
    for _ in 0..3 {
        rest = take_list(rest)?.1;
    }
    let Some(Split { lists, .. }) = split_lists(rest, 1) else { return Some(SHAPE) };
    let fourth = Split { head: None, lists: [vec![Vec::new(); 3], lists].concat() };
    judge_record(&fourth, 0, 0, &RULE_WITH_NAMES).err()
}

/// The indices of the sections that versions 2, 3 and 4 add.
pub(crate) const PERSISTENT: usize = 2;
pub(crate) const NAMES_IN_USE: usize = 3;
pub(crate) const FORMULAS: usize = 7;

/// How many sections of bare numbers a model has, which stand before the clauses: version 2 and
/// version 3 have one more each.
pub(crate) fn bare_sections(model: &[u8]) -> usize {
    match model.first() {
        Some(2) => 3,
        Some(3 | 4) => 4,
        _ => 2,
    }
}

/// How many sections a model has: three of records, and a fourth in version 4.
pub(crate) fn sections(model: &[u8]) -> usize {
    let formulas = model.first() == Some(&4);
    bare_sections(model) + 3 + formulas as usize
}

fn read_sizes(bytes: &[u8], part: Part) -> Result<u16, Fail> {
    let [high, low] = *bytes else { return Err((SHAPE, part)) };
    let facts = u16::from_be_bytes([high, low]);
    fail_if(facts > 4_096, COUNT, part)?;
    Ok(facts)
}

/// What the numbers of a list stay below, and what is said of one that doesn't.
#[derive(Clone, Copy)]
struct Below {
    end: u16,
    number: u8,
}

const A_NAME: Below = Below { end: 1_024, number: BADNAME };

impl Below {
    fn is_passed<'a>(self, mut list: impl Iterator<Item = &'a u16>) -> bool {
        list.any(|n| *n >= self.end)
    }
}

/// The section whose length stands at `at`, as a list of facts or names.
fn read_bare(file: &[u8], at: usize, below: Below) -> Result<(Part, Vec<u16>), Fail> {
    let part = section(file, at)?;
    fail_if(part.len % 2 == 1, SHAPE, part)?;
    let list = numbers(part.of(file));
    fail_if(below.is_passed(list.iter()), below.number, part)?;
    fail_if(!ascending(&list), ORDER, part)?;
    Ok((part, list))
}

/// A section by its index, behind the last one read, if the version has it; and the last one read then.
fn read_later(
    file: &[u8],
    last: Part,
    index: usize,
    below: Below,
) -> Result<(Part, Option<Vec<u16>>), Fail> {
    if index >= bare_sections(file) {
        return Ok((last, None));
    }
    let (part, list) = read_bare(file, last.end(), below)?;
    Ok((part, Some(list)))
}

/// A record taken apart: a clause has a head and one list, the others only lists.
struct Split {
    head: Option<u16>,
    lists: Vec<Vec<u16>>,
}

/// A section, and its records with their places.
type Records<T> = (Part, Vec<(Part, T)>);

/// What tells the three sections with records of lists apart.
struct Kind {
    most: usize,
    longest: usize,
    split: fn(&[u8]) -> Option<Split>,
}

const CLAUSE: Kind = Kind { most: 4_096, longest: 16, split: split_clause };
const RULE: Kind = Kind { most: 2_048, longest: 32, split: |bytes| split_lists(bytes, 3) };
const RULE_WITH_NAMES: Kind = Kind { split: |bytes| split_lists(bytes, 4), ..RULE };
const ATTACK_STATE: Kind = Kind { most: 64, longest: 32, split: |bytes| split_lists(bytes, 2) };

/// Each record is judged in full before the next one is looked at; `read` gets its bytes and its number.
fn read_records<T>(
    file: &[u8],
    at: usize,
    read: impl Fn(&[u8], usize) -> Result<T, u8>,
) -> Result<Records<T>, Fail> {
    let whole = section(file, at)?;
    let mut records = Vec::new();
    let mut at = whole.start;
    while at < whole.end() {
        let part = record_place(file, Part { start: at, len: whole.end() - at })?;
        let record = read(&part.of(file)[2..], records.len()).map_err(|number| (number, part))?;
        records.push((part, record));
        at = part.end();
    }
    Ok((whole, records))
}

fn read_lists(file: &[u8], at: usize, facts: u16, kind: &Kind) -> Result<Records<Split>, Fail> {
    read_records(file, at, |bytes, index| {
        let split = (kind.split)(bytes).ok_or(SHAPE)?;
        judge_record(&split, index, facts, kind)?;
        Ok(split)
    })
}

/// The last section, if the version has it, behind the attack states; and the last one read then.
fn read_formulas(
    file: &[u8],
    last: Part,
    facts: u16,
) -> Result<(Part, Option<Vec<(Part, Vec<u16>)>>), Fail> {
    if sections(file) <= FORMULAS {
        return Ok((last, None));
    }
    let read = |bytes: &[u8], index: usize| read_formula(bytes, index, facts);
    let (whole, formulas) = read_records(file, last.end(), read)?;
    Ok((whole, Some(formulas)))
}

/// A formula's codes. Its passes: shape, bounds, facts wherever they stand, and last whether it is one.
fn read_formula(bytes: &[u8], index: usize, facts: u16) -> Result<Vec<u16>, u8> {
    let codes = numbers(bytes);
    if bytes.len() % 2 == 1 {
        return Err(SHAPE);
    }
    if index >= 64 || codes.len() > 255 {
        return Err(COUNT);
    }
    if codes.iter().any(|code| *code < OPERATORS && *code >= facts) {
        return Err(FACT);
    }
    formula::read(&codes).map_err(|_| FORMULA)?;
    Ok(codes)
}

/// The record at the start of what is left of its section, length included.
fn record_place(file: &[u8], left: Part) -> Result<Part, Fail> {
    fail_if(left.len < 2, SHAPE, left)?;
    let len = 2 + u16::from_be_bytes([file[left.start], file[left.start + 1]]) as usize;
    fail_if(len > left.len, SHAPE, left)?;
    Ok(Part { start: left.start, len })
}

/// The passes after the shape: bounds, then facts, then names, then order.
fn judge_record(split: &Split, index: usize, facts: u16, kind: &Kind) -> Result<(), u8> {
    let lists = &split.lists;
    // Only a rule has a fourth list, and only that one has names.
    let (of_facts, of_names) = lists.split_at(lists.len().min(3));
    if index >= kind.most || lists.iter().any(|list| list.len() > kind.longest) {
        return Err(COUNT);
    }
    if split.head.iter().chain(of_facts.iter().flatten()).any(|f| *f >= facts) {
        return Err(FACT);
    }
    if A_NAME.is_passed(of_names.iter().flatten()) {
        return Err(BADNAME);
    }
    if lists.iter().any(|list| !ascending(list)) {
        return Err(ORDER);
    }
    Ok(())
}

fn split_clause(bytes: &[u8]) -> Option<Split> {
    let (head, body) = bytes.split_at_checked(2)?;
    let split = Split { head: numbers(head).pop(), lists: vec![numbers(body)] };
    (body.len() % 2 == 0).then_some(split)
}

fn split_lists(bytes: &[u8], count: usize) -> Option<Split> {
    let mut lists = Vec::with_capacity(count);
    let mut rest = bytes;
    for _ in 0..count {
        let (list, after) = take_list(rest)?;
        lists.push(list);
        rest = after;
    }
    rest.is_empty().then_some(Split { head: None, lists })
}

fn take_list(bytes: &[u8]) -> Option<(Vec<u16>, &[u8])> {
    let (count, rest) = bytes.split_at_checked(2)?;
    let count = u16::from_be_bytes([count[0], count[1]]) as usize;
    let (facts, after) = rest.split_at_checked(2 * count)?;
    Some((numbers(facts), after))
}

fn clause(mut split: Split) -> Clause {
    Clause { head: split.head.unwrap_or_default(), body: split.lists.remove(0) }
}

fn rule(split: Split) -> Rule {
    let mut lists = split.lists.into_iter();
    let mut next = || lists.next().unwrap_or_default();
    Rule { pos: next(), neg: next(), add: next(), names: next() }
}

fn attack(mut split: Split) -> Attack {
    let mut next = || split.lists.remove(0);
    Attack { pos: next(), neg: next() }
}

fn read_trace(file: &[u8], model: &Model) -> Result<Trace, Fail> {
    let part = section(file, 1)?;
    // Without a goal there is no trace, so an empty section is too short.
    fail_if(part.len == 0 || part.len % 2 == 1, SHAPE, part)?;
    judge_tail(file, part)?;
    let mut steps = numbers(part.of(file));
    let goal = steps.remove(0);
    fail_if(steps.len() > 1_024, COUNT, part)?;
    let two = |index: usize| Part { start: part.start + 2 * index, len: 2 };
    fail_if(goal as usize >= model.goals(), NAME, two(0))?;
    match steps.iter().position(|s| *s as usize >= model.rules.len()) {
        Some(step) => Err((NAME, two(step + 1))),
        None => Ok(Trace { goal, steps }),
    }
}
