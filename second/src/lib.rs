//! A second trace checker, written from the rules alone so that two programs can be compared.
//! It reads everything into owned lists, works on sets, and writes the lent buffers at the very end.

mod board;
mod bounds;
pub mod close;
mod codes;
mod count;
mod crossed;
mod firing;
mod formula;
mod fresh;
pub mod gen;
mod holds;
mod index;
mod lasting;
mod listed;
mod past;
pub mod read;
mod sought;
mod tally;

pub use close::{bench_close, bench_close_flat, close, close_api, close_indexed_api};
pub use close::{clause_place, flat, Closed, Flat, Judged};
pub use count::{count_api, Counts};
pub use firing::rules_api;
pub use holds::{holds_api, HOLDS};
pub use index::places;
pub use read::{parse, parse_model, Attack, Clause, Model, Parsed, Part, Rule, Trace};
pub use tally::{Indexed, Sought, Tally};

use formula::{truth, Formula};
use index::{has_room, write_index};
use read::parse_for;
use std::collections::BTreeSet;

pub const ATTACK: u8 = 0;
pub const ROOM: u8 = 1;
pub const LONG: u8 = 2;
pub const VERSION: u8 = 3;
pub const SHAPE: u8 = 4;
pub const COUNT: u8 = 5;
pub const FACT: u8 = 6;
pub const ORDER: u8 = 7;
/// Never given: a clause's head may stand in an N.
pub const NEGATED: u8 = 8;
pub const NAME: u8 = 9;
pub const BLOCKED: u8 = 10;
pub const NOATTACK: u8 = 11;
pub const BADNAME: u8 = 12;
pub const USED: u8 = 13;
pub const FORMULA: u8 = 17;

/// 14 to 16 are the text reader's and never given here.
pub const NAMES: [&str; 18] = [
    "ATTACK", "ROOM", "LONG", "VERSION", "SHAPE", "COUNT", "FACT", "ORDER", "NEGATED", "NAME",
    "BLOCKED", "NOATTACK", "BADNAME", "USED", "TEXT", "VARIABLE", "DEPTH", "FORMULA",
];

/// Kinds: whether the unmet condition is one of P or one of N.
pub const NO_KIND: u8 = 0;
pub const POSITIVE: u8 = 1;
pub const NEGATIVE: u8 = 2;

pub const KINDS: [&str; 3] = ["none", "positive", "negative"];

/// Marks: which of the two files holds the bytes at fault.
pub const MODEL: u8 = 0;
pub const TRACE: u8 = 1;

/// No fact, or no round.
pub const NONE: u16 = 65_535;

/// What the three buffers must at least hold.
pub const STATE_BYTES: usize = 512;
pub const TABLE_ENTRIES: usize = 4_096;
pub const NAMES_BYTES: usize = 128;

/// Enough for the body places of every model.
pub const INDEX_ENTRIES: usize = 32_768;

/// And for the rules of every model.
pub const LIST_ENTRIES: usize = 2_048;

/// A refusal before the first step: its number and the bytes it blames.
#[derive(Clone, Copy, Debug, PartialEq, Eq)]
pub struct Fault {
    pub number: u8,
    pub mark: u8,
    pub start: usize,
    pub len: usize,
}

#[derive(Clone, Copy, Debug, PartialEq, Eq)]
pub struct Verdict {
    pub number: u8,
    pub step: usize,
    pub fact: u16,
    pub rounds: usize,
    pub held: usize,
    pub kind: u8,
    pub round: u16,
    pub mark: u8,
    pub start: usize,
    pub len: usize,
}

/// Judges the pair. The buffers change only for ATTACK, BLOCKED, NOATTACK and USED.
pub fn check(
    model: &[u8],
    trace: &[u8],
    state: &mut [u8],
    table: &mut [u16],
    names: &mut [u8],
) -> Verdict {
    check_in(model, trace, state, table, names, None)
}

/// The same with an index lent besides, which is written whenever the pair isn't refused. ROOM for it
/// comes after all that is said of the model.
pub fn check_indexed(
    model: &[u8],
    trace: &[u8],
    state: &mut [u8],
    table: &mut [u16],
    names: &mut [u8],
    index: &mut [u16],
) -> Verdict {
    check_in(model, trace, state, table, names, Some(index))
}

const NO_ROOM: Fault = Fault { number: ROOM, mark: MODEL, start: 0, len: 0 };

fn check_in(
    model: &[u8],
    trace: &[u8],
    state: &mut [u8],
    table: &mut [u16],
    names: &mut [u8],
    index: Option<&mut [u16]>,
) -> Verdict {
    if !room(state, table) || names.len() < NAMES_BYTES {
        return refusal(NO_ROOM);
    }
    let is_short = |model: &Model| index.as_ref().is_some_and(|index| !has_room(model, index));
    match parse_for(model, trace, |model| if is_short(model) { Err(NO_ROOM) } else { Ok(()) }) {
        Err(fault) => refusal(fault),
        Ok(parsed) => {
            let end = run(&parsed);
            leave(&parsed, &end, state, table, names, index);
            end.verdict
        }
    }
}

/// Where a run ends, into buffers that have room.
fn leave(
    parsed: &Parsed,
    end: &End,
    state: &mut [u8],
    table: &mut [u16],
    names: &mut [u8],
    index: Option<&mut [u16]>,
) {
    write_bits(&end.stored, &mut state[..STATE_BYTES]);
    write_table(end.numbers(), table);
    write_bits(&end.used, &mut names[..NAMES_BYTES]);
    if let Some(index) = index {
        write_index(&parsed.model, index);
    }
}

/// The bytes at a place of the file the mark names, as far as the file has them; any other mark
/// names no file.
pub fn fault_part<'a>(
    model: &'a [u8],
    trace: &'a [u8],
    mark: u8,
    start: usize,
    len: usize,
) -> &'a [u8] {
    let file = match mark {
        MODEL => model,
        TRACE => trace,
        _ => return &[],
    };
    let rest = file.get(start..).unwrap_or_default();
    &rest[..len.min(rest.len())]
}

/// The program's one line, without the newline.
pub fn line(v: &Verdict) -> String {
    let Verdict { step, rounds, held, .. } = v;
    let [fact, round] = [v.fact, v.round].map(|n| match n {
        NONE => "none".to_string(),
        _ => n.to_string(),
    });
    let (name, kind) = (NAMES[v.number as usize], KINDS[v.kind as usize]);
    format!("{name} step {step} fact {fact} rounds {rounds} held {held} kind {kind} round {round}")
}

pub(crate) fn room(state: &[u8], table: &[u16]) -> bool {
    state.len() >= STATE_BYTES && table.len() >= TABLE_ENTRIES
}

fn refusal(Fault { number, mark, start, len }: Fault) -> Verdict {
    let Unmet { kind, fact, round } = NOTHING;
    Verdict { number, step: 0, fact, rounds: 0, held: 0, kind, round, mark, start, len }
}

/// A condition that isn't met; one of N has the round in which its fact arose. Or a used name, which
/// has neither kind nor round.
struct Unmet {
    kind: u8,
    fact: u16,
    round: u16,
}

const NOTHING: Unmet = Unmet { kind: NO_KIND, fact: NONE, round: NONE };

/// Where a run ends: the last state reached, which is facts and names, the round numbers of all states
/// reached, and what is said of the last.
struct End {
    stored: BTreeSet<u16>,
    used: BTreeSet<u16>,
    history: Vec<Vec<u16>>,
    verdict: Verdict,
}

impl End {
    fn numbers(&self) -> &[u16] {
        &self.history[self.history.len() - 1]
    }
}

fn run(parsed: &Parsed) -> End {
    let Parsed { model, trace, goal_places } = parsed;
    let mut stored: BTreeSet<u16> = model.initial.iter().copied().collect();
    let persistent: BTreeSet<u16> = model.persistent.iter().flatten().copied().collect();
    let mut used: BTreeSet<u16> = model.names.iter().flatten().copied().collect();
    let (mut rounds, numbers) = close(model, &stored);
    let mut history = vec![numbers];
    for (step, &name) in trace.steps.iter().enumerate() {
        let rule = &model.rules[name as usize];
        let numbers = &history[step];
        if let Some((number, Unmet { kind, fact, round })) = why_not(rule, numbers, &used) {
            // The trace's section starts at byte 5, and the goal takes its first two bytes.
            let fault = Fault { number, mark: TRACE, start: 7 + 2 * step, len: 2 };
            let held = stored.len();
            let verdict = Verdict { step, fact, rounds, held, kind, round, ..refusal(fault) };
            return End { stored, used, history, verdict };
        }
        stored = next_state(&stored, rule, &persistent);
        used.extend(&rule.names);
        let (more, numbers) = close(model, &stored);
        rounds += more;
        history.push(numbers);
    }
    let unmet = why_no_attack(model, trace.goal as usize, &history);
    let Part { start, len } = goal_places[trace.goal as usize];
    let fault = match unmet {
        Some(_) => Fault { number: NOATTACK, mark: MODEL, start, len },
        None => Fault { number: ATTACK, mark: MODEL, start: 0, len: 0 },
    };
    let (step, held) = (trace.steps.len(), stored.len());
    let Unmet { kind, fact, round } = unmet.unwrap_or(NOTHING);
    let verdict = Verdict { step, fact, rounds, held, kind, round, ..refusal(fault) };
    End { stored, used, history, verdict }
}

/// Why a rule can't fire: a condition, and only if all of them are met a name that is used.
fn why_not(rule: &Rule, numbers: &[u16], used: &BTreeSet<u16>) -> Option<(u8, Unmet)> {
    if let Some(unmet) = first_unmet(&rule.pos, &rule.neg, numbers) {
        return Some((BLOCKED, unmet));
    }
    let &name = rule.names.iter().find(|name| used.contains(name))?;
    Some((USED, Unmet { fact: name, ..NOTHING }))
}

/// Why a goal isn't reached in the last state: an attack state's condition, or a formula that is true,
/// which has neither fact nor kind nor round.
fn why_no_attack(model: &Model, goal: usize, history: &[Vec<u16>]) -> Option<Unmet> {
    if let Some(Attack { pos, neg }) = model.attacks.get(goal) {
        return first_unmet(pos, neg, &history[history.len() - 1]);
    }
    asked(model, goal).filter(|formula| truth(formula, history)).map(|_| NOTHING)
}

/// The formula that a goal is, if it is one: their numbers run on from the attack states.
fn asked(model: &Model, goal: usize) -> Option<Formula> {
    let number = goal.checked_sub(model.attacks.len())?;
    formula::read(model.formulas.as_ref()?.get(number)?).ok()
}

/// P is searched before N; a fact is in the closure when it has a round number.
fn first_unmet(pos: &[u16], neg: &[u16], numbers: &[u16]) -> Option<Unmet> {
    let closed = |f: &u16| numbers[*f as usize] != NONE;
    if let Some(&fact) = pos.iter().find(|f| !closed(f)) {
        return Some(Unmet { kind: POSITIVE, fact, round: NONE });
    }
    let &fact = neg.iter().find(|f| closed(f))?;
    Some(Unmet { kind: NEGATIVE, fact, round: numbers[fact as usize] })
}

/// Removal first, so that a fact in both P and A stays stored. A persistent fact of P is left as it
/// is, stored or only derived.
fn next_state(stored: &BTreeSet<u16>, rule: &Rule, persistent: &BTreeSet<u16>) -> BTreeSet<u16> {
    let kept = stored.iter().filter(|f| !rule.pos.contains(f) || persistent.contains(f));
    kept.chain(&rule.add).copied().collect()
}

/// A set of facts or of names: number n is the bit of value 2^(n mod 8) in byte n/8.
fn write_bits(set: &BTreeSet<u16>, bytes: &mut [u8]) {
    bytes.fill(0);
    for &n in set {
        bytes[n as usize / 8] |= 1 << (n % 8);
    }
}

pub(crate) fn write_table(numbers: &[u16], table: &mut [u16]) {
    table[..numbers.len()].copy_from_slice(numbers);
    table[numbers.len()..TABLE_ENTRIES].fill(NONE);
}
