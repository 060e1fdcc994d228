//! How often each verdict, each kind of unmet condition and each thing of versions 2 to 4 comes up in
//! a stream of pairs.

use crate::close::{close_api, close_indexed_api, Closed};
use crate::firing::rules_api;
use crate::formula::{self, truth, Wrong};
use crate::gen::{facts_in, start_for, Pair};
use crate::holds::{holds_api, HOLDS};
use crate::read::{
    bare_sections, names_at_fault, numbers, parse, places_in, rules_in, section_part, sections,
};
use crate::read::{Parsed, Part};
use crate::read::{FORMULAS, NAMES_IN_USE, PERSISTENT};
use crate::{asked, check, check_indexed, first_unmet, run, Verdict};
use crate::{
    ATTACK, BADNAME, BLOCKED, COUNT, FACT, FORMULA, LONG, MODEL, NAME, NAMES, NEGATED, NEGATIVE,
};
use crate::{NOATTACK, NONE, ORDER, POSITIVE, ROOM, SHAPE, TRACE, USED, VERSION};
use std::collections::BTreeSet;

/// What comes of a pair where an index is lent: the check's number, what closing by itself answers with
/// the index and without it, how many rules fire, and what is said of a fact. The table and the names are a check's.
pub struct Indexed {
    pub number: u8,
    pub closed: Result<Closed, u8>,
    pub plain: Result<usize, u8>,
    pub firing: Result<usize, u8>,
    pub sought: Sought,
    pub table: Vec<u16>,
    pub names: Vec<u8>,
}

/// The fact that is asked for, with the number answered and both values.
pub struct Sought {
    pub fact: usize,
    pub number: u8,
    pub out: [u64; HOLDS],
}

impl Sought {
    /// Which fact is asked for, by what a check answers and leaves.
    pub fn fact(pair: &Pair, seed: u64, index: u64, verdict: &Verdict, table: &[u16]) -> usize {
        pair.fact(seed, index, if has_run(verdict) { table } else { &[] })
    }
}

/// Whether a check runs the pair and so leaves round numbers.
fn has_run(verdict: &Verdict) -> bool {
    matches!(verdict.number, ATTACK | BLOCKED | NOATTACK | USED)
}

impl Indexed {
    /// By this program, for a pair of a stream.
    pub fn of(pair: &Pair, seed: u64, index: u64) -> Indexed {
        let Pair { model, trace, .. } = pair;
        let (mut state, mut table, mut names) = pair.buffers(seed, index);
        let mut places = pair.index(seed, index);
        let start = start_for(seed, index, model);
        let closed = close_indexed_api(model, &start, &mut table, &mut places);
        let plain = match closed {
            Err(ROOM) => close_api(model, &start, &mut table),
            other => other.map(|closed| closed.rounds),
        };
        let (mut list, mut lent) = (pair.list(seed, index), places.clone());
        let firing =
            rules_api(model, trace, &mut state, &mut table, &mut names, &mut lent, &mut list);
        let mut lent = places.clone();
        let mut verdict =
            check_indexed(model, trace, &mut state, &mut table, &mut names, &mut places);
        let number = verdict.number;
        if number == ROOM {
            verdict = check(model, trace, &mut state, &mut table, &mut names);
        }
        let fact = Sought::fact(pair, seed, index, &verdict, &table);
        let (mut one, mut two, mut three) = pair.buffers(seed, index);
        let mut out = [7; HOLDS];
        let (b, o) = ((&mut one, &mut two, &mut three, &mut lent), &mut out);
        let answer = holds_api(model, trace, fact, b.0, b.1, b.2, b.3, o);
        let sought = Sought { fact, number: answer, out };
        Indexed { number, closed, plain, firing, sought, table, names }
    }
}

/// A pair with its verdict, with what comes of it with an index, with the verdict that it had if no fact
/// were persistent, with what its names did, and with what its goal hangs on if that is a formula.
struct Seen<'a> {
    pair: &'a Pair,
    verdict: &'a Verdict,
    indexed: &'a Indexed,
    places: usize,
    rules: usize,
    facts: usize,
    without: Verdict,
    named: Named,
    asked: Option<Asked>,
    fired: Option<Fired>,
}

/// What names did in a pair that is run.
#[derive(Default)]
struct Named {
    /// The step that doesn't fire makes a name that is used.
    again: bool,
    /// The verdict's name was in use at the start.
    from_start: bool,
    /// It isn't the first of its list.
    later: bool,
    /// Names are used at the end.
    left: bool,
}

/// What the rules of a pair that is run come to in its last state.
struct Fired {
    /// So many fire.
    count: usize,
    /// One would, but for a name that is used.
    by_name: bool,
}

/// What a formula that is judged would not be the same without.
#[derive(Default)]
struct Asked {
    /// All states but the last.
    past: bool,
    /// The initial state, where it isn't the last.
    start: bool,
    /// The facts that are only derived.
    derived: bool,
}

/// Whether a pair counts.
type Counts = fn(&Seen) -> bool;

const ROWS: [(&str, Counts); 90] = [
    ("positive", |s| s.verdict.kind == POSITIVE),
    ("negative, stored", |s| s.verdict.kind == NEGATIVE && s.verdict.round == 0),
    ("negative, round 1", |s| s.verdict.kind == NEGATIVE && s.verdict.round == 1),
    ("negative, a later round", |s| s.verdict.kind == NEGATIVE && s.verdict.round > 1),
    ("a model of version 1", |s| s.pair.model.first() == Some(&1)),
    ("a model of version 2", |s| s.pair.model.first() == Some(&2)),
    ("a model of version 3", |s| s.pair.model.first() == Some(&3)),
    ("a model of version 4", |s| s.pair.model.first() == Some(&4)),
    ("persistence decides", |s| *s.verdict != s.without),
    (".. and the verdict's number", |s| s.verdict.number != s.without.number),
    ("SHAPE of persistent facts", |s| s.blames(PERSISTENT, SHAPE)),
    ("FACT of persistent facts", |s| s.blames(PERSISTENT, FACT)),
    ("ORDER of persistent facts", |s| s.blames(PERSISTENT, ORDER)),
    ("names used at the end", |s| s.named.left),
    ("USED, in use at the start", |s| s.verdict.number == USED && s.named.from_start),
    ("USED, made by a step", |s| s.verdict.number == USED && !s.named.from_start),
    ("USED, not the list's first", |s| s.verdict.number == USED && s.named.later),
    ("BLOCKED, with a used name", |s| s.verdict.number == BLOCKED && s.named.again),
    ("SHAPE of names in use", |s| s.blames(NAMES_IN_USE, SHAPE)),
    ("BADNAME of names in use", |s| s.blames(NAMES_IN_USE, BADNAME)),
    ("ORDER of names in use", |s| s.blames(NAMES_IN_USE, ORDER)),
    ("SHAPE of a rule's names", |s| s.blames_made(SHAPE)),
    ("COUNT of a rule's names", |s| s.blames_made(COUNT)),
    ("BADNAME of a rule's names", |s| s.blames_made(BADNAME)),
    ("ORDER of a rule's names", |s| s.blames_made(ORDER)),
    ("a formula, ATTACK", |s| s.is_asked(&[ATTACK])),
    ("a formula, NOATTACK", |s| s.is_asked(&[NOATTACK])),
    ("a formula, BLOCKED or USED", |s| s.is_asked(&[BLOCKED, USED])),
    ("the past decides", |s| s.asked.as_ref().is_some_and(|asked| asked.past)),
    (".. and the initial state", |s| s.asked.as_ref().is_some_and(|asked| asked.start)),
    ("a formula's derived fact", |s| s.asked.as_ref().is_some_and(|asked| asked.derived)),
    ("NAME of a goal in version 4", |s| s.verdict.number == NAME && s.is_goal_of_4()),
    ("SHAPE of a formula", |s| s.blames_formula(SHAPE)),
    ("COUNT of a formula", |s| s.blames_formula(COUNT)),
    ("FACT of a formula", |s| s.blames_formula(FACT)),
    ("FORMULA, no such code", |s| s.is_wrong(Wrong::Code)),
    ("FORMULA, unfinished", |s| s.is_wrong(Wrong::Unfinished) && s.verdict.len > 2),
    ("FORMULA, no code", |s| s.is_wrong(Wrong::Unfinished) && s.verdict.len == 2),
    ("FORMULA, codes left over", |s| s.is_wrong(Wrong::After)),
    ("FORMULA, too deep", |s| s.is_wrong(Wrong::Deep)),
    ("VERSION of a model, 0", |s| s.has_version(MODEL, 0)),
    ("VERSION of a model, 5", |s| s.has_version(MODEL, 5)),
    ("VERSION of a model, 255", |s| s.has_version(MODEL, 255)),
    ("VERSION of a trace, 2", |s| s.has_version(TRACE, 2)),
    ("an index, just long enough", |s| s.is_run() && s.has_entries(s.places)),
    (".. and longer", |s| s.is_run() && s.pair.index_len > s.places),
    ("ROOM of an index", |s| s.is_short()),
    (".. by one entry", |s| s.is_short() && s.has_entries(s.places - 1)),
    (".. before the trace's fault", |s| s.is_short() && s.blames_trace(&[SHAPE, COUNT, NAME])),
    (".. after the trace's 2 or 3", |s| s.lacks_entries() && s.blames_trace(&[LONG, VERSION])),
    (".. after the model's fault", |s| s.lacks_entries() && s.blames_model()),
    (".. of closing", |s| s.closing_is_short()),
    (".. of closing, before its 6", |s| s.closing_is_short() && s.indexed.plain == Err(FACT)),
    ("all places crossed", |s| s.crossings().is_some_and(|n| n > 0 && n == s.places)),
    (".. not all", |s| s.crossings().is_some_and(|n| n < s.places)),
    ("a list, just long enough", |s| s.firing() > 0 && s.pair.list_len == s.rules),
    (".. and longer", |s| s.firing() > 0 && s.pair.list_len > s.rules),
    ("ROOM of a list", |s| s.list_is_short()),
    (".. by one entry", |s| s.list_is_short() && s.pair.list_len + 1 == s.rules),
    (".. though the answer fits", |s| s.list_is_short() && s.would_fit()),
    (".. before the trace's fault", |s| s.list_is_short() && s.blames_trace(&[SHAPE, COUNT, NAME])),
    (".. after a file's 2 or 3", |s| {
        s.lacks_rules() && [LONG, VERSION].contains(&s.verdict.number)
    }),
    (".. after the model's fault", |s| s.lacks_rules() && s.blames_model()),
    ("no rule fires", |s| s.rules > 0 && s.indexed.firing == Ok(0)),
    ("some rules fire", |s| s.firing() > 0 && s.firing() < s.rules),
    ("all rules fire", |s| s.firing() > 0 && s.firing() == s.rules),
    ("rules that fire, BLOCKED", |s| s.firing() > 0 && s.verdict.number == BLOCKED),
    ("rules that fire or not, USED", |s| s.indexed.firing.is_ok() && s.verdict.number == USED),
    ("rules that fire, NOATTACK", |s| s.firing() > 0 && s.verdict.number == NOATTACK),
    ("a used name keeps a rule", |s| s.firing_is(|fired| fired.by_name)),
    ("a fact that is stored", |s| s.held() == Some(0)),
    (".. and rounds left out", |s| s.held() == Some(0) && s.last_round() > 0),
    ("a fact of round 1", |s| s.held() == Some(1)),
    (".. and rounds left out", |s| s.held() == Some(1) && s.last_round() > 1),
    ("a fact of a later round", |s| s.held().is_some_and(|n| n > 1 && n < s.last_round())),
    ("a fact of the last round", |s| s.held().is_some_and(|n| n > 1 && n == s.last_round())),
    ("others arise in its round", |s| s.held().is_some_and(|n| n > 0 && s.arise_in(n) > 1)),
    ("a fact that is absent", |s| s.is_absent() && s.last_round() == 0),
    (".. after some rounds", |s| s.is_absent() && s.last_round() > 0),
    ("fact F-1, held or absent", |s| s.is_told() && s.indexed.sought.fact + 1 == s.facts),
    ("a fact, NOATTACK", |s| s.is_told() && s.verdict.number == NOATTACK),
    ("FACT of F", |s| s.has_no_fact() && s.indexed.sought.fact == s.facts),
    (".. of 65,536 or more", |s| s.has_no_fact() && s.indexed.sought.fact > 65_535),
    (".. before a blocked step", |s| s.has_no_fact() && s.verdict.number == BLOCKED),
    (".. before a used name", |s| s.has_no_fact() && s.verdict.number == USED),
    (".. after the trace's fault", |s| s.lacks_fact() && s.blames_trace(&[SHAPE, COUNT, NAME])),
    (".. after a short index", |s| s.lacks_fact() && s.is_short()),
    ("a fact, BLOCKED", |s| s.indexed.sought.number == BLOCKED),
    ("a fact, USED", |s| s.indexed.sought.number == USED),
    ("a fact, ROOM of an index", |s| s.indexed.sought.number == ROOM && s.is_short()),
];

impl Seen<'_> {
    /// Refused for a section of bare numbers that only later versions have. An empty one has no bytes.
    fn blames(&self, section: usize, number: u8) -> bool {
        let (model, Verdict { mark, start, len, .. }) = (&self.pair.model, *self.verdict);
        let is_number = self.verdict.number == number && mark == MODEL && len > 0;
        let part = Some(Part { start, len });
        is_number && bare_sections(model) > section && section_part(model, section) == part
    }

    /// Refused for the names of a rule and for nothing else in it.
    fn blames_made(&self, number: u8) -> bool {
        let (model, Verdict { mark, start, len, .. }) = (&self.pair.model, *self.verdict);
        let is_number = self.verdict.number == number && mark == MODEL;
        is_number && names_at_fault(model, Part { start, len }) == Some(number)
    }

    /// Run, with a formula as the goal.
    fn is_asked(&self, numbers: &[u8]) -> bool {
        self.asked.is_some() && numbers.contains(&self.verdict.number)
    }

    fn is_goal_of_4(&self) -> bool {
        self.pair.model[0] == 4 && self.verdict.start == 5
    }

    /// Refused for a record of the formulas.
    fn blames_formula(&self, number: u8) -> bool {
        let (model, Verdict { mark, start, len, .. }) = (&self.pair.model, *self.verdict);
        let is_number = self.verdict.number == number && mark == MODEL && len > 0;
        if !is_number || sections(model) <= FORMULAS {
            return false;
        }
        let is_in = |all: Part| all.start <= start && start + len <= all.start + all.len;
        section_part(model, FORMULAS).is_some_and(is_in)
    }

    /// Refused with FORMULA, and for this.
    fn is_wrong(&self, wrong: Wrong) -> bool {
        let Verdict { number, start, len, .. } = *self.verdict;
        let codes = || numbers(&self.pair.model[start + 2..start + len]);
        number == FORMULA && formula::read(&codes()).err() == Some(wrong)
    }

    /// Neither refused nor without entries for the index.
    fn is_run(&self) -> bool {
        self.places > 0 && matches!(self.indexed.number, ATTACK | BLOCKED | NOATTACK | USED)
    }

    fn has_entries(&self, entries: usize) -> bool {
        self.pair.index_len == entries
    }

    fn lacks_entries(&self) -> bool {
        self.pair.index_len < self.places
    }

    /// Refused for the index and for nothing else.
    fn is_short(&self) -> bool {
        self.indexed.number == ROOM && self.verdict.number != ROOM
    }

    fn closing_is_short(&self) -> bool {
        self.indexed.closed == Err(ROOM) && self.indexed.plain != Err(ROOM)
    }

    /// How many rules are answered; 0 for a refusal.
    fn firing(&self) -> usize {
        self.indexed.firing.unwrap_or(0)
    }

    fn firing_is(&self, counts: impl Fn(&Fired) -> bool) -> bool {
        self.indexed.firing.is_ok() && self.fired.as_ref().is_some_and(counts)
    }

    fn lacks_rules(&self) -> bool {
        self.pair.list_len < self.rules
    }

    /// Refused for the list and for nothing else.
    fn list_is_short(&self) -> bool {
        self.indexed.firing == Err(ROOM) && self.indexed.number != ROOM
    }

    fn would_fit(&self) -> bool {
        self.fired.as_ref().is_some_and(|fired| fired.count <= self.pair.list_len)
    }

    /// Answered, and not refused.
    fn is_told(&self) -> bool {
        self.indexed.sought.number == 0
    }

    /// The round of a fact that holds.
    fn held(&self) -> Option<u64> {
        Some(self.indexed.sought.out[0]).filter(|n| self.is_told() && *n != NONE as u64)
    }

    fn is_absent(&self) -> bool {
        self.is_told() && self.held().is_none()
    }

    /// Of the last state, closed in full.
    fn last_round(&self) -> u64 {
        self.indexed.table.iter().filter(|n| **n != NONE).max().map_or(0, |n| *n as u64)
    }

    fn arise_in(&self, round: u64) -> usize {
        self.indexed.table.iter().filter(|n| **n as u64 == round).count()
    }

    fn lacks_fact(&self) -> bool {
        self.indexed.sought.fact >= self.facts
    }

    /// Refused for that and for nothing else.
    fn has_no_fact(&self) -> bool {
        self.indexed.sought.number == FACT && has_run(self.verdict)
    }

    fn crossings(&self) -> Option<usize> {
        self.indexed.closed.ok().map(|closed| closed.crossings)
    }

    fn blames_trace(&self, numbers: &[u8]) -> bool {
        self.verdict.mark == TRACE && numbers.contains(&self.verdict.number)
    }

    fn blames_model(&self) -> bool {
        let of_model = [SHAPE, COUNT, FACT, ORDER, BADNAME, FORMULA];
        self.verdict.mark == MODEL && of_model.contains(&self.verdict.number)
    }

    /// Refused for a version, and for which.
    fn has_version(&self, mark: u8, version: u8) -> bool {
        let file = if mark == MODEL { &self.pair.model } else { &self.pair.trace };
        let is_there = self.verdict.mark == mark && file.first() == Some(&version);
        self.verdict.number == VERSION && is_there
    }
}

/// The verdict with the section of persistent facts emptied.
fn without_persistence(mut parsed: Parsed, verdict: &Verdict) -> Verdict {
    if !asks_for_persistent(&parsed) {
        return *verdict;
    }
    parsed.model.persistent = Some(Vec::new());
    run(&parsed).verdict
}

fn named(Parsed { model, trace, .. }: &Parsed, verdict: &Verdict) -> Named {
    let Some(start) = &model.names else { return Named::default() };
    let makes = |step: &u16| &model.rules[*step as usize].names;
    // For ATTACK and NOATTACK the step is the count of steps, and none stops.
    let (fired, stops) = trace.steps.split_at(verdict.step);
    let used: BTreeSet<u16> = start.iter().chain(fired.iter().flat_map(makes)).copied().collect();
    let stopped = stops.first().map(makes).map_or(&[][..], Vec::as_slice);
    Named {
        again: stopped.iter().any(|name| used.contains(name)),
        from_start: start.contains(&verdict.fact),
        later: stopped.first() != Some(&verdict.fact),
        left: !used.is_empty(),
    }
}

/// By the round numbers of the last state and the names used by then.
fn fired(Parsed { model, .. }: &Parsed, table: &[u16], names: &[u8]) -> Fired {
    let is_used = |name: &u16| names[*name as usize / 8] >> (name % 8) & 1 == 1;
    let met = model.rules.iter().filter(|rule| first_unmet(&rule.pos, &rule.neg, table).is_none());
    let (by_name, firing): (Vec<_>, Vec<_>) = met.partition(|rule| rule.names.iter().any(is_used));
    Fired { count: firing.len(), by_name: !by_name.is_empty() }
}

/// What the goal hangs on, if it is a formula; nothing where a step doesn't fire.
fn hangs_on(parsed: &Parsed, verdict: &Verdict) -> Option<Asked> {
    let formula = asked(&parsed.model, parsed.trace.goal as usize)?;
    if verdict.number == BLOCKED || verdict.number == USED {
        return Some(Asked::default());
    }
    let history = run(parsed).history;
    let is_stored = |n: &u16| if *n == 0 { 0 } else { NONE };
    let stored: Vec<Vec<u16>> =
        history.iter().map(|numbers| numbers.iter().map(is_stored).collect()).collect();
    let is_true = truth(&formula, &history);
    let (steps, last) = (&history[history.len().min(2) - 1..], &history[history.len() - 1..]);
    Some(Asked {
        past: truth(&formula, last) != is_true,
        start: truth(&formula, steps) != is_true,
        derived: truth(&formula, &stored) != is_true,
    })
}

/// Whether a step asks for a persistent fact: otherwise none can decide.
fn asks_for_persistent(Parsed { model, trace, .. }: &Parsed) -> bool {
    let mut rules = trace.steps.iter().map(|step| &model.rules[*step as usize]);
    let Some(persistent) = &model.persistent else { return false };
    rules.any(|rule| rule.pos.iter().any(|f| persistent.contains(f)))
}

pub struct Tally {
    numbers: [u64; NAMES.len()],
    rows: [u64; ROWS.len()],
}

impl Default for Tally {
    fn default() -> Tally {
        Tally { numbers: [0; NAMES.len()], rows: [0; ROWS.len()] }
    }
}

impl Tally {
    pub fn add(&mut self, pair: &Pair, verdict: &Verdict, indexed: &Indexed) {
        self.numbers[verdict.number as usize] += 1;
        let (without, named) = (*verdict, Named::default());
        let (places, rules) = (places_in(&pair.model), rules_in(&pair.model));
        let facts = facts_in(&pair.model);
        let (asked, fired) = (None, None);
        let mut seen =
            Seen { pair, verdict, indexed, places, rules, facts, without, named, asked, fired };
        if let (Ok(parsed), true) = (parse(&pair.model, &pair.trace), verdict.number != ROOM) {
            seen.named = self::named(&parsed, verdict);
            seen.asked = hangs_on(&parsed, verdict);
            seen.fired = Some(self::fired(&parsed, &indexed.table, &indexed.names));
            seen.without = without_persistence(parsed, verdict);
        }
        for (times, (_, counts)) in self.rows.iter_mut().zip(ROWS) {
            *times += counts(&seen) as u64;
        }
    }

    pub fn print(&self) {
        let count: u64 = self.numbers.iter().sum();
        let row = |what: String, times: u64| {
            println!("{what:28} {times:9} {:6.2}%", 100.0 * times as f64 / count as f64);
        };
        for (number, times) in self.numbers.iter().enumerate() {
            row(format!("{number:2} {}", NAMES[number]), *times);
        }
        ROWS.iter().zip(self.rows).for_each(|((what, _), times)| row(what.to_string(), times));
    }

    /// Whether everything that says something of the files comes up once in 200 pairs. ROOM says
    /// nothing of them, and NEGATED and the text reader's numbers are never given.
    pub fn is_mixed(&self) -> bool {
        let count: u64 = self.numbers.iter().sum();
        let other = [ROOM, NEGATED, 14, 15, 16].map(usize::from);
        let numbers = self.numbers.iter().enumerate().filter(|(n, _)| !other.contains(n));
        numbers.map(|(_, times)| times).chain(&self.rows).all(|times| times * 200 >= count)
    }
}
