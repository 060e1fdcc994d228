//! Random pairs for comparing programs: sound ones whose steps run, and damaged ones.
//! A pair depends on its seed and index alone, so any one of a stream can be made again.

use crate::read::{bare_sections, initial_in, places_in, rules_in, sections};
use crate::read::{Attack, Clause, Model, Rule};
use crate::read::{FORMULAS, NAMES_IN_USE, PERSISTENT};
use crate::{bounds, codes};
use crate::{INDEX_ENTRIES, LIST_ENTRIES, NAMES_BYTES, NONE, STATE_BYTES, TABLE_ENTRIES};
use std::collections::BTreeSet;

/// Splitmix64.
pub struct Rng(u64);

impl Rng {
    pub fn new(seed: u64, index: u64) -> Rng {
        Rng(Rng(seed).draw() ^ index.wrapping_mul(0xD1B5_4A32_D192_ED03))
    }
    pub fn draw(&mut self) -> u64 {
        self.0 = self.0.wrapping_add(0x9E37_79B9_7F4A_7C15);
        let z = (self.0 ^ (self.0 >> 30)).wrapping_mul(0xBF58_476D_1CE4_E5B9);
        let z = (z ^ (z >> 27)).wrapping_mul(0x94D0_49BB_1331_11EB);
        z ^ (z >> 31)
    }
    /// Below `n`, or 0 when there is nothing below it.
    pub fn below(&mut self, n: usize) -> usize {
        (((self.draw() >> 32) * n as u64) >> 32) as usize
    }
    pub(crate) fn one_in(&mut self, n: usize) -> bool {
        self.below(n) == 0
    }
    pub(crate) fn of(&mut self, choices: &[usize]) -> usize {
        choices[self.below(choices.len())]
    }
    pub fn shuffle<T>(&mut self, list: &mut [T]) {
        (1..list.len()).for_each(|i| list.swap(i, self.below(i + 1)));
    }
}

/// Two files and how much buffer they are to be checked with.
#[derive(Clone, Debug, PartialEq, Eq)]
pub struct Pair {
    pub model: Vec<u8>,
    pub trace: Vec<u8>,
    pub state_len: usize,
    pub table_len: usize,
    pub names_len: usize,
    pub index_len: usize,
    pub list_len: usize,
    pub ask: Ask,
}

/// Which fact is asked for: by its round in the last state reached, by F, or by its number.
#[derive(Clone, Copy, Debug, PartialEq, Eq)]
pub enum Ask {
    Stored,
    First,
    /// Of a round after the first and before the last.
    Between,
    Last,
    Absent,
    /// Any that there is, F - 1, and F with so much added.
    Any,
    Top,
    Beyond(usize),
    /// Any that there is, with so much added that a part of the number is the fact.
    Over(usize),
    Number(usize),
}

impl Pair {
    /// Buffers full of leftovers, so that what isn't written shows: state, table and names.
    pub fn buffers(&self, seed: u64, index: u64) -> (Vec<u8>, Vec<u16>, Vec<u8>) {
        let junk = Rng::new(!seed, index).draw();
        let state = (0..self.state_len).map(|i| (junk >> (i % 57)) as u8).collect();
        let table = (0..self.table_len).map(|i| (junk >> (i % 49)) as u16).collect();
        let names = (0..self.names_len).map(|i| (junk >> (i % 53)) as u8).collect();
        (state, table, names)
    }

    /// The index likewise.
    pub fn index(&self, seed: u64, index: u64) -> Vec<u16> {
        let junk = Rng::new(seed ^ 0x1DE8, index).draw();
        (0..self.index_len).map(|i| (junk >> (i % 47)) as u16).collect()
    }

    /// And the list of rules.
    pub fn list(&self, seed: u64, index: u64) -> Vec<u16> {
        let junk = Rng::new(seed ^ 0x2157, index).draw();
        (0..self.list_len).map(|i| (junk >> (i % 43)) as u16).collect()
    }

    /// The fact that is asked for. The round numbers are those that a check leaves, or none if it refuses;
    /// where there is no fact of such a round, it is any.
    pub fn fact(&self, seed: u64, index: u64, numbers: &[u16]) -> usize {
        let mut rng = Rng::new(seed ^ 0xFAC7, index);
        let facts = facts_in(&self.model);
        let last = numbers.iter().copied().filter(|n| *n != NONE).max().unwrap_or(0);
        let is_such = |n: u16| match self.ask {
            Ask::Stored => n == 0,
            Ask::First => n == 1,
            Ask::Between => n > 1 && n < last,
            Ask::Last => n == last && n > 0,
            Ask::Absent => n == NONE,
            _ => true,
        };
        let below = 0..facts.min(numbers.len());
        let such: Vec<usize> = below.filter(|f| is_such(numbers[*f])).collect();
        let any = rng.below(facts);
        let some = such.get(rng.below(such.len())).copied().unwrap_or(any);
        match self.ask {
            Ask::Top => facts.saturating_sub(1),
            Ask::Beyond(more) => facts + more,
            Ask::Over(more) => some + more,
            Ask::Number(fact) => fact,
            _ => some,
        }
    }
}

/// One pair in so many of the mixed stream is at a bound, the last of them.
pub const AT_BOUNDS: u64 = 17;

/// The mixed stream: a bit under half sound, the rest damaged or at the bounds, now and then too
/// little room.
pub fn pair(seed: u64, index: u64) -> Pair {
    let mut rng = Rng::new(seed, index);
    let (mut pair, ask) = if index % AT_BOUNDS == AT_BOUNDS - 1 {
        let (files, ask) = bounds::files(&mut rng, index / AT_BOUNDS);
        (roomy(files), ask)
    } else {
        (some_pair(&mut rng), None)
    };
    let places = places_in(&pair.model);
    pair.index_len = some_index(&mut rng, places);
    pair.list_len = some_list(&mut rng, rules_in(&pair.model));
    match ask {
        // It can decide only if there is room for it.
        Some(ask) => (pair.ask, pair.index_len) = (ask, pair.index_len.max(places)),
        None => pair.ask = some_ask(&mut rng),
    }
    pair
}

fn some_pair(rng: &mut Rng) -> Pair {
    let (model, trace) = if rng.below(100) < 45 { sound_files(rng) } else { damage(rng) };
    let mut pair = roomy((model, trace));
    match rng.below(150) {
        0 => pair.state_len = rng.of(&[0, 1, 256, 510, 511]),
        1 => pair.table_len = rng.of(&[0, 1, 512, 4_094, 4_095]),
        2 => (pair.state_len, pair.table_len, pair.names_len) = (511, 4_095, 127),
        3 => pair.names_len = rng.of(&[0, 1, 64, 126, 127]),
        _ => {
            let more = [0; 3].map(|_| rng.of(&[0, 1, 64]));
            pair.state_len += more[0];
            pair.table_len += more[1];
            pair.names_len += more[2];
        }
    }
    pair
}

/// Room for an index around what so many body places need: every third one has too little.
fn some_index(rng: &mut Rng, places: usize) -> usize {
    match rng.below(40) {
        0..=7 => places.saturating_sub(1),
        8..=10 => rng.below(places),
        11..=13 => 0,
        14..=26 => places,
        27..=33 => places + 1,
        34..=38 => places + 64,
        _ => INDEX_ENTRIES,
    }
}

/// Room for a list around what so many rules need: every fifth one has too little.
fn some_list(rng: &mut Rng, rules: usize) -> usize {
    match rng.below(40) {
        0..=4 => rules.saturating_sub(1),
        5 | 6 => rng.below(rules),
        7 => 0,
        8..=25 => rules,
        26..=32 => rules + 1,
        33..=37 => rules + 64,
        _ => LIST_ENTRIES,
    }
}

/// A fact to be asked for: of each kind of round, and every fourth time none that there is.
fn some_ask(rng: &mut Rng) -> Ask {
    match rng.below(40) {
        0..=2 => Ask::Stored,
        3..=6 => Ask::First,
        7..=12 => Ask::Between,
        13..=22 => Ask::Last,
        23..=27 => Ask::Absent,
        28 => Ask::Any,
        29 | 30 => Ask::Top,
        31..=33 => Ask::Beyond(0),
        34 | 35 => Ask::Beyond(rng.of(&[1, 1, 255, 4_096])),
        36..=38 => Ask::Over(rng.of(&[4_096, 65_536, 65_536, 1 << 32, 1 << 63])),
        _ => Ask::Number(rng.of(&[4_095, 4_096, 65_535, 65_536, usize::MAX])),
    }
}

/// Only pairs that ATTACK, BLOCKED, NOATTACK or USED answers.
pub fn sound(seed: u64, index: u64) -> Pair {
    roomy(sound_files(&mut Rng::new(seed, index)))
}

/// Only pairs that were meddled with; a few of them stay well-formed all the same.
pub fn damaged(seed: u64, index: u64) -> Pair {
    roomy(damage(&mut Rng::new(seed, index)))
}

fn roomy((model, trace): (Vec<u8>, Vec<u8>)) -> Pair {
    Pair {
        model,
        trace,
        state_len: STATE_BYTES,
        table_len: TABLE_ENTRIES,
        names_len: NAMES_BYTES,
        index_len: INDEX_ENTRIES,
        list_len: LIST_ENTRIES,
        ask: Ask::Any,
    }
}

/// A starting state for a file's facts, as far as they can be read. One in three has those that the file
/// starts with, so that it closes as far as it is made to.
pub fn start_for(seed: u64, index: u64, model: &[u8]) -> Vec<u8> {
    if !Rng::new(seed ^ 0x1417, index).one_in(3) {
        return start_state(seed, index, facts_in(model));
    }
    let mut state = vec![0; STATE_BYTES];
    let initial = initial_in(model).into_iter().map(usize::from).filter(|f| *f < 4_096);
    initial.for_each(|f| state[f / 8] |= 1 << (f % 8));
    state
}

/// F as a file has it, at most 4,096.
pub(crate) fn facts_in(model: &[u8]) -> usize {
    model.get(5..7).map_or(6, |two| u16::from_be_bytes([two[0], two[1]]).min(4_096) as usize)
}

/// A starting state for closing by itself; one in eight has a bit from F on if F leaves any, one in
/// eight the last fact and most others.
pub fn start_state(seed: u64, index: u64, facts: usize) -> Vec<u8> {
    let mut rng = Rng::new(seed ^ 0x57A7E, index);
    let mut state = vec![0; STATE_BYTES + rng.of(&[0, 0, 1, 40])];
    state[STATE_BYTES..].fill(rng.draw() as u8);
    let count = rng.below(facts.min(12) + 1);
    let mut chosen: Vec<usize> = (0..count).map(|_| rng.below(facts)).collect();
    match rng.below(8) {
        0 if facts < 4_096 => chosen.push(facts + rng.below(2) * rng.below(4_096 - facts)),
        1 => chosen.extend((0..facts).filter(|f| f + 1 == facts || !rng.one_in(4))),
        _ => {}
    }
    chosen.iter().for_each(|f| state[f / 8] |= 1 << (f % 8));
    state
}

// Writers. They write what they are given, faults included.

pub fn write_model(model: &Model) -> Vec<u8> {
    let version = version(model);
    let mut out = vec![version];
    section(&mut out, |out| word(out, model.facts as usize));
    section(&mut out, |out| words(out, &model.initial));
    // A version has the sections of those before it, empty if need be.
    let later = [&model.persistent, &model.names].map(Option::as_deref);
    for list in later.iter().take(version as usize - 1) {
        section(&mut out, |out| words(out, list.unwrap_or_default()));
    }
    section(&mut out, |out| {
        for c in &model.clauses {
            word(out, 2 + 2 * c.body.len());
            word(out, c.head as usize);
            words(out, &c.body);
        }
    });
    let rule_lists = if version > 2 { 4 } else { 3 };
    section(&mut out, |out| {
        for r in &model.rules {
            lists(out, &[&r.pos, &r.neg, &r.add, &r.names][..rule_lists]);
        }
    });
    section(&mut out, |out| model.attacks.iter().for_each(|a| lists(out, &[&a.pos, &a.neg])));
    if let Some(formulas) = &model.formulas {
        section(&mut out, |out| {
            for codes in formulas {
                word(out, 2 * codes.len());
                words(out, codes);
            }
        });
    }
    out
}

/// The first version that has all of a model's sections.
pub(crate) fn version(model: &Model) -> u8 {
    let Model { persistent, names, formulas, .. } = model;
    let later = [persistent.is_some(), names.is_some(), formulas.is_some()];
    later.iter().rposition(|is_there| *is_there).map_or(1, |last| last as u8 + 2)
}

pub fn write_trace(goal: u16, steps: &[u16]) -> Vec<u8> {
    let mut out = vec![1];
    section(&mut out, |out| {
        word(out, goal as usize);
        words(out, steps);
    });
    out
}

fn section(out: &mut Vec<u8>, fill: impl FnOnce(&mut Vec<u8>)) {
    let at = out.len();
    out.extend([0; 4]);
    fill(out);
    let len = (out.len() - at - 4) as u32;
    out[at..at + 4].copy_from_slice(&len.to_be_bytes());
}

fn lists(out: &mut Vec<u8>, lists: &[&Vec<u16>]) {
    word(out, lists.iter().map(|list| 2 + 2 * list.len()).sum());
    for list in lists {
        word(out, list.len());
        words(out, list);
    }
}

fn word(out: &mut Vec<u8>, value: usize) {
    out.extend((value as u16).to_be_bytes());
}

fn words(out: &mut Vec<u8>, values: &[u16]) {
    values.iter().for_each(|value| word(out, *value as usize));
}

// Sound pairs.

/// How big a pair may become.
struct Size {
    facts: usize,
    clauses: usize,
    chain: usize,
    rules: usize,
    steps: usize,
}

/// Mostly small: the longest derivations take a checker a tenth of a second each.
fn size(rng: &mut Rng) -> Size {
    let [facts, clauses, chain, rules, steps] = match rng.below(40_000) {
        0 => [4_096 - rng.below(200), 4_096, 4_096, 4, rng.below(2)],
        1..=40 => [rng.of(&[1_000, 2_048, 4_095, 4_096]), rng.below(1_500), 150, 30, rng.below(4)],
        41..=500 => [20 + rng.below(280), rng.below(200), 40, 12, rng.below(6)],
        501..=520 => [12, 6, 5, 40, rng.of(&[300, 1_023, 1_024])],
        _ => [rng.below(22), rng.below(12), 6, 5, rng.below(7)],
    };
    Size { facts, clauses, chain, rules, steps }
}

fn sound_files(rng: &mut Rng) -> (Vec<u8>, Vec<u8>) {
    let (model, names) = sound_lists(rng);
    (write_model(&model), write_trace(names[0], &names[1..]))
}

/// A model, and a trace (goal first) whose steps fire, until perhaps one that doesn't.
fn sound_lists(rng: &mut Rng) -> (Model, Vec<u16>) {
    let size = size(rng);
    let mut model = Model { facts: size.facts as u16, ..Model::default() };
    let count = rng.below(6);
    model.initial = pick(rng, count, size.facts, |_| true);
    model.persistent = some_persistent(rng, size.facts);
    model.clauses = some_clauses(rng, &size, &model.initial);
    let pool = some_pool(rng);
    if model.persistent.is_some() && !rng.one_in(5) {
        let count = rng.of(&[0, 1, 2, 3, 40]);
        model.names = Some(pool.draw(rng, count));
        model.formulas = (!rng.one_in(4)).then(Vec::new);
    }
    let (known, past, used) = (Vec::new(), Vec::new(), BTreeSet::new());
    let mut story = Story { rng, size, model, pool, known, past, used };
    let mut names = story.steps();
    let attack = story.attacks();
    names.insert(0, story.formulas().unwrap_or(attack));
    (story.model, names)
}

/// Up to `count` facts that pass, ascending.
fn pick(rng: &mut Rng, count: usize, facts: usize, pass: impl Fn(usize) -> bool) -> Vec<u16> {
    let tries = if facts == 0 { 0 } else { count };
    let drawn = (0..tries).map(|_| rng.below(facts));
    sorted(drawn.filter(|f| pass(*f)).map(|f| f as u16).collect())
}

pub(crate) fn sorted(mut list: Vec<u16>) -> Vec<u16> {
    list.sort_unstable();
    list.dedup();
    list
}

/// Every fifth model is of version 1; of the facts of the others none, all or about half are
/// persistent.
fn some_persistent(rng: &mut Rng, facts: usize) -> Option<Vec<u16>> {
    if rng.one_in(5) {
        return None;
    }
    let share = rng.below(8);
    let mut is_in = |_: &u16| share > 0 && (share == 1 || rng.one_in(2));
    Some((0..facts as u16).filter(&mut is_in).collect())
}

/// The names of a pair: so many from the first on. Few, so that they come up again, or all.
struct Pool {
    first: usize,
    count: usize,
}

fn some_pool(rng: &mut Rng) -> Pool {
    let count = rng.of(&[3, 8, 8, 16, 1_024]);
    Pool { first: rng.of(&[0, 0, 250, 500, 1_024]).min(1_024 - count), count }
}

impl Pool {
    /// Up to `count` names, ascending.
    fn draw(&self, rng: &mut Rng, count: usize) -> Vec<u16> {
        let names = pick(rng, count, self.count, |_| true);
        names.iter().map(|name| name + self.first as u16).collect()
    }
}

fn some_clauses(rng: &mut Rng, size: &Size, initial: &[u16]) -> Vec<Clause> {
    let wanted = if size.facts == 0 { 0 } else { size.clauses };
    let mut out = Vec::with_capacity(wanted);
    let first = initial.first().map_or(0, |f| *f as usize);
    if size.chain > 1_000 {
        chain(&mut out, first, size);
    }
    while out.len() < wanted {
        let (a, b) = (rng.below(size.facts), rng.below(size.facts));
        match rng.below(8) {
            0 => chain(&mut out, first, size),
            1 => chain(&mut out, a, size),
            2 => (0..2 + rng.below(3)).for_each(|_| out.push(random_clause(rng, a, size.facts))),
            3 => {
                out.push(Clause { head: a as u16, body: vec![b as u16] });
                out.push(Clause { head: b as u16, body: vec![a as u16] });
            }
            _ => out.push(random_clause(rng, a, size.facts)),
        }
    }
    out.truncate(wanted);
    match rng.below(3) {
        0 => out.reverse(),
        1 => rng.shuffle(&mut out),
        _ => {}
    }
    out
}

/// Each fact from the one before it: as many rounds as it is long.
fn chain(out: &mut Vec<Clause>, first: usize, size: &Size) {
    let heads = (first + 1..size.facts).take(size.chain);
    out.extend(heads.map(|f| Clause { head: f as u16, body: vec![f as u16 - 1] }));
}

fn random_clause(rng: &mut Rng, head: usize, facts: usize) -> Clause {
    let usual = rng.of(&[1, 1, 1, 2, 2, 2, 2, 3, 3, 4]);
    let count = if rng.one_in(16) { rng.of(&[0, 0, 16]) } else { usual };
    Clause { head: head as u16, body: pick(rng, count, facts, |_| true) }
}

/// All derivable facts; sweeps to and fro, since only the set matters here.
fn reach(clauses: &[Clause], state: &[bool]) -> Vec<bool> {
    let mut known = state.to_vec();
    let mut grew = true;
    while grew {
        grew = false;
        clauses.iter().chain(clauses.iter().rev()).for_each(|c| grew |= learn(c, &mut known));
    }
    known
}

fn learn(clause: &Clause, known: &mut [bool]) -> bool {
    let fresh = !known[clause.head as usize] && clause.body.iter().all(|f| known[*f as usize]);
    known[clause.head as usize] |= fresh;
    fresh
}

/// A run that makes the rules it needs as it goes; `known` is the latest closure, `past` those of all
/// states, `used` the names used by then.
struct Story<'a> {
    rng: &'a mut Rng,
    size: Size,
    model: Model,
    pool: Pool,
    known: Vec<bool>,
    past: Vec<Vec<bool>>,
    used: BTreeSet<u16>,
}

impl Story<'_> {
    fn steps(&mut self) -> Vec<u16> {
        let mut state = vec![false; self.size.facts];
        self.model.initial.iter().for_each(|f| state[*f as usize] = true);
        let persistent: BTreeSet<u16> = self.model.persistent.iter().flatten().copied().collect();
        self.used.extend(self.model.names.iter().flatten());
        self.reached(&state);
        for _ in 0..self.rng.below(3) {
            let idle = self.rule(false);
            self.model.rules.push(idle);
        }
        let mut steps = Vec::new();
        while steps.len() < self.size.steps {
            let name = self.choose();
            steps.push(name as u16);
            if !self.fires(name) {
                // What follows a blocked step must be named but is never run.
                let more = self.rng.below(3).min(self.size.steps - steps.len());
                let rules = self.model.rules.len();
                (0..more).for_each(|_| steps.push(self.rng.below(rules) as u16));
                break;
            }
            let rule = &self.model.rules[name];
            let goes = rule.pos.iter().filter(|f| !persistent.contains(f));
            goes.for_each(|f| state[*f as usize] = false);
            rule.add.iter().for_each(|f| state[*f as usize] = true);
            self.used.extend(&rule.names);
            self.reached(&state);
        }
        steps
    }

    fn reached(&mut self, state: &[bool]) {
        self.known = reach(&self.model.clauses, state);
        self.past.push(self.known.clone());
    }

    fn fires(&self, name: usize) -> bool {
        let Rule { pos, neg, names, .. } = &self.model.rules[name];
        let known = |f: &u16| self.known[*f as usize];
        let used = |name: &u16| self.used.contains(name);
        pos.iter().all(known) && !neg.iter().any(known) && !names.iter().any(used)
    }

    /// A rule that fires if it is easily found or there is room to make it, sometimes any.
    fn choose(&mut self) -> usize {
        let count = self.model.rules.len();
        let long = self.size.steps > 100;
        for _ in 0..3.min(count) {
            let name = self.rng.below(count);
            if self.fires(name) || self.rng.one_in(if long { 4_000 } else { 5 }) {
                return name;
            }
        }
        if count == 0 || count < self.size.rules || long && count < 1_500 {
            let rule = self.rule(true);
            self.model.rules.push(rule);
            return count;
        }
        self.rng.below(count)
    }

    fn rule(&mut self, fit: bool) -> Rule {
        let (pos, neg) = self.conditions(fit);
        let count = self.list_size();
        let mut add = pick(self.rng, count, self.size.facts, |_| true);
        // Often P is written back, as for facts that aren't used up; version 2 has another way.
        let times = if self.model.persistent.is_some() { 4 } else { 2 };
        if self.rng.one_in(times) && add.len() + pos.len() <= 32 {
            add.extend(&pos);
        }
        Rule { pos, neg, add: sorted(add), names: self.names(fit) }
    }

    /// The names that a new rule makes, from version 3 on. With `fit` they are unused, but at times for one.
    fn names(&mut self, fit: bool) -> Vec<u16> {
        // In version 4 half of the rules make none, so that more runs get to their goal.
        if self.model.names.is_none() || self.model.formulas.is_some() && self.rng.one_in(2) {
            return vec![];
        }
        let count = self.list_size();
        let mut names = self.pool.draw(self.rng, count);
        if fit {
            names.retain(|name| !self.used.contains(name));
            let has_room = names.len() < 32;
            names.extend(self.used.last().filter(|_| has_room && self.rng.one_in(8)));
        }
        sorted(names)
    }

    fn list_size(&mut self) -> usize {
        if self.rng.one_in(60) {
            32
        } else {
            self.rng.below(4)
        }
    }

    /// P and N. With `fit` they hold in the latest closure; without, either may fail.
    fn conditions(&mut self, fit: bool) -> (Vec<u16>, Vec<u16>) {
        if !fit && !self.model.clauses.is_empty() && self.rng.one_in(3) {
            return self.denial();
        }
        let (fit_pos, fit_neg) = (fit || self.rng.one_in(3), fit || self.rng.one_in(3));
        let (p, n, facts) = (self.list_size(), self.list_size(), self.size.facts);
        let pos = match fit_pos && self.rng.one_in(2) {
            true => self.known_ones(p),
            false => pick(self.rng, p, facts, |f| !fit_pos || self.known[f]),
        };
        let neg = pick(self.rng, n, facts, |f| !(fit_neg && self.known[f]));
        (pos, neg)
    }

    /// Up to `count` facts of the latest closure, ascending.
    fn known_ones(&mut self, count: usize) -> Vec<u16> {
        let known: Vec<usize> = (0..self.known.len()).filter(|f| self.known[*f]).collect();
        let chosen = pick(self.rng, count, known.len(), |_| true);
        chosen.iter().map(|at| known[*at as usize] as u16).collect()
    }

    /// N is a clause's head. P is empty, has the same fact, or takes away what gives it.
    fn denial(&mut self) -> (Vec<u16>, Vec<u16>) {
        let Clause { head, body } = &self.model.clauses[self.rng.below(self.model.clauses.len())];
        let pos = match self.rng.below(3) {
            0 => vec![],
            1 => vec![*head],
            _ => body.clone(),
        };
        (pos, vec![*head])
    }

    /// A few attack states, and which is the goal: one met in the last closure, or any.
    fn attacks(&mut self) -> u16 {
        let count = if self.rng.one_in(200) { 64 } else { 1 + self.rng.below(3) };
        let goal = self.rng.below(count);
        for index in 0..count {
            let met = index == goal && self.rng.one_in(2);
            let (pos, neg) = self.conditions(met);
            self.model.attacks.push(Attack { pos, neg });
        }
        goal as u16
    }

    /// Some formulas, in version 4, and mostly one of them as the goal; at times there is no attack state then.
    fn formulas(&mut self) -> Option<u16> {
        self.model.formulas.as_ref()?;
        let count = if self.rng.one_in(200) { 64 } else { self.rng.below(5) };
        let facts = self.facts_to_ask();
        let count = if facts.is_empty() { 0 } else { count };
        let formulas = (0..count).map(|_| some_formula(self.rng, &facts)).collect();
        self.model.formulas = Some(formulas);
        if count == 0 || self.rng.one_in(5) {
            return None;
        }
        if self.rng.one_in(4) {
            self.model.attacks.clear();
        }
        Some((self.model.attacks.len() + self.rng.below(count)) as u16)
    }

    /// Mostly those that come or go in the run, if there are any.
    fn facts_to_ask(&mut self) -> Vec<u16> {
        let comes_or_goes = |f: &u16| {
            let is_there = |known: &Vec<bool>| known[*f as usize];
            self.past.iter().any(is_there) && !self.past.iter().all(is_there)
        };
        let all = 0..self.size.facts as u16;
        let moving: Vec<u16> = all.clone().filter(comes_or_goes).collect();
        if moving.is_empty() || self.rng.one_in(4) {
            return all.collect();
        }
        moving
    }
}

/// Mostly small, at times as large as it may be; most are about the past as a whole.
fn some_formula(rng: &mut Rng, facts: &[u16]) -> Vec<u16> {
    let most = if rng.one_in(40) { 254 } else { 1 + rng.below(12) };
    let formula = codes::any(rng, facts, most, 31);
    match rng.below(6) {
        0..=2 => [vec![codes::OF_ONE[1 + rng.below(3)]], formula].concat(),
        3 if most < 100 => [vec![codes::SINCE], codes::any(rng, facts, most, 31), formula].concat(),
        _ => formula,
    }
}

// Damage: first to the lists, then to the written bytes.

fn damage(rng: &mut Rng) -> (Vec<u8>, Vec<u8>) {
    let (mut model, mut names) = sound_lists(rng);
    let faults = rng.of(&[1, 1, 1, 2, 2, 3]);
    let in_lists = rng.below(faults + 1);
    (0..in_lists).for_each(|_| spoil_lists(rng, &mut model, &mut names));
    let mut model = write_model(&model);
    let mut trace = write_trace(names[0], &names[1..]);
    for _ in in_lists..faults {
        let is_model = rng.below(4) < 3;
        spoil_bytes(rng, if is_model { &mut model } else { &mut trace }, is_model);
    }
    (model, trace)
}

fn spoil_lists(rng: &mut Rng, model: &mut Model, names: &mut Vec<u16>) {
    let over = rng.of(&[0, 1, 1, 2]);
    if model.formulas.is_some() && rng.below(5) < 3 {
        return spoil_formulas(rng, model, &mut names[0], over);
    }
    if model.names.is_some() && rng.one_in(2) {
        return spoil_names(rng, model, over);
    }
    match rng.below(16) {
        0..=3 => bad_fact(rng, model),
        4..=6 => disorder(rng, model),
        7..=8 => long_list(rng, model, over),
        9 => model.facts = rng.of(&[4_096, 4_097, 4_097, 65_535]) as u16,
        10 => model.facts = rng.below(model.facts as usize + 1) as u16,
        11 => many_records(rng, model, over),
        12 => names.resize(1 + 1_024 + over * rng.of(&[1, 1, 510]), 0),
        _ => {
            let at = rng.below(names.len());
            let known = if at == 0 { model.goals() } else { model.rules.len() };
            names[at] = rng.of(&[known, known, known + 1, 65_535]) as u16;
        }
    }
}

/// One of the lists; every third time the persistent facts, where the model has them.
fn any_list<'a>(rng: &mut Rng, model: &'a mut Model) -> &'a mut Vec<u16> {
    let mut all = vec![&mut model.initial];
    all.extend(&mut model.persistent);
    if all.len() == 2 && rng.one_in(3) {
        return all.swap_remove(1);
    }
    all.extend(model.clauses.iter_mut().map(|c| &mut c.body));
    model.rules.iter_mut().for_each(|r| all.extend([&mut r.pos, &mut r.neg, &mut r.add]));
    model.attacks.iter_mut().for_each(|a| all.extend([&mut a.pos, &mut a.neg]));
    all.swap_remove(rng.below(all.len()))
}

fn bad_fact(rng: &mut Rng, model: &mut Model) {
    let facts = model.facts as usize;
    let fact = rng.of(&[facts, facts, facts + 1, 4_096, 65_535]) as u16;
    if rng.one_in(6) && !model.clauses.is_empty() {
        let at = rng.below(model.clauses.len());
        model.clauses[at].head = fact;
        return;
    }
    let list = any_list(rng, model);
    put_in(rng, list, fact);
}

/// A number at any place of a list, at times as its last.
fn put_in(rng: &mut Rng, list: &mut Vec<u16>, number: u16) {
    let at = rng.below(list.len() + 1);
    list.truncate(if rng.one_in(2) { at } else { list.len() });
    list.insert(at, number);
}

fn disorder(rng: &mut Rng, model: &mut Model) {
    let some = rng.below(model.facts as usize) as u16;
    let list = any_list(rng, model);
    mix_up(rng, list, some);
}

/// A list that is no longer ascending, most times; an empty one gets some number twice.
fn mix_up(rng: &mut Rng, list: &mut Vec<u16>, some: u16) {
    let at = rng.below(list.len());
    match list.get(at) {
        Some(_) if rng.one_in(2) => list.swap(0, at),
        Some(fact) => list.insert(at, *fact),
        None => list.extend([some, some]),
    }
}

/// A body or list at its bound or past it, of facts that exist.
fn long_list(rng: &mut Rng, model: &mut Model, over: usize) {
    model.facts = model.facts.max(40);
    if rng.one_in(2) && !model.clauses.is_empty() {
        let at = rng.below(model.clauses.len());
        model.clauses[at].body = (0..(16 + over) as u16).collect();
    } else {
        *any_list(rng, model) = (0..(32 + over) as u16).collect();
    }
}

/// Faults of the names that a rule makes, at times with another in its record, or of those in use.
fn spoil_names(rng: &mut Rng, model: &mut Model, over: usize) {
    let beyond = rng.of(&[1_024, 1_024, 1_025, 2_048, 65_535]) as u16;
    let some = rng.below(1_024) as u16;
    let fact = rng.of(&[0, model.facts as usize]) as u16;
    let at = rng.below(model.rules.len());
    let in_use = model.names.get_or_insert_default();
    match (rng.below(10), model.rules.get_mut(at)) {
        (0 | 1, Some(rule)) => put_in(rng, &mut rule.names, beyond),
        (2 | 3, Some(rule)) => mix_up(rng, &mut rule.names, some),
        (4 | 5, Some(rule)) => rule.names = (some % 900..).take(32 + over).collect(),
        (6, Some(rule)) => {
            put_in(rng, &mut rule.names, beyond);
            rule.pos.splice(0..0, [fact; 2]);
        }
        (7, _) => put_in(rng, in_use, beyond),
        _ => mix_up(rng, in_use, some),
    }
}

/// Faults of a formula's record, too many formulas, or a goal behind them.
fn spoil_formulas(rng: &mut Rng, model: &mut Model, goal: &mut u16, over: usize) {
    let (facts, goals) = (model.facts as usize, model.goals());
    let beyond = rng.of(&[facts, facts, facts + 1, facts + 256, 32_767]) as u16;
    let unknown = rng.of(&[32_776, 32_776, 32_777, 33_024, 65_535]) as u16;
    let all = model.formulas.get_or_insert_default();
    if all.is_empty() {
        all.push(vec![codes::NOT, 0]);
    }
    let at = rng.below(all.len());
    let formula = &mut all[at];
    let some = formula.last().copied().unwrap_or(0);
    match rng.below(24) {
        0 => put_in(rng, formula, unknown),
        // As an operator of one part or two.
        1 | 2 => {
            let again = if rng.one_in(2) { formula.clone() } else { vec![] };
            formula.splice(0..0, [vec![unknown], again].concat());
        }
        3..=5 => {
            formula.insert(0, codes::AND);
            formula.truncate(1 + rng.below(formula.len()));
        }
        6..=8 => formula.clear(),
        9..=11 => formula.extend([some, unknown, beyond].iter().take(1 + rng.below(2))),
        12..=14 => drop(formula.splice(0..0, vec![codes::OF_ONE[rng.below(4)]; 31 + over])),
        15 | 16 => *formula = long_formula(255 + over),
        17 => all.resize(64 + over, vec![0]),
        18 => put_in(rng, formula, beyond),
        19 => formula.push(beyond),
        _ => *goal = (goals + over / 2) as u16,
    }
}

/// A formula of so many codes, of which there is a half as facts.
pub(crate) fn long_formula(codes: usize) -> Vec<u16> {
    let tree = codes::tree_of_facts(codes::OR, &vec![0; codes.div_ceil(2)]);
    [&[codes::NOT][..(codes + 1) % 2], &tree].concat()
}

fn many_records(rng: &mut Rng, model: &mut Model, over: usize) {
    match rng.below(60) {
        0 => model.clauses.resize(4_096 + over, Clause::default()),
        1 => model.rules.resize(2_048 + over, Rule::default()),
        _ => model.attacks.resize(64 + over, Attack::default()),
    }
}

/// A length or count in the file; `section` is the one it belongs to, `end` where the bytes it covers
/// end, for lengths, and `list` which of its record's lists a count belongs to.
pub(crate) struct Field {
    pub(crate) section: usize,
    pub(crate) at: usize,
    pub(crate) wide: usize,
    end: usize,
    pub(crate) list: Option<usize>,
}

fn number_at(file: &[u8], at: usize, wide: usize) -> Option<usize> {
    let bytes = file.get(at..at + wide)?;
    Some(bytes.iter().fold(0, |value, byte| value << 8 | *byte as usize))
}

pub(crate) fn set_number(file: &mut [u8], field: &Field, value: usize) {
    let bytes = (value as u32).to_be_bytes();
    file[field.at..field.at + field.wide].copy_from_slice(&bytes[4 - field.wide..]);
}

/// A length or count that says more than there is.
pub(crate) fn raise(file: &mut [u8], field: &Field, more: usize) {
    let value = number_at(file, field.at, field.wide).unwrap_or(0);
    set_number(file, field, value + more);
}

/// The lengths and counts, as far as they can be followed.
pub(crate) fn fields(file: &[u8], is_model: bool) -> Vec<Field> {
    let mut out = Vec::new();
    let mut at = 1;
    let bare = bare_sections(file);
    for section in 0..if is_model { sections(file) } else { 1 } {
        let Some(len) = number_at(file, at, 4) else { break };
        let end = file.len().min(at + 4 + len);
        out.push(Field { section, at, wide: 4, end, list: None });
        if section >= bare {
            let has_counts = section > bare && section < FORMULAS;
            record_fields(&file[..end], section, at + 4, has_counts, &mut out);
        }
        at = end;
    }
    out
}

fn record_fields(
    file: &[u8],
    section: usize,
    mut at: usize,
    has_counts: bool,
    out: &mut Vec<Field>,
) {
    while let Some(len) = number_at(file, at, 2) {
        let end = file.len().min(at + 2 + len);
        out.push(Field { section, at, wide: 2, end, list: None });
        let (mut list, mut index) = (at + 2, 0);
        while has_counts && list + 2 <= end {
            out.push(Field { section, at: list, wide: 2, end: 0, list: Some(index) });
            list += 2 + 2 * number_at(file, list, 2).unwrap_or(0);
            index += 1;
        }
        at = end;
    }
}

fn spoil_bytes(rng: &mut Rng, file: &mut Vec<u8>, is_model: bool) {
    if file.is_empty() {
        return;
    }
    let at = rng.below(file.len());
    let some = (1 + rng.below(4)).min(file.len() - at);
    match rng.below(22) {
        0 => file[at] ^= 1 << rng.below(8),
        1 => file[at] = rng.draw() as u8,
        2 => file.truncate(at),
        3 => drop(file.splice(at..at, rng.draw().to_be_bytes()[..some].to_vec())),
        4 => drop(file.drain(at..at + some)),
        5 => file.extend_from_within(at..at + some),
        6 => drop(file.splice(at..at, file[at..at + some].to_vec())),
        7..=11 => spoil_field(rng, file, is_model),
        12..=15 => mended_cut(rng, file, is_model),
        16..=18 => other_version(rng, file, is_model),
        19 if rng.one_in(2) => file.clear(),
        19 => file.extend([0; 3]),
        _ => file.resize(if is_model { 65_536 } else { 4_096 } + rng.of(&[0, 1, 1, 2, 100]), 0),
    }
}

/// A version that there isn't, or the one of another layout.
fn other_version(rng: &mut Rng, file: &mut [u8], is_model: bool) {
    let other = another_layout(rng, file[0]) as usize;
    let choices = if is_model { &[0, 5, 255, other][..] } else { &[0, 2, 2, 2, 2, 3, 4] };
    file[0] = rng.of(choices) as u8;
}

pub(crate) fn another_layout(rng: &mut Rng, version: u8) -> u8 {
    version.wrapping_add(rng.below(3) as u8) % 4 + 1
}

fn spoil_field(rng: &mut Rng, file: &mut [u8], is_model: bool) {
    let mut all = fields(file, is_model);
    let bare = if is_model { bare_sections(file) } else { 0 };
    let in_fourth = |field: &Field| field.list == Some(3);
    let of_formulas = |field: &Field| field.section == FORMULAS;
    // Often the length of persistent facts or of names, the count of a fourth list, or a length of formulas.
    let at = match rng.below(7) {
        0 if bare > PERSISTENT => PERSISTENT,
        1 | 2 if bare > NAMES_IN_USE => NAMES_IN_USE,
        3 if all.iter().any(in_fourth) => {
            all.retain(in_fourth);
            rng.below(all.len())
        }
        4 | 5 if all.iter().any(of_formulas) => {
            all.retain(of_formulas);
            rng.below(all.len())
        }
        _ => rng.below(all.len()),
    };
    let Some(field) = all.get(at) else { return };
    let value = number_at(file, field.at, field.wide).unwrap_or(0);
    let choices = [value + 1, value + 1, value.wrapping_sub(1), value + 2, 0, 0xFFFF_FFFF, 0x8000];
    set_number(file, field, rng.of(&choices));
}

/// Bytes come or go and the lengths around them follow, so that the fault lies deep inside.
fn mended_cut(rng: &mut Rng, file: &mut Vec<u8>, is_model: bool) {
    let at = rng.below(file.len());
    let gone = rng.below(3).min(file.len() - at);
    let come = rng.below(3);
    // Sometimes only the section's length follows and the record's doesn't.
    let narrowest = if rng.one_in(3) { 4 } else { 2 };
    for field in fields(file, is_model) {
        if field.wide >= narrowest && field.at + field.wide <= at && at < field.end {
            let value = number_at(file, field.at, field.wide).unwrap_or(0);
            set_number(file, &field, (value + come).wrapping_sub(gone));
        }
    }
    let bytes = if rng.one_in(2) { [0; 8] } else { rng.draw().to_be_bytes() };
    drop(file.splice(at..at + gone, bytes[..come].to_vec()));
}
