//! The board on which the pairs of `bounds` are made: facts that nothing names yet, and where to put them.

use crate::gen::{sorted, write_model, write_trace, Rng};
use crate::read::{Attack, Clause, Model, Rule};

pub(crate) type Files = (Vec<u8>, Vec<u8>);

/// The lists that a record can have.
#[derive(Clone, Copy)]
pub(crate) enum Place {
    Body,
    P,
    N,
    A,
    GoalP,
    GoalN,
}

pub(crate) const PLACES: [Place; 6] =
    [Place::Body, Place::P, Place::N, Place::A, Place::GoalP, Place::GoalN];

impl Place {
    pub(crate) fn bound(self) -> usize {
        if matches!(self, Place::Body) {
            16
        } else {
            32
        }
    }

    /// Whether the facts of the list are to be there.
    pub(crate) fn wanted(self) -> bool {
        matches!(self, Place::Body | Place::P | Place::GoalP)
    }
}

/// A pair in the making. Facts come from `free`, so that nothing but what a kind puts there can decide.
pub(crate) struct Board<'a> {
    pub(crate) rng: &'a mut Rng,
    pub(crate) turn: usize,
    pub(crate) model: Model,
    pub(crate) goal: usize,
    /// The formula that is the goal, if one is.
    pub(crate) formula: Option<usize>,
    pub(crate) steps: Vec<u16>,
    pub(crate) free: Vec<u16>,
}

impl Board<'_> {
    pub(crate) fn new(rng: &mut Rng, turn: usize, facts: u16) -> Board<'_> {
        let mut free: Vec<u16> = (0..facts).collect();
        rng.shuffle(&mut free);
        // The first facts taken have the greatest among them, every other time.
        if rng.one_in(2) {
            free.retain(|f| f + 1 != facts);
            free.push(facts - 1);
        }
        // The facts taken last, names and formulas: these decide nothing unless a kind says so.
        let count = rng.of(&[0, 1, 40]);
        let version = 1 + rng.below(4);
        let persistent = (version > 1).then(|| sorted(free[..count].to_vec()));
        let names = (version > 2).then(|| (1_024 - count as u16..1_024).collect());
        let formulas = (version > 3).then(|| vec![vec![0]; count]);
        let model = Model { facts, persistent, names, formulas, ..Model::default() };
        Board { rng, turn, model, goal: 0, formula: None, steps: Vec::new(), free }
    }

    /// The next of `n` choices, turn by turn, so that none has to wait for luck.
    pub(crate) fn each(&mut self, n: usize) -> usize {
        let choice = self.turn % n;
        self.turn /= n;
        choice
    }

    /// Fewer facts, for the kinds with many steps: a small closure is a quick one.
    pub(crate) fn facts(&mut self, facts: u16) {
        self.model.facts = facts;
        self.free.retain(|f| *f < facts);
        self.model.persistent.iter_mut().for_each(|list| list.retain(|f| *f < facts));
    }

    /// Facts that nothing names yet, in any order.
    pub(crate) fn loose(&mut self, count: usize) -> Vec<u16> {
        self.free.split_off(self.free.len().saturating_sub(count))
    }

    pub(crate) fn take(&mut self, count: usize) -> Vec<u16> {
        sorted(self.loose(count))
    }

    pub(crate) fn one(&mut self) -> u16 {
        self.free.pop().expect("there are more facts than a kind takes")
    }

    pub(crate) fn store(&mut self, facts: &[u16]) {
        self.model.initial.extend(facts);
    }

    /// These persistent facts, in version 2 unless there are names or formulas.
    pub(crate) fn keep(&mut self, facts: &[u16]) {
        self.model.persistent = Some(sorted(facts.to_vec()));
    }

    /// Version 3 unless there are formulas, with these names in use at the start.
    pub(crate) fn in_use(&mut self, names: &[u16]) {
        self.model.names = Some(sorted(names.to_vec()));
    }

    /// The fact of a list that decides: mostly the last.
    fn odd_one(&mut self, list: &[u16]) -> Option<u16> {
        match self.each(4) {
            0 | 2 => list.last().copied(),
            1 => Some(list[self.rng.below(list.len())]),
            _ => None,
        }
    }

    /// Stores a list's facts so that one of them decides whether its record holds.
    pub(crate) fn store_around(&mut self, place: Place, list: &[u16]) {
        let odd = self.odd_one(list);
        let stored = list.iter().filter(|f| (odd == Some(**f)) != place.wanted());
        self.model.initial.extend(stored);
    }

    pub(crate) fn clause(&mut self, head: u16, body: &[u16]) {
        self.model.clauses.push(Clause { head, body: body.to_vec() });
    }

    /// A new rule, and a step that names it.
    pub(crate) fn step(&mut self, rule: Rule) {
        self.steps.push(self.model.rules.len() as u16);
        self.model.rules.push(rule);
    }

    /// A step that names a rule which may be there already.
    pub(crate) fn again(&mut self, rule: Rule) {
        match self.model.rules.iter().position(|other| *other == rule) {
            Some(name) => self.steps.push(name as u16),
            None => self.step(rule),
        }
    }

    pub(crate) fn aim(&mut self, pos: &[u16], neg: &[u16]) {
        self.goal = self.model.attacks.len();
        self.model.attacks.push(Attack { pos: pos.to_vec(), neg: neg.to_vec() });
    }

    /// Version 4, with a formula of these codes as the goal.
    pub(crate) fn ask(&mut self, codes: Vec<u16>) {
        let formulas = self.model.formulas.get_or_insert_default();
        self.formula = Some(formulas.len());
        formulas.push(codes);
    }

    /// Puts a list where the verdict hangs on it.
    pub(crate) fn put(&mut self, place: Place, list: &[u16]) {
        let facts = list.to_vec();
        match place {
            Place::Body => {
                let head = self.one();
                self.clause(head, list);
                self.aim(&[head], &[]);
            }
            Place::P => self.step(Rule { pos: facts, ..Rule::default() }),
            Place::N => self.step(Rule { neg: facts, ..Rule::default() }),
            Place::A => {
                self.step(Rule { add: facts, ..Rule::default() });
                self.aim(&list[list.len() - 1..], &[]);
            }
            Place::GoalP => self.aim(list, &[]),
            Place::GoalN => self.aim(&[], list),
        }
    }

    /// Each fact from the one before it: as many rounds as clauses, in whatever order they stand.
    pub(crate) fn chain(&mut self, facts: &[u16]) {
        self.store(&facts[..1]);
        let mut clauses: Vec<Clause> =
            facts.windows(2).map(|two| Clause { head: two[1], body: vec![two[0]] }).collect();
        match self.rng.below(3) {
            0 => clauses.reverse(),
            1 => self.rng.shuffle(&mut clauses),
            _ => {}
        }
        self.model.clauses.extend(clauses);
    }

    /// Over 255 facts to be held.
    pub(crate) fn hoard(&mut self) {
        let stored = 256 + self.rng.below(60);
        let stored = self.take(stored);
        self.store(&stored);
    }

    /// Over 255 facts to be held, and over 255 rounds.
    pub(crate) fn crowd(&mut self) {
        self.hoard();
        let length = 257 + self.rng.below(40);
        let links = self.loose(length);
        self.chain(&links);
    }

    /// The two files; without a goal there is an attack state that is always met.
    pub(crate) fn files(mut self) -> Files {
        if self.model.attacks.is_empty() && self.formula.is_none() {
            self.aim(&[], &[]);
        }
        self.model.initial.sort_unstable();
        self.written()
    }

    /// The two files, the initial facts as they are.
    pub(crate) fn written(self) -> Files {
        let goal = self.formula.map_or(self.goal, |number| self.model.attacks.len() + number);
        (write_model(&self.model), write_trace(goal as u16, &self.steps))
    }
}

/// A rule without N.
pub(crate) fn rule(pos: &[u16], add: &[u16]) -> Rule {
    Rule { pos: pos.into(), add: add.into(), ..Rule::default() }
}
