//! Pairs in which a formula decides: the last of all, its last code, its deepest fact, a state a
//! thousand steps back, one state that breaks what held. Then the faults of a formula's record, what
//! comes before them, and goals that aren't there.

use crate::board::{rule, Board, Files};
use crate::codes::*;
use crate::gen::{fields, long_formula, raise, set_number, sorted};
use crate::read::{Attack, Rule, FORMULAS};

/// No attack state, one or all that there may be stand before the formulas.
fn some_attacks(b: &mut Board) {
    let count = b.rng.of(&[0, 1, 64]);
    b.model.attacks = vec![Attack::default(); count];
}

/// A place in a list, mostly its last.
fn place(b: &mut Board, count: usize) -> usize {
    if b.rng.one_in(3) {
        b.rng.below(count)
    } else {
        count - 1
    }
}

// Formulas at their bounds.

/// Many formulas, each a fact of its own: that of the goal is there and no other, or missing and no other.
pub(crate) fn many(mut b: Board, count: usize) -> Files {
    let alone = b.each(2) == 0;
    some_attacks(&mut b);
    let facts = b.loose(count);
    let at = place(&mut b, count);
    b.model.formulas = Some(facts.iter().map(|fact| vec![*fact]).collect());
    b.formula = Some(at);
    let stored = (0..count).filter(|other| (*other == at) == alone);
    b.model.initial.extend(stored.map(|other| facts[other]));
    b.crowd();
    b.files()
}

/// As many codes as there may be: one fact decides, the greatest at times.
pub(crate) fn full(mut b: Board) -> Files {
    let (operator, decides) = ([OR, AND][b.each(2)], b.each(3) < 2);
    let mut facts = b.loose(128);
    let at = place(&mut b, 128);
    if let Some(greatest) = facts.iter().position(|fact| fact + 1 == b.model.facts) {
        facts.swap(greatest, at);
    }
    let stored = (0..128).filter(|other| (*other == at && decides) == (operator == OR));
    b.model.initial.extend(stored.map(|other| facts[other]));
    some_attacks(&mut b);
    b.ask(tree_of_facts(operator, &facts));
    b.crowd();
    b.files()
}

/// As many codes as there may be, with as many looks back as fit: what one fact did decides.
pub(crate) fn full_of_past(mut b: Board) -> Files {
    let (way, decides) = (b.turn % 5, b.turn % 3 < 2);
    let states = 3 + b.rng.below(5);
    let other = b.one();
    let facts = b.loose(if way < 3 { 85 } else { 64 });
    // By turns, and not by luck: few turns have their last look back decide.
    let at = if b.turn % 4 < 3 { facts.len() - 1 } else { b.rng.below(facts.len()) };
    let leaf = |fact: u16| match way {
        0 => vec![ONCE, fact],
        1 => vec![YESTERDAY, fact],
        2 => vec![HISTORICALLY, fact],
        3 => vec![SINCE, other, fact],
        _ => vec![SINCE, fact, other],
    };
    let leaves: Vec<Vec<u16>> = facts.iter().map(|fact| leaf(*fact)).collect();
    // One is there in a single state, or all are and one is missing in a single state.
    let (operator, single) = [(OR, 0), (OR, states - 2), (AND, 0), (OR, 0), (AND, 1)][way];
    let is_there = operator == AND;
    let odd: Vec<bool> = (0..states).map(|now| (decides && now == single) != is_there).collect();
    if is_there {
        b.model.initial.extend(facts.iter().filter(|fact| **fact != facts[at]));
    }
    let from_start: Vec<bool> = (0..states).map(|now| way == 3 || now == 0).collect();
    live(&mut b, &[(facts[at], odd), (other, from_start)]);
    let mut codes = tree(operator, &leaves);
    codes.splice(0..0, vec![NOT; 255 - codes.len()]);
    b.ask(codes);
    b.hoard();
    b.files()
}

/// So deep, along one operand or the other: the deepest fact decides, or when it was there.
pub(crate) fn nested(mut b: Board, deep: usize) -> Files {
    let way = b.each(5);
    let decides = b.rng.below(3) < 2;
    let states = 2 + b.rng.below(40);
    let mut facts = b.loose(deep);
    some_attacks(&mut b);
    let life: Vec<bool> = (0..states).map(|_| b.rng.one_in(2)).collect();
    let chain = |b: &mut Board, operators: &[u16]| -> Vec<u16> {
        (1..deep).map(|_| operators[b.rng.below(operators.len())]).collect()
    };
    let codes = match way {
        0 => [&chain(&mut b, &[NOT, YESTERDAY, YESTERDAY]), &facts[..1]].concat(),
        1 => [&chain(&mut b, &OF_ONE), &facts[..1]].concat(),
        2 => [&vec![AND; deep - 1], &facts[..]].concat(),
        way => {
            let operator = if way == 3 { AND } else { SINCE };
            let before = facts[1..].iter().flat_map(|fact| [operator, *fact]);
            before.chain(facts[..1].iter().copied()).collect()
        }
    };
    let deepest = facts.remove(0);
    let there = |now: usize| match way {
        0 | 1 => life[now],
        2 | 3 => decides,
        _ => decides && now == 0,
    };
    let life = (0..states).map(there).collect();
    b.store(&facts);
    live(&mut b, &[(deepest, life)]);
    b.ask(codes);
    b.files()
}

// Over time.

/// Steps after which each fact is there or isn't, state by state; a rule is written once.
fn live(b: &mut Board, lives: &[(u16, Vec<bool>)]) {
    let only_in = |now: usize, other: usize| -> Vec<u16> {
        let there = lives.iter().filter(|(_, life)| life[now] && !life[other]);
        sorted(there.map(|(fact, _)| *fact).collect())
    };
    b.model.initial.extend(lives.iter().filter(|(_, life)| life[0]).map(|(fact, _)| *fact));
    for now in 1..lives[0].1.len() {
        b.again(rule(&only_in(now - 1, now), &only_in(now, now - 1)));
    }
}

/// In one state alone, the first or last at times, or in all but it; or always, or never.
fn some_life(b: &mut Board, states: usize) -> Vec<bool> {
    let any = b.rng.below(states);
    let at = b.rng.of(&[0, 0, 1, any, any, states - 2, states - 1]);
    let (there, otherwise) = [(true, false), (false, true)][b.rng.below(2)];
    let there = if b.rng.one_in(4) { otherwise } else { there };
    (0..states).map(|now| if now == at { there } else { otherwise }).collect()
}

/// As many steps as there may be, and the first state decides, or one that breaks what held since.
pub(crate) fn first_state(mut b: Board) -> Files {
    let way = b.each(8);
    b.facts(40);
    let states = 1_025;
    let [x, y] = [b.one(), b.one()];
    let any = 1 + b.rng.below(states - 1);
    let broken = b.rng.of(&[1, any, any, states - 1]);
    let first: Vec<bool> = (0..states).map(|now| now == 0).collect();
    let later: Vec<bool> = first.iter().map(|is_first| !is_first).collect();
    let but_one: Vec<bool> = (0..states).map(|now| now > 0 && now != broken).collect();
    let (life, codes) = match way {
        0 => (first.clone(), vec![ONCE, x]),
        1 => (later, vec![HISTORICALLY, x]),
        2 => (later, vec![SINCE, x, y]),
        3 => (but_one, vec![SINCE, x, y]),
        4 => (first.clone(), vec![ONCE, YESTERDAY, x]),
        // In the initial state there is no yesterday.
        5 => (vec![true; states], vec![HISTORICALLY, YESTERDAY, x]),
        6 => (later, vec![YESTERDAY, HISTORICALLY, OR, x, y]),
        _ => (but_one, vec![NOT, ONCE, YESTERDAY, SINCE, x, y]),
    };
    live(&mut b, &[(x, life), (y, first)]);
    some_attacks(&mut b);
    b.ask(codes);
    b.files()
}

/// Two facts that come and go, and looks back at them, one inside the other or since when.
pub(crate) fn some_state(mut b: Board) -> Files {
    let (is_since, way) = (b.each(2) == 0, b.each(4));
    b.facts(700);
    let states = 4 + b.rng.of(&[0, 1, 4, 260]);
    let [x, y] = [b.one(), b.one()];
    let (lives, codes) = if is_since {
        (since_lives(&mut b, states, way), vec![SINCE, x, y])
    } else {
        ([0; 2].map(|_| some_life(&mut b, states)), some_look(&mut b, x, y))
    };
    let [of_x, of_y] = lives;
    live(&mut b, &[(x, of_x), (y, of_y)]);
    b.hoard();
    some_attacks(&mut b);
    b.ask(codes);
    b.files()
}

/// The second part in one state alone, the first in all but one: the same, the next, one in between or the last.
fn since_lives(b: &mut Board, states: usize, way: usize) -> [Vec<bool>; 2] {
    let from = b.rng.below(states - 3);
    let between = from + 2 + b.rng.below(states - 3 - from);
    let missing = [from, from + 1, between, states - 1][way];
    [(0..states).map(|now| now != missing).collect(), (0..states).map(|now| now == from).collect()]
}

fn some_look(b: &mut Board, x: u16, y: u16) -> Vec<u16> {
    let forms: [&[u16]; 9] = [
        &[SINCE, NOT, x, y],
        &[ONCE, x],
        &[HISTORICALLY, x],
        &[YESTERDAY, ONCE, x],
        &[ONCE, YESTERDAY, AND, x, y],
        &[HISTORICALLY, IMPLIES, x, ONCE, y],
        &[YESTERDAY, ONCE, SINCE, x, y],
        &[SINCE, HISTORICALLY, x, YESTERDAY, y],
        &[OR, YESTERDAY, YESTERDAY, x, SINCE, YESTERDAY, x, SINCE, x, y],
    ];
    forms[b.rng.below(forms.len())].to_vec()
}

/// A fact that is never stored: it stands at the end of a chain of over 255 rounds, whose first fact goes.
pub(crate) fn derived(mut b: Board) -> Files {
    let way = b.each(4);
    let length = 258 + b.rng.below(100);
    let links = b.loose(length);
    b.chain(&links);
    b.hoard();
    let last = links[length - 1];
    let goes = rule(&links[..1], &[]);
    match way {
        0 => b.ask(vec![ONCE, last]),
        1 => b.ask(vec![NOT, last]),
        2 => b.ask(vec![HISTORICALLY, last]),
        _ => b.ask(vec![YESTERDAY, last]),
    }
    b.again(Rule::default());
    if way != 1 {
        b.again(goes);
    }
    if way == 3 && b.rng.one_in(2) {
        b.again(Rule::default());
    }
    b.files()
}

/// A step that doesn't fire, with a formula as the goal, whatever the formula says by then or said before.
pub(crate) fn stopped(mut b: Board) -> Files {
    let (way, is_true) = (b.turn % 3, b.turn % 2 == 0);
    let before = b.rng.of(&[0, 1, 260]);
    b.facts(700);
    let [missing, there] = [b.one(), b.one()];
    b.store(&[there]);
    (0..before).for_each(|_| b.again(Rule::default()));
    b.again(match way {
        0 => rule(&[missing], &[]),
        1 => Rule { neg: vec![there], ..Rule::default() },
        _ => Rule { names: vec![7], ..Rule::default() },
    });
    b.in_use(&[7]);
    b.again(Rule::default());
    b.hoard();
    some_attacks(&mut b);
    b.ask(if is_true { vec![ONCE, there] } else { vec![NOT, there] });
    b.files()
}

// Faults.

/// A formula among others, the last that there may be at times.
fn ask_late(b: &mut Board, codes: Vec<u16>) {
    let before = b.rng.of(&[0, 3, 63, 63]);
    b.model.formulas = Some(vec![vec![0]; before]);
    b.ask(codes);
    some_attacks(b);
}

/// No formula: a code that isn't one, codes missing or left over, none at all, or too deep at the far end.
pub(crate) fn malformed(mut b: Board) -> Files {
    let way = b.each(8);
    let facts = b.loose(128);
    let mut codes = tree_of_facts(OR, &facts);
    let any = b.rng.below(255);
    let unknown = 32_776 + b.rng.of(&[0, 1, 256, 32_759]) as u16;
    match way {
        // Where an operator stood, and where a fact may have.
        0 => codes[0] = 32_776,
        1 => codes[any] = unknown,
        2 => drop(codes.pop()),
        3 => codes.clear(),
        4 => codes = [tree_of_facts(AND, &facts[1..]), vec![0]].concat(),
        // One part of two is a formula by itself, and the other is left over.
        5 => codes[0] = [NOT, ONCE][b.rng.below(2)],
        // 33 deep behind 222 other codes.
        6 => codes = [vec![AND], tree_of_facts(OR, &facts[..111]), vec![NOT; 31], vec![0]].concat(),
        _ => codes = vec![[NOT, SINCE, YESTERDAY][b.rng.below(3)]; 1 + any],
    }
    ask_late(&mut b, codes);
    b.crowd();
    b.files()
}

/// Fact F or a greater one in a formula: the last of its codes, the first, one after its end, beside other faults.
pub(crate) fn fact_beyond(mut b: Board) -> Files {
    let way = b.each(6);
    let facts = b.model.facts;
    let beyond = [facts, facts, facts + 256, 32_767][b.rng.below(4)];
    let mut codes = tree_of_facts(OR, &b.loose(128));
    match way {
        0 => codes[254] = beyond,
        1 => codes = vec![beyond],
        2 => codes = vec![NOT, 0, beyond],
        3 => (codes[0], codes[254]) = (65_535, beyond),
        4 => codes = [vec![NOT; 40], vec![beyond]].concat(),
        _ => codes = vec![AND, beyond],
    }
    ask_late(&mut b, codes);
    b.crowd();
    b.files()
}

/// A code too many, or hundreds, at times with a later fault in the same record.
pub(crate) fn over_codes(mut b: Board) -> Files {
    let way = b.each(6);
    let mut codes = long_formula([256, 257, 256, 256, 512, 300][way]);
    match way {
        2 => codes[255] = b.model.facts,
        3 => codes[0] = [AND, 65_535][b.rng.below(2)],
        _ => {}
    }
    ask_late(&mut b, codes);
    b.crowd();
    b.files()
}

/// A formula too many, at times with another fault in it, which is later unless it is its shape.
pub(crate) fn over_formulas(mut b: Board) -> Files {
    let way = b.each(6);
    if way < 2 {
        return many(b, 65 + way);
    }
    let facts = b.model.facts;
    b.model.formulas = Some(vec![vec![0]; 64]);
    b.ask([vec![facts], vec![NOT], vec![0; 300], vec![0]][way - 2].clone());
    let (mut model, trace) = b.files();
    if way == 5 {
        // The last record, and with it the file, has a byte less.
        set_last_lengths(&mut model, 1);
        model.pop();
    }
    (model, trace)
}

/// The lengths of the formulas' section and of its last record, so many bytes less.
fn set_last_lengths(model: &mut [u8], less: usize) {
    let all = fields(model, true);
    let section = all.iter().find(|field| field.section == FORMULAS).expect("formulas");
    let record = all.last().expect("lengths");
    set_number(model, section, model.len() - section.at - 4 - less);
    set_number(model, record, model.len() - record.at - 2 - less);
}

/// Lengths that don't fit, half a code, a section cut off, missing, or of another version.
pub(crate) fn misshapen(mut b: Board) -> Files {
    let way = b.each(8);
    b.model.formulas = Some(vec![vec![0]; b.rng.of(&[0, 5, 63])]);
    let mut codes = tree_of_facts(OR, &b.loose(128));
    if b.rng.one_in(2) {
        codes[254] = b.model.facts;
    }
    b.ask(codes);
    b.hoard();
    let more = b.rng.of(&[1, 2, 256]);
    let far = b.rng.of(&[1, 1 << 16, 1 << 24, 1 << 31]);
    let some = 1 + b.rng.below(3);
    let (mut model, trace) = b.files();
    let all = fields(&model, true);
    let section = all.iter().find(|field| field.section == FORMULAS).expect("formulas");
    match way {
        0 => raise(&mut model, &all[all.len() - 1], more),
        1 => raise(&mut model, section, far),
        2 => {
            set_last_lengths(&mut model, 1);
            model.pop();
        }
        3 => model.truncate(section.at),
        4 => model.truncate(section.at + some),
        5 => model.extend(&[0; 3][..some]),
        6 => {
            // Half a length behind the last record.
            let len = model.len() - section.at - 4;
            set_number(&mut model, section, len + 1);
            model.push(0);
        }
        _ => model[0] = 3,
    }
    (model, trace)
}

/// The last goal that there is, and the first that there isn't, with and without attack states and formulas.
pub(crate) fn last_goal(mut b: Board) -> Files {
    // Both from the same turn, so that neither has to wait for the other.
    let (attacks, formulas) = [(1, 1), (64, 64), (0, 1), (1, 0), (64, 1), (0, 64)][b.turn % 6];
    let is_beyond = b.turn % 4 < 2;
    b.model.attacks = vec![Attack::default(); attacks];
    b.model.formulas = Some(vec![vec![NOT, 0]; formulas]);
    let beyond = if is_beyond { b.rng.of(&[0, 0, 1, 64, 256]) } else { 0 };
    b.goal = attacks + formulas + beyond - !is_beyond as usize;
    if b.model.attacks.is_empty() {
        b.formula = Some(b.goal);
    }
    b.store(&[0]);
    b.free.retain(|fact| *fact > 0);
    b.crowd();
    b.files()
}
