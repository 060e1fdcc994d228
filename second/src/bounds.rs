//! Pairs at every bound, made so that the last thing decides: the last fact of a full list, the last
//! record of a full section, the last step, the last round. Then the same past the bound. Most have
//! large numbers in all fields of the verdict besides.

use crate::board::{rule, Board, Files, Place, PLACES};
use crate::codes::{tree_of_facts, OR};
use crate::gen::{fields, raise, write_model, Ask, Rng};
use crate::read::{Attack, Rule, NAMES_IN_USE, PERSISTENT};
use crate::{crossed, fresh, lasting, listed, past, sought};

type Kind = fn(Board) -> Files;

/// One with the fact that is asked for.
type Asking = fn(Board) -> (Files, Ask);

/// Every turn has a pair of each of these kinds.
const KINDS: &[Kind] = &[
    |b| full(b, Place::Body),
    |b| full(b, Place::P),
    |b| full(b, Place::N),
    |b| full(b, Place::A),
    |b| full(b, Place::GoalP),
    |b| full(b, Place::GoalN),
    full_records,
    |b| many_clauses(b, 4_096),
    |b| many_rules(b, 2_048),
    |b| many_goals(b, 64),
    top_fact,
    many_stored,
    last_step,
    long_run,
    long_chain,
    over_list,
    over_records,
    over_steps,
    over_facts,
    fact_beyond,
    disorder,
    bad_last_record,
    last_head,
    in_the_way,
    missing_name,
    whole_model,
    whole_trace,
    shape,
    lasting::one_of_all,
    lasting::one_of_some,
    lasting::full_p,
    lasting::derived,
    lasting::added,
    |b| lasting::misshapen(b, PERSISTENT),
    |b| lasting::misnumbered(b, PERSISTENT),
    lasting::other_version,
    fresh::full_list,
    fresh::one_name,
    fresh::one_a_step,
    fresh::late,
    fresh::never_freed,
    fresh::conditions_first,
    |b| lasting::misshapen(b, NAMES_IN_USE),
    |b| lasting::misnumbered(b, NAMES_IN_USE),
    fresh::misnamed,
    fresh::misshapen_list,
    |b| past::many(b, 64),
    past::full,
    past::full_of_past,
    |b| past::nested(b, 32),
    past::first_state,
    past::some_state,
    past::derived,
    past::stopped,
    past::malformed,
    |b| past::nested(b, 33),
    past::fact_beyond,
    past::over_codes,
    past::over_formulas,
    past::misshapen,
    past::last_goal,
    crossed::last_place,
    crossed::one_fact,
    crossed::wide_chain,
    listed::many,
    listed::full,
    listed::after,
];

/// And of these.
const ASKING: &[Asking] = &[sought::top, sought::same_round, sought::steps, sought::beyond];

/// And a pair of one of these, which cost some hundredths of a second each.
const DEAR: &[Asking] = &[
    |b| (longest_chain(b), Ask::Last),
    |b| (longest_run(b), Ask::Last),
    |b| (longer_chain(b), Ask::Last),
    |b| (large_sum(b), Ask::Absent),
];

/// The pair of a number, kind after kind, with the fact that is asked for if the kind says so.
pub(crate) fn files(rng: &mut Rng, number: u64) -> (Files, Option<Ask>) {
    let kinds = KINDS.len() + ASKING.len() + 1;
    let (turn, at) = (number as usize / kinds, number as usize % kinds);
    let some = 2_500 + rng.below(1_596);
    let usual = rng.of(&[4_096, 4_096, 4_096, 4_095, some]) as u16;
    if let Some(kind) = KINDS.get(at) {
        return (kind(Board::new(rng, turn, usual)), None);
    }
    let (files, ask) = match ASKING.get(at - KINDS.len()) {
        Some(kind) => kind(Board::new(rng, turn, usual)),
        None => DEAR[turn % DEAR.len()](Board::new(rng, turn / DEAR.len(), 4_096)),
    };
    (files, Some(ask))
}

// At the bounds.

fn full(mut b: Board, place: Place) -> Files {
    let list = b.take(place.bound());
    b.store_around(place, &list);
    b.put(place, &list);
    b.crowd();
    b.files()
}

/// A rule and an attack state with every list full: the longest records there are.
fn full_records(mut b: Board) -> Files {
    let [pos, neg, add, goal] = [0; 4].map(|_| b.take(32));
    b.store_around(Place::P, &pos);
    b.step(Rule { pos, neg, add: add.clone(), ..Rule::default() });
    b.aim(&add, &goal);
    b.store_around(Place::GoalN, &goal);
    b.files()
}

/// Many clauses, of which one decides, mostly the last; the others give their heads in round 1 or never.
fn many_clauses(mut b: Board, count: usize) -> Files {
    let place = b.each(3);
    let idle = b.each(2) == 0;
    let (head, from, never) = (b.one(), b.one(), b.one());
    let heads = b.loose(1_000);
    b.hoard();
    b.store(&[from]);
    let other = if idle { never } else { from };
    (1..count).for_each(|i| b.clause(heads[i % heads.len()], &[other]));
    b.clause(head, &[from]);
    let at = if place < 2 { count - 1 } else { b.rng.below(count) };
    b.model.clauses.swap(at, count - 1);
    b.aim(&[head], &[]);
    b.files()
}

/// Many rules, each with a fact of its own to add; the last is named, and others.
fn many_rules(mut b: Board, count: usize) -> Files {
    let blocked = b.each(3) == 2;
    let facts = b.loose(1_500);
    let add = |i: usize| Rule { add: vec![facts[i % facts.len()]], ..Rule::default() };
    b.model.rules = (0..count).map(add).collect();
    let never = b.one();
    b.model.rules[count - 1].pos.extend(blocked.then_some(never));
    b.steps = (0..3).map(|_| b.rng.below(count) as u16).collect();
    let at = b.rng.below(4);
    b.steps.insert(at, count as u16 - 1);
    b.crowd();
    b.files()
}

/// Many attack states, each with a fact of its own; mostly the last is the goal.
fn many_goals(mut b: Board, count: usize) -> Files {
    let way = b.each(3);
    let facts = b.loose(count);
    facts.iter().for_each(|f| b.aim(&[*f], &[]));
    if way == 1 {
        b.store(&facts[count - 1..]);
    }
    if way == 2 {
        b.goal = b.rng.below(count);
    }
    b.crowd();
    b.files()
}

/// A fact in each place in which one can stand, the last of a list that it fills.
fn fact_in(b: &mut Board, fact: u16) {
    match b.each(8) {
        6 => b.store(&[fact]),
        7 => {
            let from = b.one();
            b.store(&[from]);
            b.clause(fact, &[from]);
            b.aim(&[fact], &[]);
        }
        at => {
            let mut list = b.take(PLACES[at].bound() - 1);
            b.store(if PLACES[at].wanted() { &list } else { &[] });
            list.push(fact);
            b.put(PLACES[at], &list);
        }
    }
}

/// Fact 4,095, stored or not.
fn top_fact(mut b: Board) -> Files {
    let top = 4_095;
    b.model.facts = 4_096;
    b.free.retain(|f| *f != top);
    fact_in(&mut b, top);
    if b.each(2) == 1 && !b.model.initial.contains(&top) {
        b.store(&[top]);
    }
    b.files()
}

/// All facts stored, or nearly all; what decides is one that isn't, or the last that is.
fn many_stored(mut b: Board) -> Files {
    let all = b.each(2) == 1;
    if all {
        // As many as there can be.
        b = Board::new(b.rng, b.turn, 4_096);
    }
    let missing = b.one();
    let fewer = if all { 0 } else { b.rng.of(&[0, 0, 1, 1_000]) };
    let stored = b.take(b.free.len() - fewer);
    b.store(&stored);
    b.model.initial.extend(all.then_some(missing));
    let last = &stored[stored.len() - 1..];
    match b.each(4) {
        0 => b.put(Place::P, &[missing]),
        1 => b.put(Place::N, last),
        2 => b.aim(last, &[missing]),
        _ => b.aim(last, last),
    }
    b.files()
}

/// A fact goes to and fro, step by step; the last step wins, is blocked, or does not help.
fn run(mut b: Board, steps: usize) -> Files {
    let [here, there, near, far, won, never] = [0; 6].map(|_| b.one());
    b.store(&[here]);
    // The two states differ in their rounds, so the sum tells how many of each were reached.
    b.clause(near, &[there]);
    b.clause(far, &[near]);
    let last = [rule(&[], &[won]), rule(&[never], &[]), rule(&[], &[])][b.each(3)].clone();
    b.model.rules = vec![rule(&[here], &[there]), rule(&[there], &[here]), last];
    b.steps = (0..steps as u16).map(|step| step % 2).collect();
    b.steps[steps - 1] = 2;
    b.aim(&[won], &[]);
    b.files()
}

fn last_step(mut b: Board) -> Files {
    b.facts(40);
    run(b, 1_024)
}

/// Steps, rounds and facts held are all over 255.
fn long_run(mut b: Board) -> Files {
    b.facts(700);
    b.hoard();
    let steps = 258 + b.rng.below(40);
    run(b, steps)
}

/// A chain's last fact decides, wanted or unwanted, also for two rules; at times a link is missing.
fn chain_of(mut b: Board, length: usize) -> Files {
    let way = b.each(4);
    let links = b.loose(length + 1);
    b.chain(&links);
    if way == 3 {
        let at = b.rng.below(b.model.clauses.len());
        b.model.clauses.swap_remove(at);
    }
    let place = if way == 1 { Place::GoalN } else { Place::GoalP };
    let last = &links[links.len() - 1..];
    b.put(place, last);
    b.model.rules = vec![Rule { neg: last.to_vec(), ..Rule::default() }, rule(last, &[])];
    b.files()
}

fn long_chain(b: Board) -> Files {
    let length = 256 + b.rng.below(200);
    chain_of(b, length)
}

fn longer_chain(b: Board) -> Files {
    let length = 1_001 + b.rng.below(1_400);
    chain_of(b, length)
}

fn longest_chain(b: Board) -> Files {
    chain_of(b, 4_095)
}

fn longest_run(mut b: Board) -> Files {
    b.facts(700);
    b.hoard();
    run(b, 1_024)
}

/// A sum of rounds over 65,535.
fn large_sum(mut b: Board) -> Files {
    b.facts(700);
    b.crowd();
    run(b, 260)
}

// Past the bounds.

/// One fact too many, or hundreds, at times with a later fault in the same record.
fn over_list(mut b: Board) -> Files {
    let place = PLACES[b.each(6)];
    let more = [1, 1, 240][b.each(3)];
    let mut list = b.take(place.bound() + more);
    b.store(if place.wanted() { &list } else { &[] });
    match b.each(3) {
        1 => list.push(b.model.facts),
        2 => list.swap(0, 1),
        _ => {}
    }
    b.put(place, &list);
    b.crowd();
    b.files()
}

/// One record too many, at times with a later fault in it.
fn over_records(mut b: Board) -> Files {
    match b.each(4) {
        0 => many_clauses(b, 4_097),
        1 => many_rules(b, 2_049),
        2 => many_goals(b, 65),
        _ => {
            b.model.attacks = vec![Attack::default(); 64];
            let beyond = b.model.facts;
            b.aim(&[beyond], &[]);
            b.files()
        }
    }
}

fn over_steps(mut b: Board) -> Files {
    b.facts(40);
    let steps = [1_025, 1_026, 2_044][b.each(3)];
    run(b, steps)
}

fn over_facts(mut b: Board) -> Files {
    b.crowd();
    b.model.facts = [4_097, 4_098, 8_192, 65_535][b.each(4)];
    b.files()
}

/// Fact F, or one further on.
fn fact_beyond(mut b: Board) -> Files {
    let facts = b.model.facts;
    let at = b.rng.below(4);
    fact_in(&mut b, [facts, facts, facts + 256, 65_535][at]);
    b.crowd();
    b.files()
}

/// The last two facts of a full list in the wrong order, or the same.
fn disorder(mut b: Board) -> Files {
    let place = b.each(7);
    let same = b.each(2) == 1;
    let spoil = |list: &mut Vec<u16>| {
        let last = list.len() - 1;
        list.swap(last, last - 1);
        list[last] = if same { list[last - 1] } else { list[last] };
    };
    b.crowd();
    match PLACES.get(place) {
        Some(place) => {
            let mut list = b.take(place.bound());
            spoil(&mut list);
            b.put(*place, &list);
            b.files()
        }
        None => {
            b.aim(&[], &[]);
            b.model.initial.sort_unstable();
            spoil(&mut b.model.initial);
            b.written()
        }
    }
}

/// Sections with all records but one that there may be; the kind adds the last.
fn nearly_full(b: &mut Board) {
    let heads = b.loose(500);
    b.model.rules = vec![Rule::default(); 2_047];
    b.model.attacks = vec![Attack::default(); 63];
    (0..4_095).for_each(|i| b.clause(heads[i % heads.len()], &[]));
}

/// A list too long, a fact F or two facts in the wrong order, in the last record of a full section.
fn bad_last_record(mut b: Board) -> Files {
    let fault = b.each(3);
    let place = PLACES[b.each(6)];
    let mut list = b.take(place.bound());
    match fault {
        0 => list[place.bound() - 1] = b.model.facts,
        1 => list.swap(0, 1),
        _ => list.push(b.one()),
    }
    nearly_full(&mut b);
    b.put(place, &list);
    b.files()
}

/// The last clause's head is the last fact of a full N, in the last record of its section.
fn last_head(mut b: Board) -> Files {
    let place = [Place::N, Place::GoalN][b.each(2)];
    let is_given = b.each(3) < 2;
    let list = b.take(32);
    let from = b.one();
    b.model.initial.extend(is_given.then_some(from));
    nearly_full(&mut b);
    b.clause(list[31], &[from]);
    b.put(place, &list);
    b.files()
}

/// A fact of a chain in an N: the stored one, the first derived, a later one, the last.
fn in_the_way(mut b: Board) -> Files {
    // Both from the same turn, so that neither has to wait for the other.
    let (at, way) = (b.turn % 4, b.turn % 5);
    let length = 300 + b.rng.below(100);
    let links = b.loose(length);
    b.chain(&links);
    let fact = links[[0, 1, 257 + b.rng.below(40), length - 1][at]];
    let denied = |rule: Rule| Rule { neg: vec![fact], ..rule };
    match way {
        0 => b.put(Place::N, &[fact]),
        1 => b.put(Place::GoalN, &[fact]),
        2 => b.step(denied(rule(&[fact], &[]))),
        // The rule itself would take away what the chain starts with.
        3 => b.step(denied(rule(&links[..1], &[]))),
        // The chain gets shorter by a step, and the rounds smaller.
        _ => {
            b.step(rule(&[], &links[3..4]));
            b.step(denied(rule(&[], &[])));
        }
    }
    b.files()
}

/// Of all rules and attack states that there may be, one more is named: by the goal, the last step or another.
fn missing_name(mut b: Board) -> Files {
    let way = b.each(4);
    b.model.rules = vec![Rule::default(); 2_048];
    b.model.attacks = vec![Attack::default(); 64];
    b.steps = (0..1_024).map(|_| b.rng.below(2_048) as u16).collect();
    let beyond = [0, 0, 1, 256][b.rng.below(4)];
    let at = b.rng.below(1_024);
    match way {
        0 => b.goal = b.model.goals() + beyond,
        1 => b.steps[1_023] = 2_048 + beyond as u16,
        2 => b.steps[at] = 2_048 + beyond as u16,
        _ => (b.goal, b.steps[at]) = (65_535, 65_535),
    }
    b.files()
}

/// The longest well-formed model, whose last bytes decide, and longer ones.
fn whole_model(mut b: Board) -> Files {
    let size = [65_535, 65_536, 65_537, 131_073][b.each(4)];
    let goal = b.take(32);
    if b.model.formulas.is_some() {
        b.store(&goal[31..]);
        b.ask(tree_of_facts(OR, &goal));
    } else {
        b.store_around(Place::GoalP, &goal);
        b.put(Place::GoalP, &goal);
    }
    let (body, heads) = (b.take(16), b.loose(500));
    // A clause of 16 takes 36 bytes, a stored fact 2.
    let left = 65_535 - write_model(&b.model).len();
    (0..left / 36).for_each(|i| b.clause(heads[i % heads.len()], &body));
    let rest = b.loose(left % 36 / 2);
    b.store(&rest);
    let (mut model, trace) = b.files();
    model.resize(size, 0);
    (model, trace)
}

/// Traces as long as they may be, and longer ones.
fn whole_trace(mut b: Board) -> Files {
    let size = [4_095, 4_096, 4_097, 65_537][b.each(4)];
    b.model.rules = vec![Rule::default()];
    b.steps = vec![0; (size - 7) / 2];
    let (model, mut trace) = b.files();
    trace.resize(size, 0);
    (model, trace)
}

/// A length or a count too great, by so much that a part of the number alone would fit.
fn shape(mut b: Board) -> Files {
    let (wide, more) =
        [(2, 1), (2, 256), (4, 1), (4, 65_536), (4, 1 << 24), (4, 1 << 31)][b.each(6)];
    let of_model = wide == 2 || b.each(2) == 0;
    for place in PLACES {
        let list = b.take(place.bound());
        b.put(place, &list);
    }
    b.crowd();
    let from_end = b.rng.below(6);
    let (mut model, mut trace) = b.files();
    let file = if of_model { &mut model } else { &mut trace };
    let such: Vec<_> = fields(file, of_model).into_iter().filter(|f| f.wide == wide).collect();
    raise(file, &such[such.len().saturating_sub(1 + from_end)], more);
    (model, trace)
}
