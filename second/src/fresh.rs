//! Pairs in which a name decides: the last of a full list, one of all or the only one, one that a
//! thousand steps made before, one whose facts have gone. Then what comes before a used name, and
//! the faults of the list that a rule has for its names.

use crate::board::{rule, Board, Files};
use crate::gen::{fields, raise, set_number, sorted};
use crate::read::{section_part, Part, Rule, PERSISTENT};

/// All names, in any order.
pub(crate) fn names(b: &mut Board) -> Vec<u16> {
    let mut all: Vec<u16> = (0..1_024).collect();
    b.rng.shuffle(&mut all);
    all
}

fn making(names: &[u16]) -> Rule {
    Rule { names: names.to_vec(), ..Rule::default() }
}

/// A step that makes as many names as it may: the last or any is in use, all others are, or a next step makes the last
/// or all of them again.
pub(crate) fn full_list(mut b: Board) -> Files {
    let way = b.each(5);
    let mut others = names(&mut b);
    let list = sorted(others.split_off(1_024 - 32));
    let last = &list[31..];
    let any = list[b.rng.below(32)];
    b.in_use(match way {
        0 => last,
        1 => std::slice::from_ref(&any),
        2 => &others,
        _ => &[],
    });
    b.step(making(&list));
    match way {
        3 => b.step(making(last)),
        4 => b.step(making(&list)),
        _ => {}
    }
    b.crowd();
    b.files()
}

/// The last name, the first or another is made: it alone is in use, all are, all but it, or a step before made it.
pub(crate) fn one_name(mut b: Board) -> Files {
    // Both from the same turn, so that neither has to wait for the other.
    let (at, way) = (b.turn % 5, b.turn % 4);
    let name = [1_023, 0, 255, 256, b.rng.below(1_024)][at] as u16;
    let others: Vec<u16> = (0..1_024).filter(|other| *other != name).collect();
    let all: Vec<u16> = (0..1_024).collect();
    b.in_use([&[name], &all[..], &others, &[]][way]);
    b.step(making(&[name]));
    if way == 3 {
        b.step(making(&[name]));
    }
    b.crowd();
    b.files()
}

/// As many steps as there may be, each with a name of its own; the last makes that of the first, of any or of the one
/// before, or the last that was unused.
pub(crate) fn one_a_step(mut b: Board) -> Files {
    let way = b.each(4);
    b.facts(40);
    b.in_use(&[]);
    for name in names(&mut b) {
        b.step(making(&[name]));
    }
    let any = b.rng.below(1_023) as u16;
    b.steps[1_023] = [0, any, 1_022, 1_023][way];
    b.files()
}

/// Steps, rounds and facts held are all over 255 when a name comes up again.
pub(crate) fn late(mut b: Board) -> Files {
    b.facts(700);
    b.hoard();
    // A round for each state.
    let [stored, head] = [b.one(), b.one()];
    b.store(&[stored]);
    b.clause(head, &[stored]);
    let list = sorted(names(&mut b)[..3].to_vec());
    b.in_use(&[]);
    b.model.rules = vec![Rule::default(), making(&list[1..2]), making(&list)];
    let steps = 258 + b.rng.below(40);
    b.steps = vec![0; steps];
    let early = b.rng.below(steps);
    b.steps[early] = 1;
    b.steps.push(2);
    b.files()
}

/// A name stays used when the fact of the same number goes, which came with it, was there when the name was made or
/// came later. Or only the fact was ever there, and the name is unused.
pub(crate) fn never_freed(mut b: Board) -> Files {
    let way = b.each(4);
    let name = b.rng.below(1_024) as u16;
    b.free.retain(|f| *f != name);
    let (it, none): (&[u16], &[u16]) = (&[name], &[]);
    b.in_use(if way == 2 { it } else { none });
    match way {
        0 => b.step(Rule { add: it.into(), ..making(it) }),
        1 => b.store(it),
        _ => b.step(rule(&[], it)),
    }
    b.step(Rule { pos: it.into(), ..making(if way == 1 { it } else { none }) });
    b.step(making(it));
    b.crowd();
    b.files()
}

/// A condition that isn't met comes before a used name, and a step that doesn't fire uses none, not even those before
/// the one that is used.
pub(crate) fn conditions_first(mut b: Board) -> Files {
    let way = b.each(4);
    let list = sorted(names(&mut b)[..32].to_vec());
    let at = b.rng.of(&[0, 31, 31]);
    b.in_use(if way == 2 { &[] } else { &list[at..] });
    let [missing, there] = [b.one(), b.one()];
    b.store(&[there]);
    let mut rule = making(&list);
    match way {
        1 => rule.neg.push(there),
        3 => (rule.pos, rule.add) = (vec![there], vec![missing]),
        _ => rule.pos.push(missing),
    }
    b.step(rule);
    b.crowd();
    b.files()
}

/// A fault in a full list of names, alone or with another in the same record, which may be the last that there may be.
pub(crate) fn misnamed(mut b: Board) -> Files {
    let (way, is_last) = (b.turn % 8, b.turn % 3 < 2);
    let mut list = sorted(names(&mut b)[..33].to_vec());
    let beyond = b.rng.of(&[1_024, 1_024, 1_280, 65_535]) as u16;
    let [pos, mut add] = [b.take(32), b.take(32)];
    if way != 3 {
        list.truncate(32);
    }
    match way {
        0 => list[31] = beyond,
        1 => list.swap(30, 31),
        2 => list[31] = list[30],
        // A name too great: it is judged before the order, here and elsewhere, and after the facts and the counts.
        4 => {
            list[31] = beyond;
            list.swap(0, 1);
        }
        5 => (list[31], add[31]) = (beyond, b.model.facts),
        6 => {
            list[31] = beyond;
            add.swap(30, 31);
        }
        7 => {
            list[31] = beyond;
            add.push(b.one());
        }
        _ => {}
    }
    b.in_use(&[]);
    b.model.rules = vec![Rule::default(); if is_last { 2_047 } else { 5 }];
    b.step(Rule { pos, add, ..making(&list) });
    b.files()
}

/// A list of names whose count doesn't fit, that leaves a name over, that isn't there, or that version 2 has.
pub(crate) fn misshapen_list(mut b: Board) -> Files {
    let way = b.each(5);
    let list = sorted(names(&mut b)[..32].to_vec());
    b.model.formulas = None;
    b.keep(&[]);
    b.in_use(&[]);
    b.crowd();
    b.step(making(&list));
    if way == 3 {
        b.model.names = None;
    }
    let (mut model, trace) = b.files();
    // The section of names in use has a length and nothing more.
    let Part { start, len } = section_part(&model, PERSISTENT).expect("persistent facts");
    let at = start + len;
    let all = fields(&model, true);
    let count = all.iter().rfind(|field| field.list == Some(3));
    match (way, count) {
        (0, Some(count)) => raise(&mut model, count, 1),
        (1, Some(count)) => raise(&mut model, count, 256),
        (2, Some(count)) => set_number(&mut model, count, 31),
        (3, _) => {
            model[0] = 3;
            model.splice(at..at, [0; 4]);
        }
        _ => {
            model[0] = 2;
            model.drain(at..at + 4);
        }
    }
    (model, trace)
}
