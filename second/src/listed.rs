//! Pairs at the bounds in which it decides which rules fire: the last rule of all that there may be, the last
//! condition or name of a full list, and the step that doesn't fire, with all that it would do.

use crate::board::{rule, Board, Files};
use crate::fresh::names;
use crate::gen::sorted;
use crate::read::Rule;

/// As many rules as there may be: all but the last fire, the last alone does, every third, or none. The last step
/// doesn't fire, or does and changes nothing, or there is none.
pub(crate) fn many(mut b: Board) -> Files {
    // Both from the same turn, so that neither has to wait for the other.
    let (way, end) = (b.turn % 4, b.turn % 3);
    let [there, derived, never] = [0; 3].map(|_| b.one());
    b.store(&[there]);
    b.clause(derived, &[there]);
    let fires = Rule { neg: vec![never], ..rule(&[derived], &[]) };
    let idle = [
        rule(&[never], &[]),
        Rule { neg: vec![derived], ..Rule::default() },
        Rule { neg: vec![there], ..rule(&[derived], &[never]) },
    ];
    for number in 0..2_048 {
        let is_one = [number < 2_047, number == 2_047, number % 3 == 1, false][way];
        b.model.rules.push(if is_one { &fires } else { &idle[number % 3] }.clone());
    }
    let at = [2_047, b.rng.below(2_048)][b.rng.below(2)] as u16;
    b.steps = [vec![], vec![at], vec![[0, 2_047, 1, 0][way], at]][end].clone();
    b.files()
}

/// Rules with full lists, of which one fires and each other lacks it by the last of a list: P, N, an N that is derived,
/// or its names.
pub(crate) fn full(mut b: Board) -> Files {
    let with_names = b.each(3) > 0;
    let [pos, neg] = [0; 2].map(|_| b.take(32));
    let [absent, derived, from] = [0; 3].map(|_| b.one());
    b.store(&pos);
    b.store(&[from]);
    b.clause(derived, &[from]);
    let made = sorted(names(&mut b)[..32].to_vec());
    let last = |list: &[u16], last: u16| sorted([&list[..31], &[last]].concat());
    let fires = Rule { pos: pos.clone(), neg: neg.clone(), ..Rule::default() };
    let mut all = vec![
        Rule { pos: last(&pos, absent), ..fires.clone() },
        Rule { neg: last(&neg, from), ..fires.clone() },
        Rule { neg: last(&neg, derived), ..fires.clone() },
    ];
    if with_names {
        b.in_use(&made[31..]);
        all.push(Rule { names: made[..31].to_vec(), ..fires.clone() });
        all.push(Rule { names: made, ..fires });
    } else {
        all.push(fires);
    }
    b.rng.shuffle(&mut all);
    b.model.rules = all;
    b.files()
}

/// A step that would take a fact, add one and make a name, on each of which another rule hangs. It fires, lacks a fact,
/// has a derived one in the way, or its name is used; a step before it does the same to others.
pub(crate) fn after(mut b: Board) -> Files {
    let way = b.each(4);
    let all = names(&mut b);
    for name in &all[..2] {
        let [taken, added, there, derived, never] = [0; 5].map(|_| b.one());
        b.store(&[taken, there]);
        b.clause(derived, &[there]);
        let makes = |names: &[u16]| Rule { names: names.to_vec(), ..Rule::default() };
        let is_last = *name == all[1];
        let missing = if is_last && way == 1 { never } else { there };
        let neg = if is_last && way == 2 { vec![derived] } else { vec![never] };
        let made = if is_last && way == 3 { sorted(all[..2].to_vec()) } else { vec![*name] };
        let (pos, add) = (sorted(vec![taken, missing]), sorted(vec![added, there]));
        b.step(Rule { pos, neg, add, names: made });
        let hanging = [
            rule(&[taken], &[]),
            rule(&[added], &[]),
            rule(&[derived], &[]),
            Rule { neg: vec![taken], ..Rule::default() },
            Rule { neg: vec![added], ..Rule::default() },
            makes(&[*name]),
            makes(&all[2..3]),
        ];
        b.model.rules.extend(hanging);
    }
    b.in_use(&[]);
    b.crowd();
    b.files()
}
