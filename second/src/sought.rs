//! Pairs at the bounds in which a fact that is asked for decides: the last fact of all, one of thousands that arise in
//! the same round, one that arises in other rounds after other steps, and one that there isn't.

use crate::board::{rule, Board, Files};
use crate::fresh::names;
use crate::gen::Ask;
use crate::read::Rule;

/// Fact 4,095: stored, of round 1, of a round after 255 others, or absent.
pub(crate) fn top(b: Board) -> (Files, Ask) {
    let mut b = Board::new(b.rng, b.turn, 4_096);
    let (way, top) = (b.each(4), 4_095);
    b.free.retain(|f| *f != top);
    let (from, never) = (b.one(), b.one());
    let length = 258 + b.rng.below(40);
    let links = b.loose(length);
    b.store(&[from]);
    b.chain(&links);
    match way {
        0 => b.store(&[top]),
        1 => b.clause(top, &[from]),
        2 => b.clause(top, &links[256..257]),
        _ => b.clause(top, &[never]),
    }
    (b.files(), Ask::Number(top as usize))
}

/// As many clauses as there may be: facts of round 3 from one fact, all but a few, and then some rounds more. The fact
/// that is asked for is given by the first clause of the file, by the last or by another.
pub(crate) fn same_round(mut b: Board) -> (Files, Ask) {
    let way = b.each(3);
    let (start, after) = (b.loose(3), b.loose(5));
    let heads = b.loose(2_000);
    b.chain(&start);
    let count = 4_096 - 2 - after.len();
    (0..count).for_each(|i| b.clause(heads[i % heads.len()], &start[2..]));
    b.rng.shuffle(&mut b.model.clauses);
    // Each of them from the one before, the first from some fact of round 3.
    let mut from = heads[b.rng.below(heads.len())];
    for fact in after {
        b.clause(fact, &[from]);
        from = fact;
    }
    let of_three = b.model.clauses.iter().position(|clause| clause.body == start[2..]);
    let (first, last) = (of_three.unwrap_or(0), b.model.clauses.len() - 1);
    b.model.clauses.swap(0, first);
    if b.rng.one_in(2) {
        // Those of round 3 last, so that the file's last clause gives one.
        b.model.clauses.reverse();
    }
    let at = [0, last, b.rng.below(last)][way];
    let asked = b.model.clauses[at].head;
    (b.files(), Ask::Number(asked as usize))
}

/// A fact that arises in round 3 after an even number of steps and in round 1 after an odd one. Each step asks for one
/// that it gives a round later. The last step fires, lacks a fact, has that later one in its way, or makes a used name.
pub(crate) fn steps(mut b: Board) -> (Files, Ask) {
    let (way, count) = (b.turn % 4, [1_024, 1_023, 2, 1, 300][b.turn % 5]);
    b.facts(60);
    let [here, there, one, two, asked, deep, never] = [0; 7].map(|_| b.one());
    b.store(&[here]);
    b.clause(deep, &[asked]);
    b.clause(asked, &[there]);
    b.clause(asked, &[two]);
    b.clause(two, &[one]);
    b.clause(one, &[here]);
    let made = names(&mut b)[0];
    b.in_use(&[made]);
    let last = match way {
        0 => rule(&[deep], &[]),
        1 => rule(&[never], &[]),
        2 => Rule { neg: vec![deep], ..Rule::default() },
        _ => Rule { names: vec![made], ..rule(&[deep], &[]) },
    };
    let both =
        |f: u16, to: u16| Rule { pos: crate::gen::sorted(vec![f, deep]), ..rule(&[], &[to]) };
    b.model.rules = vec![both(here, there), both(there, here), last];
    b.steps = (0..count).map(|step| step % 2).collect();
    // Where the last step fires it changes nothing.
    b.steps.truncate(count as usize - 1);
    b.steps.push(2);
    (b.files(), Ask::Number(asked as usize))
}

/// A fact of F or more, of which a part of the number is a fact that holds, where the last step fires, is blocked or
/// makes a used name; and at times the last fact that there is instead.
pub(crate) fn beyond(mut b: Board) -> (Files, Ask) {
    let (way, end) = (b.turn % 5, b.turn % 3);
    let (facts, held) = (b.model.facts as usize, b.one());
    let never = b.one();
    b.store(&[held]);
    let made = names(&mut b)[0];
    b.in_use(&[made]);
    let last = [
        rule(&[held], &[held]),
        rule(&[never], &[]),
        Rule { names: vec![made], ..rule(&[held], &[]) },
    ];
    b.step(rule(&[held], &[held]));
    b.step(last[end].clone());
    b.crowd();
    let over = [65_536, 1 << 32, 1 << 63][b.rng.below(3)];
    let asked = [facts, facts - 1, held as usize + over, 65_535, usize::MAX][way];
    (b.files(), Ask::Number(asked))
}
