//! Pairs at the bounds whose index is long: the last body place of the last clause, all clauses with one
//! fact, and bodies that wait for all of their facts.

use crate::board::{Board, Files};

/// The last clause has fact 4,095 in its body, so that the index ends with its place: of all clauses that
/// there may be, or of as many with full bodies as a file has room for.
pub(crate) fn last_place(b: Board) -> Files {
    let mut b = Board::new(b.rng, b.turn, 4_096);
    let (count, size) = [(4_096, 4), (1_700, 16)][b.each(2)];
    let way = b.each(3);
    let top = 4_095;
    b.free.retain(|f| *f != top);
    let (stored, never, heads) = (b.take(40), b.take(8), b.loose(500));
    let (head, from) = (b.one(), b.one());
    b.store(&stored);
    let pool = [&stored[..], &never].concat();
    for i in 1..count {
        let from = b.rng.below(pool.len());
        let mut body: Vec<u16> = (0..size).map(|k| pool[(from + 3 * k) % pool.len()]).collect();
        body.sort_unstable();
        b.clause(heads[i % heads.len()], &body);
    }
    // Stored, derived, or not there.
    match way {
        0 => b.store(&[top]),
        1 => {
            b.model.clauses[0].head = top;
            b.model.clauses[0].body = vec![from];
            b.store(&[from]);
        }
        _ => {}
    }
    b.clause(head, &[&stored[..size - 1], &[top]].concat());
    b.aim(&[head], &[]);
    b.files()
}

/// One fact in the bodies of all clauses that there may be but a few, whose bodies are empty; it is stored,
/// derived, both or neither. Many clauses have the same head.
pub(crate) fn one_fact(mut b: Board) -> Files {
    let way = b.each(4);
    let (fact, from, other) = (b.one(), b.one(), b.one());
    let heads = b.loose(20);
    b.store(&[from]);
    if way == 0 || way == 2 {
        b.store(&[fact]);
    }
    for i in 1..4_096 {
        let both = [fact.min(other), fact.max(other)];
        let body = match i % 50 {
            0 => &[],
            1 => &both[..],
            _ => &[fact],
        };
        b.clause(heads[i % heads.len()], body);
    }
    let source = if way == 1 || way == 2 { from } else { other };
    b.clause(fact, &[source]);
    let at = b.rng.below(4_096);
    b.model.clauses.swap(at, 4_095);
    b.aim(&[heads[3]], &[]);
    b.files()
}

/// A chain in which each fact takes the 16 before it, so that a body is met by its last fact alone; some
/// have a shorter body besides, and one may be stored. The clauses stand in either order, or in none.
pub(crate) fn wide_chain(mut b: Board) -> Files {
    let order = b.each(3);
    let length = 300 + b.rng.below(100);
    let links = b.loose(length);
    b.store(&links[..16]);
    for end in 16..length {
        let mut body = links[end - 16..end].to_vec();
        body.sort_unstable();
        b.clause(links[end], &body);
        if end % 16 == 0 {
            let less = b.rng.below(16);
            b.clause(links[end], &body[less..]);
        }
    }
    if b.rng.one_in(2) {
        let some = links[20 + b.rng.below(length - 20)];
        b.store(&[some]);
    }
    match order {
        0 => b.model.clauses.reverse(),
        1 => b.rng.shuffle(&mut b.model.clauses),
        _ => {}
    }
    b.aim(&links[length - 1..], &[]);
    b.files()
}
