//! Closing: as the text has it, with whole round sets; called by itself over lent buffers; and two
//! quicker ones over a round table, to measure against.

use crate::index::{crossings, has_room, write_index};
use crate::read::{clause_section, parse_model, Clause, Model};
use crate::{room, write_table, Fault, FACT, NONE, ROOM, STATE_BYTES, TABLE_ENTRIES};
use std::collections::BTreeSet;

/// The number of rounds, and for each fact below F the first round it stands in. The state's facts
/// must lie below F.
pub fn close(model: &Model, state: &BTreeSet<u16>) -> (usize, Vec<u16>) {
    let mut round: Vec<bool> = vec![false; model.facts as usize];
    for &f in state {
        round[f as usize] = true;
    }
    let mut numbers: Vec<u16> = round.iter().map(|stands| if *stands { 0 } else { NONE }).collect();
    let mut count = 0;
    loop {
        let next = next_round(&model.clauses, &round);
        if next == round {
            return (count, numbers);
        }
        count += 1;
        for f in 0..next.len() {
            if next[f] && !round[f] {
                numbers[f] = count as u16;
            }
        }
        round = next;
    }
}

/// Bodies are looked up in the old round only, never in the one being made.
pub(crate) fn next_round(clauses: &[Clause], round: &[bool]) -> Vec<bool> {
    let mut next = round.to_vec();
    for clause in clauses {
        if clause.body.iter().all(|f| round[*f as usize]) {
            next[clause.head as usize] = true;
        }
    }
    next
}

/// Closing called by itself: the number of rounds, or the refusal's number with nothing changed.
pub fn close_api(model: &[u8], state: &[u8], table: &mut [u16]) -> Result<usize, u8> {
    close_in(model, state, table, None).map(|closed| closed.rounds)
}

/// What closing answers that is lent an index.
#[derive(Clone, Copy, Debug, PartialEq, Eq)]
pub struct Closed {
    pub rounds: usize,
    pub crossings: usize,
}

/// The same with an index lent, which is then written. ROOM for it comes after all that is said of
/// the model, and before the 6 of a starting state.
pub fn close_indexed_api(
    model: &[u8],
    state: &[u8],
    table: &mut [u16],
    index: &mut [u16],
) -> Result<Closed, u8> {
    close_in(model, state, table, Some(index))
}

fn close_in(
    model: &[u8],
    state: &[u8],
    table: &mut [u16],
    index: Option<&mut [u16]>,
) -> Result<Closed, u8> {
    if !room(state, table) {
        return Err(ROOM);
    }
    let model = parse_model(model).map_err(|fault| fault.number)?;
    if index.as_ref().is_some_and(|index| !has_room(&model, index)) {
        return Err(ROOM);
    }
    let start = facts_in(&state[..STATE_BYTES]);
    if start.iter().any(|f| *f >= model.facts) {
        return Err(FACT);
    }
    let (rounds, numbers) = close(&model, &start);
    write_table(&numbers, table);
    if let Some(index) = index {
        write_index(&model, index);
    }
    Ok(Closed { rounds, crossings: crossings(&model, &numbers) })
}

fn facts_in(state: &[u8]) -> BTreeSet<u16> {
    let bits = 0..(8 * state.len()) as u16;
    bits.filter(|f| state[*f as usize / 8] >> (f % 8) & 1 == 1).collect()
}

/// What the fast closings need to know of a well-formed model: F and where its clauses lie.
#[derive(Clone, Copy, Debug, PartialEq, Eq)]
pub struct Judged {
    pub facts: usize,
    pub start: usize,
    pub len: usize,
}

pub fn clause_place(model: &[u8]) -> Result<Judged, Fault> {
    let facts = parse_model(model)?.facts as usize;
    let part = clause_section(model).expect("a judged model has its sections");
    Ok(Judged { facts, start: part.start, len: part.len })
}

type Table = [u16; TABLE_ENTRIES];

/// Fast closing on the clause bytes as they stand in the file. The model must be well-formed and
/// the state free of bits from F on; `state` and `table` need their 512 bytes and 4,096 entries.
pub fn bench_close(model: &[u8], at: &Judged, state: &[u8], table: &mut [u16]) -> usize {
    let clauses = &model[at.start..at.start + at.len];
    fast_rounds(state, table, |round, table| sweep_bytes(clauses, round, table))
}

/// The same closing over decoded clauses, under the same conditions.
pub fn bench_close_flat(flat: &Flat, state: &[u8], table: &mut [u16]) -> usize {
    fast_rounds(state, table, |round, table| sweep_flat(flat, round, table))
}

/// Sweeps until one adds nothing; the table is all the memory there is.
fn fast_rounds(state: &[u8], table: &mut [u16], sweep: impl Fn(u16, &mut Table) -> bool) -> usize {
    let table: &mut Table = (&mut table[..TABLE_ENTRIES]).try_into().expect("room");
    begin(&state[..STATE_BYTES], table);
    let mut round = 0;
    while sweep(round, table) {
        round += 1;
    }
    round as usize
}

/// Stored facts stand in round 0, all others in none yet.
fn begin(state: &[u8], table: &mut Table) {
    for (eight, byte) in table.chunks_exact_mut(8).zip(state) {
        for (bit, entry) in eight.iter_mut().enumerate() {
            *entry = if byte >> bit & 1 == 1 { 0 } else { NONE };
        }
    }
}

/// Facts are below 4,096, so the mask changes nothing; it only saves the bounds check.
#[inline(always)]
fn slot(fact: u16) -> usize {
    fact as usize & (TABLE_ENTRIES - 1)
}

/// One sweep. Heads found in it get `round + 1` and so don't count as body facts yet.
fn sweep_bytes(clauses: &[u8], round: u16, table: &mut Table) -> bool {
    let mut grew = false;
    let mut rest = clauses;
    while let [l0, l1, h0, h1, tail @ ..] = rest {
        let body_len = u16::from_be_bytes([*l0, *l1]) as usize - 2;
        let (body, after) = tail.split_at(body_len);
        rest = after;
        let head = slot(u16::from_be_bytes([*h0, *h1]));
        if table[head] != NONE {
            continue;
        }
        let stands = |b: &[u8]| table[slot(u16::from_be_bytes([b[0], b[1]]))] <= round;
        if body.chunks_exact(2).all(stands) {
            table[head] = round + 1;
            grew = true;
        }
    }
    grew
}

/// The clauses decoded once: clause i has `heads[i]` and `bodies[ends[i - 1]..ends[i]]`.
#[derive(Clone, Debug, Default, PartialEq, Eq)]
pub struct Flat {
    pub heads: Vec<u16>,
    pub ends: Vec<u32>,
    pub bodies: Vec<u16>,
}

pub fn flat(model: &[u8], at: &Judged) -> Flat {
    let mut out = Flat::default();
    let mut rest = &model[at.start..at.start + at.len];
    while let [l0, l1, h0, h1, tail @ ..] = rest {
        let (body, after) = tail.split_at(u16::from_be_bytes([*l0, *l1]) as usize - 2);
        out.heads.push(u16::from_be_bytes([*h0, *h1]));
        out.bodies.extend(body.chunks_exact(2).map(|b| u16::from_be_bytes([b[0], b[1]])));
        out.ends.push(out.bodies.len() as u32);
        rest = after;
    }
    out
}

fn sweep_flat(flat: &Flat, round: u16, table: &mut Table) -> bool {
    let mut grew = false;
    let mut from = 0;
    for (head, end) in flat.heads.iter().zip(&flat.ends) {
        let body = from..*end as usize;
        from = body.end;
        let head = slot(*head);
        if table[head] == NONE && flat.bodies[body].iter().all(|f| table[slot(*f)] <= round) {
            table[head] = round + 1;
            grew = true;
        }
    }
    grew
}
