//! Whether one fact holds after all steps. The last state is closed round by round, and no further than the
//! round in which the fact arrives; the states before it are closed in full, since their rules need them.

use crate::close::{close, next_round};
use crate::index::{has_room, write_index};
use crate::read::{parse_for, Model, Parsed};
use crate::{next_state, room, why_not, write_bits, write_table};
use crate::{FACT, NAMES_BYTES, NONE, NO_ROOM, ROOM, STATE_BYTES};
use std::collections::BTreeSet;

/// How many values are answered: the fact's round number, or none if it is absent, and the rounds run.
pub const HOLDS: usize = 2;

/// 0, with both values at the front of `out`, or the refusal's number. FACT comes after all that is said of
/// the two files and before any step. A step that doesn't fire leaves the buffers as the check does, every
/// other refusal as they were.
pub fn holds_api(
    model: &[u8],
    trace: &[u8],
    fact: usize,
    state: &mut [u8],
    table: &mut [u16],
    names: &mut [u8],
    index: &mut [u16],
    out: &mut [u64],
) -> u8 {
    if out.len() < HOLDS || !room(state, table) || names.len() < NAMES_BYTES {
        return ROOM;
    }
    let judge = |model: &Model| if has_room(model, index) { Ok(()) } else { Err(NO_ROOM) };
    let parsed = match parse_for(model, trace, judge) {
        Ok(parsed) => parsed,
        Err(fault) => return fault.number,
    };
    if fact >= parsed.model.facts as usize {
        return FACT;
    }
    let last = last_state(&parsed);
    let (number, numbers) = match last.stopped {
        Some((number, numbers)) => (number, numbers),
        None => {
            let (rounds, numbers) = close_until(&parsed.model, &last.stored, fact);
            out[0] = numbers[fact] as u64;
            out[1] = rounds as u64;
            (0, numbers)
        }
    };
    write_bits(&last.stored, &mut state[..STATE_BYTES]);
    write_table(&numbers, table);
    write_bits(&last.used, &mut names[..NAMES_BYTES]);
    write_index(&parsed.model, index);
    number
}

/// The last state reached, not closed; where a step doesn't fire, its number and the round numbers of that state.
struct Last {
    stored: BTreeSet<u16>,
    used: BTreeSet<u16>,
    stopped: Option<(u8, Vec<u16>)>,
}

fn last_state(Parsed { model, trace, .. }: &Parsed) -> Last {
    let persistent: BTreeSet<u16> = model.persistent.iter().flatten().copied().collect();
    let mut stored: BTreeSet<u16> = model.initial.iter().copied().collect();
    let mut used: BTreeSet<u16> = model.names.iter().flatten().copied().collect();
    for &step in &trace.steps {
        let rule = &model.rules[step as usize];
        let (_, numbers) = close(model, &stored);
        if let Some((number, _)) = why_not(rule, &numbers, &used) {
            return Last { stored, used, stopped: Some((number, numbers)) };
        }
        stored = next_state(&stored, rule, &persistent);
        used.extend(&rule.names);
    }
    Last { stored, used, stopped: None }
}

/// The rounds run until a fact is there or nothing is added, and the round numbers up to then. A round is a
/// whole one: all that it gives is there.
fn close_until(model: &Model, stored: &BTreeSet<u16>, fact: usize) -> (usize, Vec<u16>) {
    let is_stored: Vec<bool> = (0..model.facts).map(|f| stored.contains(&f)).collect();
    let mut numbers: Vec<u16> = is_stored.iter().map(|is| if *is { 0 } else { NONE }).collect();
    let (mut round, mut rounds) = (is_stored, 0);
    while !round[fact] {
        let next = next_round(&model.clauses, &round);
        if next == round {
            break;
        }
        rounds += 1;
        let arrives = |f: &usize| next[*f] && !round[*f];
        (0..next.len()).filter(arrives).for_each(|f| numbers[f] = rounds as u16);
        round = next;
    }
    (rounds, numbers)
}
