//! Every rule that can fire in the last state that a trace reaches. Where a step doesn't fire that is the
//! state before it, and whether the goal is met says nothing.

use crate::index::has_room;
use crate::read::{parse_for, Model};
use crate::{leave, room, run, why_not, End, Fault, NAMES_BYTES, NO_ROOM, ROOM};

/// How many rules fire, their numbers being at the front of the list, and the buffers as the check leaves
/// them; or the refusal's number, with nothing changed. ROOM for the list comes where that for the index
/// does, by the rules that there are and not by those that fire.
pub fn rules_api(
    model: &[u8],
    trace: &[u8],
    state: &mut [u8],
    table: &mut [u16],
    names: &mut [u8],
    index: &mut [u16],
    list: &mut [u16],
) -> Result<usize, u8> {
    if !room(state, table) || names.len() < NAMES_BYTES {
        return Err(ROOM);
    }
    let judge = |model: &Model| judge_room(model, index, list);
    let parsed = parse_for(model, trace, judge).map_err(|fault| fault.number)?;
    let end = run(&parsed);
    leave(&parsed, &end, state, table, names, Some(index));
    let numbers = firing(&parsed.model, &end);
    list[..numbers.len()].copy_from_slice(&numbers);
    Ok(numbers.len())
}

fn judge_room(model: &Model, index: &[u16], list: &[u16]) -> Result<(), Fault> {
    if has_room(model, index) && list.len() >= model.rules.len() {
        return Ok(());
    }
    Err(NO_ROOM)
}

/// The numbers of the rules that fire at the end of a run, each once, ascending.
pub(crate) fn firing(model: &Model, end: &End) -> Vec<u16> {
    let mut numbers = Vec::new();
    for (number, rule) in model.rules.iter().enumerate() {
        if why_not(rule, end.numbers(), &end.used).is_none() {
            numbers.push(number as u16);
        }
    }
    numbers
}
