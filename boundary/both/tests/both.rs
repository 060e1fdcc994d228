//! The second program's own tests, run through both programs: cases A to L, the edges, every fault and every two faults
//! together, versions 2 to 4, the index, the rules that fire, and one fact.
//! Those tests say `second`; here that is this file, whose `check`, `close_api`, `rules_api`, `holds_api` and
//! `count_api`, and the first two with an index, make each call of both and compare.

extern crate second as other;
extern crate self as second;

#[path = "../../../second/tests/cases.rs"]
mod cases;
#[path = "../../../second/tests/faults.rs"]
mod faults;
#[path = "../../../second/tests/firing.rs"]
mod firing;
#[path = "../../../second/tests/formulas.rs"]
mod formulas;
#[path = "../../../second/tests/holds.rs"]
mod holds;
#[path = "../../../second/tests/names.rs"]
mod names;
#[path = "../../../second/tests/persistent.rs"]
mod persistent;
#[path = "../../../second/tests/places.rs"]
mod places_crossed;

use cantivorex::Lent;
pub use other::*;

pub fn check(
    model: &[u8],
    trace: &[u8],
    state: &mut [u8],
    table: &mut [u16],
    names: &mut [u8],
) -> Verdict {
    let verdict = both::check(model, trace, &mut Lent { state, table, names, index: &mut [] });
    verdict.unwrap_or_else(|difference| panic!("{difference}"))
}

pub fn close_api(model: &[u8], state: &[u8], table: &mut [u16]) -> Result<usize, u8> {
    both::close(model, state, table).unwrap_or_else(|difference| panic!("{difference}"))
}

pub fn check_indexed(
    model: &[u8],
    trace: &[u8],
    state: &mut [u8],
    table: &mut [u16],
    names: &mut [u8],
    index: &mut [u16],
) -> Verdict {
    let verdict = both::check_indexed(model, trace, &mut Lent { state, table, names, index });
    verdict.unwrap_or_else(|difference| panic!("{difference}"))
}

pub fn close_indexed_api(
    model: &[u8],
    state: &[u8],
    table: &mut [u16],
    index: &mut [u16],
) -> Result<Closed, u8> {
    let answer = both::close_indexed(model, state, table, index);
    answer.unwrap_or_else(|difference| panic!("{difference}"))
}

pub fn rules_api(
    model: &[u8],
    trace: &[u8],
    state: &mut [u8],
    table: &mut [u16],
    names: &mut [u8],
    index: &mut [u16],
    list: &mut [u16],
) -> Result<usize, u8> {
    let answer = both::rules(model, trace, &mut Lent { state, table, names, index }, list);
    answer.unwrap_or_else(|difference| panic!("{difference}"))
}

pub fn holds_api(
    model: &[u8],
    trace: &[u8],
    fact: usize,
    state: &mut [u8],
    table: &mut [u16],
    names: &mut [u8],
    index: &mut [u16],
    out: &mut [u64],
) -> u8 {
    let answer = both::holds(model, trace, fact, &mut Lent { state, table, names, index }, out);
    answer.unwrap_or_else(|difference| panic!("{difference}"))
}

pub fn count_api(model: &[u8]) -> Result<Counts, u8> {
    both::count(model, 3).unwrap_or_else(|difference| panic!("{difference}"))
}
