//! Goals about the past: a formula read from its codes, operator first, and its truth in the last
//! state, found by looking back over the closures of all states reached.

use crate::NONE;
use Formula::*;

/// Codes below this one are facts; the operators start here.
pub(crate) const OPERATORS: u16 = 32_768;
/// A lone fact is 1 deep.
const DEEPEST: usize = 32;

pub(crate) enum Formula {
    Fact(u16),
    Not(Part),
    And(Part, Part),
    Or(Part, Part),
    Implies(Part, Part),
    Yesterday(Part),
    Once(Part),
    Historically(Part),
    Since(Part, Part),
}

type Part = Box<Formula>;

/// Why codes are no formula.
#[derive(Clone, Copy, Debug, PartialEq, Eq)]
pub(crate) enum Wrong {
    Code,
    Unfinished,
    After,
    Deep,
}

pub(crate) fn read(codes: &[u16]) -> Result<Formula, Wrong> {
    let (formula, rest) = take(codes)?;
    if !rest.is_empty() {
        return Err(Wrong::After);
    }
    if depth(&formula) > DEEPEST {
        return Err(Wrong::Deep);
    }
    Ok(formula)
}

/// A formula, and the codes after it.
type Taken<'a> = Result<(Formula, &'a [u16]), Wrong>;

/// The formula that the codes start with.
fn take(codes: &[u16]) -> Taken<'_> {
    let (&code, rest) = codes.split_first().ok_or(Wrong::Unfinished)?;
    if code < OPERATORS {
        return Ok((Fact(code), rest));
    }
    match code - OPERATORS {
        0 => one(Not, rest),
        1 => two(And, rest),
        2 => two(Or, rest),
        3 => two(Implies, rest),
        4 => one(Yesterday, rest),
        5 => one(Once, rest),
        6 => one(Historically, rest),
        7 => two(Since, rest),
        _ => Err(Wrong::Code),
    }
}

fn one(operator: fn(Part) -> Formula, codes: &[u16]) -> Taken<'_> {
    let (part, rest) = take(codes)?;
    Ok((operator(part.into()), rest))
}

fn two(operator: fn(Part, Part) -> Formula, codes: &[u16]) -> Taken<'_> {
    let (first, rest) = take(codes)?;
    let (second, rest) = take(rest)?;
    Ok((operator(first.into(), second.into()), rest))
}

fn depth(formula: &Formula) -> usize {
    match formula {
        Fact(_) => 1,
        Not(f) | Yesterday(f) | Once(f) | Historically(f) => 1 + depth(f),
        And(f, g) | Or(f, g) | Implies(f, g) | Since(f, g) => 1 + depth(f).max(depth(g)),
    }
}

/// Whether a formula is true in the last state. The history has each state's round numbers, those of
/// the initial one first.
pub(crate) fn truth(formula: &Formula, history: &[Vec<u16>]) -> bool {
    *values(formula, history).last().expect("the initial state at least")
}

/// Whether it is true in each state.
fn values(formula: &Formula, history: &[Vec<u16>]) -> Vec<bool> {
    let of = |part: &Formula| values(part, history);
    let each = |is_true: &dyn Fn(usize) -> bool| (0..history.len()).map(is_true).collect();
    match formula {
        Fact(fact) => each(&|now| history[now][*fact as usize] != NONE),
        Not(f) => {
            let f = of(f);
            each(&|now| !f[now])
        }
        And(f, g) => {
            let (f, g) = (of(f), of(g));
            each(&|now| f[now] && g[now])
        }
        Or(f, g) => {
            let (f, g) = (of(f), of(g));
            each(&|now| f[now] || g[now])
        }
        Implies(f, g) => {
            let (f, g) = (of(f), of(g));
            each(&|now| !f[now] || g[now])
        }
        Yesterday(f) => {
            let f = of(f);
            each(&|now| now > 0 && f[now - 1])
        }
        Once(f) => {
            let f = of(f);
            each(&|now| f[..=now].contains(&true))
        }
        Historically(f) => {
            let f = of(f);
            each(&|now| !f[..=now].contains(&false))
        }
        Since(f, g) => {
            let (f, g) = (of(f), of(g));
            let holds = |then: usize, now: usize| g[then] && !f[then + 1..=now].contains(&false);
            each(&|now| (0..=now).rev().any(|then| holds(then, now)))
        }
    }
}
