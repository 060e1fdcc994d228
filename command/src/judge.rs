//! The one place where the library is asked: a check in buffers of its own, with what it leaves in them, the rules that
//! can fire there, whether a fact holds, and what a model has.

use crate::layout;
pub use library::Counts;
use library::{
    Holds, Lent, Verdict, INDEX_ENTRIES, LIST_ENTRIES, NAMES_BYTES, NONE, STATE_BYTES,
    TABLE_ENTRIES,
};
use std::cell::RefCell;

/// The refusal of a trace that has no fault in its bytes.
const NAME: u8 = 9;

/// Of a fact that the model lacks, and of a step that can't fire.
pub const FACT: u8 = 6;
pub const BLOCKED: u8 = 10;
pub const USED: u8 = 13;

/// The least model: no fact, no clause, no rule, no attack state.
const LEAST: [u8; 23] = [1, 0, 0, 0, 2, 0, 0, 0, 0, 0, 0, 0, 0, 0, 0, 0, 0, 0, 0, 0, 0, 0, 0];

thread_local! {
    /// One index for all that a thread asks: it has room for every model, and what it held before says nothing.
    static INDEX: RefCell<Vec<u16>> = RefCell::new(vec![0; INDEX_ENTRIES]);
}

pub struct Judged {
    pub verdict: Verdict,
    state: Vec<u8>,
    table: Vec<u16>,
    names: Vec<u8>,
}

pub fn check(model: &[u8], trace: &[u8]) -> Judged {
    let mut state = vec![0; STATE_BYTES];
    let mut table = vec![0; TABLE_ENTRIES];
    let mut names = vec![0; NAMES_BYTES];
    let verdict = INDEX.with_borrow_mut(|index| {
        let lent = &mut Lent { state: &mut state, table: &mut table, names: &mut names, index };
        library::check_by_size(model, trace, lent)
    });
    Judged { verdict, state, table, names }
}

/// The rules that can fire in the last state that a trace reaches, or the refusal's number.
pub fn rules(model: &[u8], trace: &[u8]) -> Result<Vec<usize>, u8> {
    let mut list = vec![0; LIST_ENTRIES];
    let count = lending(|lent| library::rules(model, trace, lent, &mut list))?;
    Ok(list[..count].iter().map(|number| *number as usize).collect())
}

/// Whether a fact holds in the last state, and the rounds run on it, or the refusal's number.
pub fn holds(model: &[u8], trace: &[u8], fact: usize) -> Result<(Holds, usize), u8> {
    lending(|lent| library::holds(model, trace, fact, lent))
}

/// Buffers for a call whose answer is all that is asked for.
fn lending<T>(ask: impl FnOnce(&mut Lent) -> T) -> T {
    INDEX.with_borrow_mut(|index| {
        ask(&mut Lent {
            state: &mut [0; STATE_BYTES],
            table: &mut [0; TABLE_ENTRIES],
            names: &mut [0; NAMES_BYTES],
            index,
        })
    })
}

impl Judged {
    pub fn is_stored(&self, fact: usize) -> bool {
        has_bit(&self.state, fact)
    }

    pub fn is_in_use(&self, name: usize) -> bool {
        has_bit(&self.names, name)
    }

    /// The first round in which a fact stands in the last state's closing.
    pub fn round(&self, fact: usize) -> Option<usize> {
        let round = self.table[fact] as usize;
        (round != NONE).then_some(round)
    }

    /// The rounds of the last state alone, from the library's closing.
    pub fn rounds(&self, model: &[u8]) -> Result<usize, u8> {
        let mut table = vec![0; TABLE_ENTRIES];
        let closed = INDEX
            .with_borrow_mut(|index| library::close_indexed(model, &self.state, &mut table, index));
        closed.map(|closed| closed.rounds)
    }
}

/// Facts and names are laid out alike.
fn has_bit(bytes: &[u8], number: usize) -> bool {
    bytes[number / 8] >> (number % 8) & 1 == 1
}

/// What a model has; none where it is refused.
pub fn counts(model: &[u8]) -> Option<Counts> {
    library::count(model).ok()
}

/// Whether a goal's formula is true after these steps; none where the goal is no formula, or a step doesn't fire.
pub fn truth(model: &[u8], goal: usize, steps: &[usize]) -> Option<bool> {
    truth_of(&check(model, &layout::trace(goal, steps)).verdict)
}

/// The same by the verdict on them: ATTACK exactly if the formula is false.
pub fn truth_of(verdict: &Verdict) -> Option<bool> {
    match verdict.number {
        0 => Some(false),
        11 => Some(true),
        _ => None,
    }
}

/// Whether a file has the section of a trace, by a model that can't be at fault itself.
pub fn is_trace(file: &[u8]) -> bool {
    let verdict = check(&LEAST, file).verdict;
    !is_refusal(&verdict) || verdict.number == NAME
}

/// Whether the files were refused, so that no step was run.
pub fn is_refusal(verdict: &Verdict) -> bool {
    !matches!(verdict.number, 0 | 10 | 11 | 13)
}

/// The names of the verdicts that there are; number 8 is never given, and some have no name.
pub fn names() -> impl Iterator<Item = &'static str> {
    library::NAMES.into_iter().filter(|name| !matches!(*name, "" | "NEGATED"))
}

pub fn name(verdict: &Verdict) -> &'static str {
    library::NAMES[verdict.number as usize]
}

#[cfg(test)]
mod tests {
    use super::*;
    use crate::layout::Model;
    use std::collections::BTreeSet;

    /// What is shown of the states of a run fits its verdict: the rounds add up, and the last state is held.
    #[test]
    fn the_states_make_up_the_verdict() {
        for index in 0..2_000 {
            let second::gen::Pair { model, trace, .. } = second::gen::sound(13, index);
            let names = layout::trace_names(&trace);
            let last = check(&model, &trace);
            let mut rounds = 0;
            let mut held = 0;
            for count in 0..=last.verdict.step {
                let prefix = check(&model, &layout::trace(names[0], &names[1..=count]));
                rounds += prefix.rounds(&model).expect("a state that was reached");
                held = (0..layout::FACTS).filter(|fact| prefix.is_stored(*fact)).count();
            }
            assert_eq!((rounds, held), (last.verdict.rounds, last.verdict.held), "pair {index}");
        }
    }

    /// The names in use are those at the start and those that the steps made; versions 1 and 2 have none.
    #[test]
    fn the_steps_make_the_names_in_use() {
        let mut made = 0;
        for index in 0..2_000 {
            let second::gen::Pair { model, trace, .. } = second::gen::sound(17, index);
            let (names, read) = (layout::trace_names(&trace), Model::read(&model));
            let last = check(&model, &trace);
            let mut expected: BTreeSet<usize> = read.in_use.into_iter().flatten().collect();
            for count in 0..=last.verdict.step {
                let fired = names[1..=count].last().map(|rule| &read.rules[*rule]);
                if let Some(list) = fired.and_then(|lists| lists.get(3)) {
                    made += list.numbers.len();
                    expected.extend(&list.numbers);
                }
                let prefix = check(&model, &layout::trace(names[0], &names[1..=count]));
                let in_use = (0..layout::NAMES).filter(|name| prefix.is_in_use(*name));
                assert_eq!(BTreeSet::from_iter(in_use), expected, "pair {index}");
            }
        }
        assert!(made > 100, "too few names: {made}");
    }
}
