//! `holds MODEL TRACE FACT`: whether one fact holds after all steps, and since which round. The answer is the
//! library's, which closes the last state no further than it has to.

use crate::args::Args;
use crate::endings::{ending, heading};
use crate::failure::{unanswered, unusable, Failure};
use crate::files::Pair;
use crate::judge::{self, is_refusal};
use crate::layout::{self, Model};
use crate::names::Names;
use crate::output::{counted, quoted, Output};
use crate::places::refusal;
use crate::{operands, Command};
use library::Holds;
use std::ffi::OsStr;

pub const COMMAND: Command = Command {
    name: "holds",
    usage: "holds MODEL TRACE FACT",
    brief: "whether one fact holds after all steps of a trace, and since which round",
    help: "\
One line: HELD with the round of closing in which the fact arises, 0 if it is
stored, or ABSENT with the rounds that closing has; and the state, which is the
one after the last step. Whether the goal is met says nothing here. FACT is the
fact's number or, where NAME.names lies beside NAME.model, what it is called, or
both as the other commands show them, in quotes.

Exit: 0 the fact is held; 3 it is absent; 1 there is no answer, since a step
can't fire or the files are refused or something else kept it from answering;
2 wrong usage, a file can't be read, or the model has no such fact. For 1 and 2
standard error says why.

Examples:
  cantivorex holds samples/desk.model samples/A.trace 5
  cantivorex holds samples/desk.model samples/A.trace 'edits(ben)'",
    known: &[],
    run,
};

/// The exit where the fact is absent: 1 and 2 say that there is no answer.
const ABSENT: u8 = 3;

fn run(args: &Args) -> Result<u8, Failure> {
    let [model, trace, word] = operands(args, &COMMAND)?;
    let pair = Pair::read(model, trace)?;
    let names = Names::beside(model, &pair.model)?;
    let found = names.facts_called(word);
    // One that isn't found is a fact that no model has: what is wrong with the files comes before it.
    let fact = if let [fact] = found[..] { fact } else { usize::MAX };
    let answer = judge::holds(&pair.model, &pair.trace, fact)
        .map_err(|number| no_answer(number, &pair, word, &found, &names))?;
    let (line, exit) = text(&pair, fact, answer, &names);
    let mut output = Output::open()?;
    output.line(&line)?;
    output.flush()?;
    Ok(exit)
}

fn text(pair: &Pair, fact: usize, answer: (Holds, usize), names: &Names) -> (String, u8) {
    let (steps, fact) = (&layout::trace_names(&pair.trace)[1..], names.fact(fact));
    let state = heading(steps.len(), steps, names);
    let (said, how, exit) = match answer {
        (Holds::Held { round: 0 }, _) => ("HELD since round 0".to_string(), "stored", 0),
        (Holds::Held { round }, _) => (format!("HELD since round {round}"), "derived", 0),
        (Holds::Absent, rounds) => {
            let rounds = counted(rounds, "round");
            (format!("ABSENT after {rounds}"), "neither stored nor derived", ABSENT)
        }
    };
    (format!("{said}: fact {fact} is {how} in {state}"), exit)
}

/// Why the library gives none. The fact is the last thing that it looks at before the steps.
fn no_answer(number: u8, pair: &Pair, word: &OsStr, found: &[usize], names: &Names) -> Failure {
    let verdict = judge::check(&pair.model, &pair.trace).verdict;
    match number {
        judge::FACT if !is_refusal(&verdict) => unusable(no_fact(pair, word, found)),
        judge::BLOCKED | judge::USED => {
            let (model, trace) = (Model::read(&pair.model), layout::trace_names(&pair.trace));
            let why = ending(&verdict, trace[0], model.formula(trace[0]), &trace[1..], names);
            unanswered(format!("{why}; there is no state after all steps"))
        }
        _ => unanswered(refusal(&verdict, pair)),
    }
}

/// A word that names no fact, or more than one, or a number that is too large.
fn no_fact(pair: &Pair, word: &OsStr, found: &[usize]) -> String {
    let (shown, facts) = (quoted(word), judge::counts(&pair.model).map_or(0, |has| has.facts));
    let all = match facts {
        0 => "no facts".to_string(),
        1 => "one fact, 0".to_string(),
        _ => format!("facts 0 to {}", facts - 1),
    };
    match found {
        [] => format!("no fact is called {shown}: give its number; the model has {all}"),
        [_] => format!("FACT: there is no fact {shown}: the model has {all}"),
        _ => {
            let numbers: Vec<String> = found.iter().map(usize::to_string).collect();
            format!("facts {} are all called {shown}: give one's number", numbers.join(", "))
        }
    }
}

#[cfg(test)]
mod tests {
    use super::*;

    /// Every fact holds that has a round in the check's table, since that round, and no other.
    #[test]
    fn what_holds_is_what_the_check_s_table_has() {
        let (mut held, mut absent, mut stopped) = (0, 0, 0);
        for index in 0..2_000 {
            let second::gen::Pair { model, trace, .. } = second::gen::sound(23, index);
            let last = judge::check(&model, &trace);
            let facts = judge::counts(&model).expect("a sound model").facts;
            assert_eq!(judge::holds(&model, &trace, facts), Err(judge::FACT), "pair {index}");
            for fact in 0..facts.min(40) {
                let what = format!("pair {index}, fact {fact}");
                match (judge::holds(&model, &trace, fact), last.round(fact)) {
                    (Ok((Holds::Held { round }, rounds)), Some(expected)) => {
                        assert_eq!([round, rounds], [expected; 2], "{what}");
                        held += 1;
                    }
                    (Ok((Holds::Absent, rounds)), None) => {
                        assert_eq!(Ok(rounds), last.rounds(&model), "{what}");
                        absent += 1;
                    }
                    (Err(number), _) => {
                        assert!(matches!(number, judge::BLOCKED | judge::USED), "{what}");
                        assert_eq!(number, last.verdict.number, "{what}");
                        stopped += 1;
                    }
                    _ => panic!("{what}"),
                }
            }
        }
        assert!(held > 500 && absent > 500 && stopped > 500, "{held}, {absent}, {stopped}");
    }
}
