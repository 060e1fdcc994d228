//! `rules MODEL TRACE`: what could be done in the last state that the trace reaches. Which rules those are is the
//! library's answer, and so is what is stored there; what a rule takes away and adds stands in the model.

use crate::args::Args;
use crate::endings::{ending, heading};
use crate::failure::{unanswered, Failure};
use crate::files::Pair;
use crate::judge::{self, is_refusal, Judged};
use crate::layout::{self, Model, Of};
use crate::names::Names;
use crate::output::{counted, listed, Output};
use crate::places::refusal;
use crate::{operands, Command};

pub const COMMAND: Command = Command {
    name: "rules",
    usage: "rules MODEL TRACE",
    brief: "every rule that can fire in the last state that a trace reaches",
    help: "\
One line for each rule that can fire there, by number, with its name where
NAME.names lies beside NAME.model: the stored facts that it would take away, the
facts that it would then add, and from version 3 on the names that it would
make. A fact that is needed and only derived, or persistent, is not taken away.
Where a step can't fire, the last state is the one before it, and the last line
says why that step's rule is not among them. Whether the goal is met says
nothing here. Files that are refused have no rules: standard error says why, and
the exit is 1.

Example:
  cantivorex rules samples/desk.model samples/B.trace",
    known: &[],
    run,
};

fn run(args: &Args) -> Result<u8, Failure> {
    let [model, trace] = operands(args, &COMMAND)?;
    let pair = Pair::read(model, trace)?;
    let judged = judge::check(&pair.model, &pair.trace);
    if is_refusal(&judged.verdict) {
        return Err(unanswered(refusal(&judged.verdict, &pair)));
    }
    let firing = judge::rules(&pair.model, &pair.trace).map_err(|number| {
        unanswered(format!(
            "the library refused to list the rules of a pair that it had judged: {number}"
        ))
    })?;
    let names = Names::beside(model, &pair.model)?;
    let mut output = Output::open()?;
    text(&pair, &judged, &firing, &names).iter().try_for_each(|line| output.line(line))?;
    output.flush()?;
    Ok(0)
}

fn text(pair: &Pair, judged: &Judged, firing: &[usize], names: &Names) -> Vec<String> {
    let (model, trace) = (Model::read(&pair.model), layout::trace_names(&pair.trace));
    let (verdict, goal, steps) = (&judged.verdict, trace[0], &trace[1..]);
    let rules = counted(model.rules.len(), "rule");
    let heading = heading(verdict.step, steps, names);
    let mut out = vec![format!("{heading}: {} of {rules} can fire", firing.len())];
    for number in firing {
        let changes = changes(&model, *number, judged, names);
        out.push(format!("  rule {}: {changes}", names.rule(*number)));
    }
    // A step that can't fire.
    if verdict.step < steps.len() {
        out.push(ending(verdict, goal, model.formula(goal), steps, names));
    }
    out
}

/// What a rule that fires would do to the state.
fn changes(model: &Model, number: usize, judged: &Judged, names: &Names) -> String {
    let lists = &model.rules[number];
    let persistent = model.persistent.as_deref().unwrap_or_default();
    let goes = |fact: &usize| judged.is_stored(*fact) && !persistent.contains(fact);
    let taken: Vec<usize> = lists[0].numbers.iter().copied().filter(goes).collect();
    let made = lists.get(3).map_or(&[][..], |list| &list.numbers);
    let parts = [
        ("takes away", Of::Facts, &taken[..]),
        ("adds", Of::Facts, &lists[2].numbers),
        ("makes", Of::Names, made),
    ];
    let full = parts.iter().filter(|(_, _, numbers)| !numbers.is_empty());
    let words: Vec<String> = full
        .map(|(word, of, numbers)| {
            let entries = numbers.iter().map(|number| names.of(*of, *number));
            format!("{word} {}", listed(entries, usize::MAX))
        })
        .collect();
    if words.is_empty() {
        "changes nothing".to_string()
    } else {
        words.join("; ")
    }
}

#[cfg(test)]
mod tests {
    use super::*;

    /// A rule is listed exactly if it fires as a further step.
    #[test]
    fn a_rule_that_is_listed_fires_as_the_next_step() {
        let (mut listed, mut others) = (0, 0);
        for index in 0..1_000 {
            let second::gen::Pair { model, trace, .. } = second::gen::sound(19, index);
            let names = layout::trace_names(&trace);
            let last = judge::check(&model, &trace);
            let fired = &names[1..=last.verdict.step];
            let firing = judge::rules(&model, &trace).expect("a sound pair");
            let rules = judge::counts(&model).expect("a sound model").rules;
            for rule in (0..rules).filter(|_| fired.len() < layout::STEPS) {
                let next = layout::trace(names[0], &[fired, &[rule]].concat());
                let is_fired = judge::check(&model, &next).verdict.step > fired.len();
                assert_eq!(firing.contains(&rule), is_fired, "pair {index}, rule {rule}");
                *if is_fired { &mut listed } else { &mut others } += 1;
            }
        }
        assert!(listed > 500 && others > 500, "too few: {listed} and {others}");
    }
}
