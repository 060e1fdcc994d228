//! `show MODEL`: the model as text that a person can read.

use crate::args::Args;
use crate::failure::{unanswered, Failure};
use crate::files::Pair;
use crate::judge::{self, Counts};
use crate::layout::{List, Model, Of};
use crate::names::Names;
use crate::output::{listed, Output};
use crate::places::refusal;
use crate::{operands, Command};

pub const COMMAND: Command = Command {
    name: "show",
    usage: "show MODEL",
    brief: "a model as text",
    help: "\
Its facts, clauses, rules and attack states, with names where NAME.names lies
beside NAME.model. A rule or goal `needs` its P and is stopped by its N, `not`;
a rule takes away its P, persistent facts aside, and then `adds` its A. From
version 3 on it `makes` names, and fires only if none of them is in use.
Version 4 has formulas about the past as further goals; `not`, `Yesterday`,
`Once` and `Historically` bind the nearest, and in a formula a fact is its name
alone. A model that is refused is not shown: standard error says why, and the
exit is 1.

Example:
  cantivorex show samples/desk.model",
    known: &[],
    run,
};

fn run(args: &Args) -> Result<u8, Failure> {
    let [name] = operands(args, &COMMAND)?;
    let pair = Pair::of_model(name)?;
    let Some(counts) = judge::counts(&pair.model) else {
        let verdict = judge::check(&pair.model, &pair.trace).verdict;
        return Err(unanswered(refusal(&verdict, &pair)));
    };
    let names = Names::beside(name, &pair.model)?;
    let model = Model::read(&pair.model);
    let mut output = Output::open()?;
    text(&model, &counts, &names).iter().try_for_each(|line| output.line(line))?;
    output.flush()?;
    Ok(0)
}

fn text(model: &Model, counts: &Counts, names: &Names) -> Vec<String> {
    let all = |of: Of, numbers: &[usize]| {
        listed(numbers.iter().map(|number| names.of(of, *number)), usize::MAX)
    };
    let facts = |numbers: &[usize]| all(Of::Facts, numbers);
    let mut out = vec![format!("facts: {}", counts.facts)];
    if names.has_facts() {
        out.extend((0..counts.facts).map(|fact| format!("  {}", names.fact(fact))));
    }
    out.push(format!("initial facts: {}", facts(&model.initial)));
    out.extend(model.persistent.iter().map(|list| format!("persistent facts: {}", facts(list))));
    let in_use = |list| format!("names in use at the start: {}", all(Of::Names, list));
    out.extend(model.in_use.as_deref().map(in_use));
    out.push(format!("clauses: {}", counts.clauses));
    for (number, clause) in model.clauses.iter().enumerate() {
        let [head, body] = [0, 1].map(|i| facts(&clause[i].numbers));
        out.push(format!(
            "  clause {number}: {head} from {}",
            if clause[1].numbers.is_empty() { "nothing" } else { &body }
        ));
    }
    out.push(format!("rules: {}", counts.rules));
    for (number, rule) in model.rules.iter().enumerate() {
        out.push(format!("  rule {}: {}", names.rule(number), conditions(rule, all)));
    }
    // The library counts goals of both sorts together.
    let formulas = model.formulas().count();
    out.push(format!("attack states: {}", counts.goals - formulas));
    for (number, goal) in model.goals.iter().enumerate() {
        out.push(format!("  goal {}: {}", names.goal(number), conditions(goal, all)));
    }
    out.extend(model.formulas.iter().map(|_| format!("formulas: {formulas}")));
    for (number, formula) in model.formulas() {
        out.push(format!("  goal {}: {}", names.goal(number), formula.text(names)));
    }
    out
}

/// The lists of a rule or an attack state that aren't empty.
fn conditions(lists: &[List], all: impl Fn(Of, &[usize]) -> String) -> String {
    let words = ["needs", "not", "adds", "makes"];
    let full = words.iter().zip(lists).filter(|(_, list)| !list.numbers.is_empty());
    let parts: Vec<String> =
        full.map(|(word, list)| format!("{word} {}", all(list.of, &list.numbers))).collect();
    if parts.is_empty() {
        "no conditions".to_string()
    } else {
        parts.join("; ")
    }
}
