//! `count MODEL [TRACE]`: count the facts before you believe a trace. The library is asked what the model has, and
//! about each prefix of the trace; every figure is its answer, or the number of facts or names for which it gave one, and
//! whether a formula is true is its verdict on that prefix with the formula as the goal.

use crate::args::{Args, Known};
use crate::endings::{ending, heading};
use crate::failure::{unanswered, Failure};
use crate::files::Pair;
use crate::judge::{self, is_refusal, Counts, Judged};
use crate::layout::{self, Model};
use crate::names::Names;
use crate::output::{counted, listed, quoted, Output};
use crate::places::refusal;
use crate::{usage, Command};

pub const COMMAND: Command = Command {
    name: "count",
    usage: "count MODEL [TRACE] [--all] [--formulas]",
    brief: "the facts of each state that a trace reaches, and how it ends, in words",
    help: "\
First what the model has, and its persistent facts from version 2 on. Then for
each state that the trace reaches (without TRACE the initial one): the facts
stored, those that closing reaches with the round of each, the number of rounds,
and the facts not reached; from version 3 on also the names that the step made
and all names in use. If the trace's goal is a formula, it stands first, and
each state says whether it is true there. Then how the trace ends: which
condition, of which rule or goal, is missing or in the way, which name is in
use, or that the formula is false or true. What the numbers are called stands
beside them where NAME.names lies beside NAME.model.

  --all       lists of more than 24 are shown whole
  --formulas  all formulas of the model are asked for in each state

Examples:
  cantivorex count samples/desk.model
  cantivorex count samples/desk.model samples/B.trace",
    known: &[Known { name: ALL, has_value: false }, Known { name: FORMULAS, has_value: false }],
    run,
};

const ALL: &str = "--all";
const FORMULAS: &str = "--formulas";

/// A longer list is cut unless all is asked for.
const LISTED: usize = 24;

fn run(args: &Args) -> Result<u8, Failure> {
    let most = if args.has(ALL) { usize::MAX } else { LISTED };
    let (pair, has_trace) = match &args.operands[..] {
        [model, trace] => (Pair::read(model, trace)?, true),
        [model] => (Pair::of_model(model)?, false),
        _ => return Err(usage(&COMMAND)),
    };
    let judged = judge::check(&pair.model, &pair.trace);
    let names = Names::beside(&pair.model_name, &pair.model)?;
    let mut output = Output::open()?;
    let counts = judge::counts(&pair.model);
    if let Some(counts) = counts {
        let model = Model::read(&pair.model);
        output.line(&sizes(&pair, &counts, &model))?;
        let (facts, own_names) = (counts.facts, layout::names(&pair.model));
        let goal = layout::trace_names(&pair.trace).first().copied().filter(|_| has_trace);
        let is_asked = |number: usize| args.has(FORMULAS) || goal == Some(number);
        let formulas = model.formulas().map(|(number, _)| number).filter(|n| is_asked(*n));
        let formulas = formulas.collect();
        let (pair, model, names, output) = (&pair, &model, &names, &mut output);
        let mut report = Report { pair, model, facts, own_names, formulas, names, most, output };
        report.persistent()?;
        report.states(&judged, has_trace)?;
    }
    if is_refusal(&judged.verdict) {
        output.line(&match counts.is_some() && !has_trace {
            true => "it has no goal, so that no trace can be checked with it".to_string(),
            false => refusal(&judged.verdict, &pair),
        })?;
    }
    output.flush()?;
    Ok(0)
}

/// The library counts goals of both sorts together.
fn sizes(pair: &Pair, counts: &Counts, model: &Model) -> String {
    let formulas = model.formulas().count();
    let [facts, clauses, rules, attacks] = [
        (counts.facts, "fact"),
        (counts.clauses, "clause"),
        (counts.rules, "rule"),
        (counts.goals - formulas, "attack state"),
    ]
    .map(|(count, word)| counted(count, word));
    let formulas = model.formulas.as_ref().map(|_| format!(", {}", counted(formulas, "formula")));
    let (name, formulas) = (quoted(&pair.model_name), formulas.unwrap_or_default());
    format!("model {name}: {facts}, {clauses}, {rules}, {attacks}{formulas}")
}

struct Report<'a> {
    pair: &'a Pair,
    model: &'a Model,
    facts: usize,
    /// How many names the model may speak of, none before version 3; `names` is what everything is called.
    own_names: usize,
    /// The goals that are formulas and asked for.
    formulas: Vec<usize>,
    names: &'a Names,
    most: usize,
    output: &'a mut Output,
}

impl Report<'_> {
    /// The library has no figure for them, so that they are listed and not counted.
    fn persistent(&mut self) -> Result<(), Failure> {
        let Some(facts) = &self.model.persistent else { return Ok(()) };
        let entries = facts.iter().map(|fact| self.names.fact(*fact));
        self.output.line(&format!("persistent facts: {}", listed(entries, self.most)))
    }

    /// The states reached, each by its own check, and the end.
    fn states(&mut self, last: &Judged, has_trace: bool) -> Result<(), Failure> {
        if is_refusal(&last.verdict) {
            return Ok(());
        }
        let trace = layout::trace_names(&self.pair.trace);
        let (goal, steps) = (trace[0], &trace[1..]);
        self.asked()?;
        let mut before = None;
        for count in 0..=last.verdict.step {
            let prefix = layout::trace(goal, &steps[..count]);
            let judged = judge::check(&self.pair.model, &prefix);
            self.state(&heading(count, steps, self.names), &judged)?;
            self.in_use(&judged, before.as_ref())?;
            self.truths(goal, &steps[..count], &judged)?;
            before = Some(judged);
            // A long trace shows a state as soon as it is reached.
            self.output.flush()?;
        }
        if has_trace {
            let formula = self.model.formula(goal);
            self.output.line(&ending(&last.verdict, goal, formula, steps, self.names))?;
            self.output.line(&last.verdict.line())?;
        }
        Ok(())
    }

    fn state(&mut self, heading: &str, judged: &Judged) -> Result<(), Failure> {
        let rounds = judged.rounds(&self.pair.model).map_err(|number| {
            unanswered(format!(
                "the library refused to close a state that it had reached: {number}"
            ))
        })?;
        let (stored, others): (Vec<usize>, Vec<usize>) =
            (0..self.facts).partition(|fact| judged.is_stored(*fact));
        let (reached, missing): (Vec<usize>, Vec<usize>) =
            others.into_iter().partition(|fact| judged.round(*fact).is_some());
        let held = judged.verdict.held;
        let (by_closing, not_reached) = (reached.len(), missing.len());
        let in_rounds = counted(rounds, "round");
        self.output.line(&format!(
            "{heading}: {held} stored, {by_closing} reached by closing in {in_rounds}, {not_reached} not reached{}",
            self.in_use_figure(judged)
        ))?;
        self.facts("stored", &stored, |_| None)?;
        self.facts("reached", &reached, |fact| judged.round(fact))?;
        self.facts("not reached", &missing, |_| None)
    }

    /// A list of facts, with rounds where there are any.
    fn facts(
        &mut self,
        word: &str,
        facts: &[usize],
        round: impl Fn(usize) -> Option<usize>,
    ) -> Result<(), Failure> {
        let names = self.names;
        let entries = facts.iter().map(|fact| match round(*fact) {
            Some(round) => format!("{} (round {round})", names.fact(*fact)),
            None => names.fact(*fact),
        });
        self.list(word, entries)
    }

    fn in_use_figure(&self, judged: &Judged) -> String {
        match self.own_names {
            0 => String::new(),
            _ => format!(", {} in use", counted(self.names_in(judged).count(), "name")),
        }
    }

    /// The names in use, and first those of them that weren't in the state before.
    fn in_use(&mut self, judged: &Judged, before: Option<&Judged>) -> Result<(), Failure> {
        if self.own_names == 0 {
            return Ok(());
        }
        let names = self.names;
        if let Some(before) = before {
            let made = self.names_in(judged).filter(|name| !before.is_in_use(*name));
            self.list("made", made.map(|name| names.name(name)))?;
        }
        self.list("in use", self.names_in(judged).map(|name| names.name(name)))
    }

    fn names_in<'b>(&self, judged: &'b Judged) -> impl Iterator<Item = usize> + 'b {
        (0..self.own_names).filter(|name| judged.is_in_use(*name))
    }

    /// The formulas asked for.
    fn asked(&mut self) -> Result<(), Failure> {
        let (model, names) = (self.model, self.names);
        for (number, formula) in model.formulas().filter(|(n, _)| self.formulas.contains(n)) {
            let text = formula.text(names);
            self.output.line(&format!("goal {}: {text}", names.goal(number)))?;
        }
        Ok(())
    }

    /// Whether each of them is true after these steps. Of the trace's own goal the verdict is there already.
    fn truths(&mut self, goal: usize, steps: &[usize], judged: &Judged) -> Result<(), Failure> {
        for number in self.formulas.clone() {
            let truth = match number == goal {
                true => judge::truth_of(&judged.verdict),
                false => judge::truth(&self.pair.model, number, steps),
            };
            let Some(is_true) = truth else {
                let lost = "the library gave no answer on a formula in a state that it had reached";
                return Err(unanswered(lost));
            };
            self.list(&format!("goal {number}"), [is_true.to_string()].into_iter())?;
        }
        Ok(())
    }

    fn list(&mut self, word: &str, entries: impl Iterator<Item = String>) -> Result<(), Failure> {
        let text = listed(entries, self.most);
        self.output.line(&format!("  {:<13}{text}", format!("{word}:")))
    }
}
