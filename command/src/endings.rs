//! How a state is reached, and how a run ends, in words: which condition, of which rule or goal, is missing or in the
//! way, which name is in use, or whether the goal's formula is true.

use crate::formulas::Formula;
use crate::judge;
use crate::names::Names;
use crate::output::counted;
use library::{Kind, Verdict};

/// For a pair that isn't refused; `goal` and `steps` are the trace's, `formula` the goal's, if it is one.
pub fn ending(
    verdict: &Verdict,
    goal: usize,
    formula: Option<&Formula>,
    steps: &[usize],
    names: &Names,
) -> String {
    let (goal, step) = (names.goal(goal), verdict.step);
    let fired = match steps.len() {
        0 => "there are no steps".to_string(),
        1 => "the only step fires".to_string(),
        n => format!("all {} fire", counted(n, "step")),
    };
    let found = match (verdict.number, formula) {
        (10, _) => format!("{}: {}", stopped(step, steps, names), unmet(verdict, names)),
        (13, _) => {
            format!("{}: name {} is in use", stopped(step, steps, names), names.name(verdict.fact))
        }
        // A false formula is an attack state met.
        (number, Some(formula)) => {
            let (then, value) = if number == 0 { ("and", "false") } else { ("but", "true") };
            let text = formula.text(names);
            format!("{fired}, {then} the formula of goal {goal} is {value} in state {step}: {text}")
        }
        (0, None) => format!("{fired}, and goal {goal} is met in state {step}"),
        (_, None) => {
            format!(
                "{fired}, but goal {goal} is not met in state {step}: {}",
                unmet(verdict, names)
            )
        }
    };
    format!("{}: {found}", judge::name(verdict))
}

/// The state after so many steps.
pub fn heading(count: usize, steps: &[usize], names: &Names) -> String {
    match count.checked_sub(1) {
        None => "state 0, the initial one".to_string(),
        Some(step) => {
            format!("state {count}, after step {step}, rule {}", names.rule(steps[step]))
        }
    }
}

fn stopped(step: usize, steps: &[usize], names: &Names) -> String {
    format!("step {step}, rule {}, can't fire", names.rule(steps[step]))
}

/// The first condition that isn't met. A fact of P isn't in the closure; one of N is.
fn unmet(verdict: &Verdict, names: &Names) -> String {
    let how = match (verdict.kind, verdict.round) {
        (Kind::Negative, 0) => "in the way, since it is stored".to_string(),
        (Kind::Negative, round) => format!("in the way since round {round}"),
        _ => "missing".to_string(),
    };
    format!("fact {} is {how}", names.fact(verdict.fact))
}
