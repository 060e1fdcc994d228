//! Counting a model's parts: F stands in the sizes, clauses, rules and goals are records. Goals are
//! attack states and formulas together, as a trace numbers them.

use crate::read::parse_model;

#[derive(Clone, Copy, Debug, PartialEq, Eq)]
pub struct Counts {
    pub facts: usize,
    pub clauses: usize,
    pub rules: usize,
    pub goals: usize,
}

/// The counts of a model, or the refusal's number.
pub fn count_api(model: &[u8]) -> Result<Counts, u8> {
    let model = parse_model(model).map_err(|fault| fault.number)?;
    Ok(Counts {
        facts: model.facts as usize,
        clauses: model.clauses.len(),
        rules: model.rules.len(),
        goals: model.goals(),
    })
}
