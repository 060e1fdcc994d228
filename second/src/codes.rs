//! Formulas as codes, for the pairs: any of some size, trees of so many parts, chains so deep.

use crate::gen::Rng;

pub(crate) const NOT: u16 = 32_768;
pub(crate) const AND: u16 = 32_769;
pub(crate) const OR: u16 = 32_770;
pub(crate) const IMPLIES: u16 = 32_771;
pub(crate) const YESTERDAY: u16 = 32_772;
pub(crate) const ONCE: u16 = 32_773;
pub(crate) const HISTORICALLY: u16 = 32_774;
pub(crate) const SINCE: u16 = 32_775;

pub(crate) const OF_ONE: [u16; 4] = [NOT, YESTERDAY, ONCE, HISTORICALLY];
pub(crate) const OF_TWO: [u16; 4] = [AND, OR, IMPLIES, SINCE];

/// A formula of at most so many codes and so deep, over facts of which there is one at least.
pub(crate) fn any(rng: &mut Rng, facts: &[u16], codes: usize, deep: usize) -> Vec<u16> {
    if codes < 2 || deep < 2 || rng.one_in(6) {
        return vec![facts[rng.below(facts.len())]];
    }
    if codes == 2 || rng.one_in(2) {
        let part = any(rng, facts, codes - 1, deep - 1);
        return [&OF_ONE[rng.below(4)..][..1], &part].concat();
    }
    let first = 1 + rng.below(codes - 2);
    let first = any(rng, facts, first, deep - 1);
    let second = any(rng, facts, codes - 1 - first.len(), deep - 1);
    [&OF_TWO[rng.below(4)..][..1], &first, &second].concat()
}

/// Parts under one operator again and again, as flat as can be: an operator fewer than parts.
pub(crate) fn tree(operator: u16, parts: &[Vec<u16>]) -> Vec<u16> {
    if let [part] = parts {
        return part.clone();
    }
    let (first, second) = parts.split_at(parts.len() / 2);
    [vec![operator], tree(operator, first), tree(operator, second)].concat()
}

/// The same for facts.
pub(crate) fn tree_of_facts(operator: u16, facts: &[u16]) -> Vec<u16> {
    let parts: Vec<Vec<u16>> = facts.iter().map(|fact| vec![*fact]).collect();
    tree(operator, &parts)
}
