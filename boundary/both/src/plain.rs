//! A plain Rust reader of a model in place, to measure against: the number of 2 to 7, 12 or 17, or 0,
//! without lists and without places. And a plain loop over the rules of a model that is well-formed.

/// Of two faults of a record the one that is judged first; 0 is none.
fn worse(a: u8, b: u8) -> u8 {
    match (a, b) {
        (0, n) | (n, 0) => n,
        // A name is judged before the order.
        (12, 7) | (7, 12) => 12,
        _ => a.min(b),
    }
}

pub(crate) fn word(bytes: &[u8]) -> usize {
    u16::from_be_bytes([bytes[0], bytes[1]]) as usize
}

/// Takes the next section off the rest of the file.
fn section<'a>(rest: &mut &'a [u8]) -> Option<&'a [u8]> {
    let (len, after) = rest.split_at_checked(4)?;
    let len = u32::from_be_bytes([len[0], len[1], len[2], len[3]]) as usize;
    let (bytes, after) = after.split_at_checked(len)?;
    *rest = after;
    Some(bytes)
}

/// The bytes of a well-formed model's clauses (0) or rules (1): two to four sections of bare numbers stand before them.
pub(crate) fn records_of(model: &[u8], kind: usize) -> &[u8] {
    let mut rest = &model[1..];
    let bare = [2, 3, 4, 4][model[0] as usize - 1];
    for _ in 0..bare + kind {
        section(&mut rest).expect("a well-formed model");
    }
    section(&mut rest).expect("a well-formed model")
}

/// Takes the next record off the rest of its section.
pub(crate) fn record<'a>(rest: &mut &'a [u8]) -> Option<&'a [u8]> {
    let (len, after) = rest.split_at_checked(2)?;
    let (bytes, after) = after.split_at_checked(word(len))?;
    *rest = after;
    Some(bytes)
}

/// What the numbers of a list stay below, and what one that doesn't is.
#[derive(Clone, Copy)]
struct Below(usize, u8);

const NAMES: Below = Below(1_024, 12);

/// 6 or 12, and 7, of a list of facts or names.
fn list_fault(list: &[u8], Below(end, too_great): Below) -> u8 {
    let (mut fault, mut least) = (0, 0);
    for number in list.chunks_exact(2).map(word) {
        if number >= end {
            return too_great;
        }
        if number < least {
            fault = 7;
        }
        least = number + 1;
    }
    fault
}

fn clause_fault(clause: &[u8], facts: Below) -> u8 {
    if clause.len() < 2 || clause.len() % 2 == 1 {
        return 4;
    }
    if clause.len() > 2 + 2 * 16 {
        return 5;
    }
    let head = if word(clause) < facts.0 { 0 } else { 6 };
    worse(head, list_fault(&clause[2..], facts))
}

/// 4 to 7 and 12 of a record of lists.
fn lists_fault(record: &[u8], lists: &[Below]) -> u8 {
    let (mut rest, mut fault) = (record, 0);
    for below in lists {
        let Some((len, after)) = rest.split_at_checked(2) else { return 4 };
        let Some((list, after)) = after.split_at_checked(2 * word(len)) else { return 4 };
        rest = after;
        fault = worse(fault, if word(len) > 32 { 5 } else { 0 });
        fault = worse(fault, list_fault(list, *below));
    }
    if rest.is_empty() {
        fault
    } else {
        4
    }
}

/// 4 to 6 and 17 of a formula.
fn formula_fault(codes: &[u8], facts: Below) -> u8 {
    if codes.len() % 2 == 1 {
        return 4;
    }
    if codes.len() > 2 * 255 {
        return 5;
    }
    if codes.chunks_exact(2).map(word).any(|code| code < 32_768 && code >= facts.0) {
        return 6;
    }
    if is_formula(codes) {
        0
    } else {
        17
    }
}

/// Whether at most 255 codes are one formula, from the last on, with the depths of the parts that wait.
fn is_formula(codes: &[u8]) -> bool {
    let (mut depths, mut waiting) = ([0; 255], 0);
    for code in codes.chunks_exact(2).rev().map(word) {
        let parts = match code {
            0..=32_767 => 0,
            32_768 | 32_772..=32_774 => 1,
            32_769..=32_771 | 32_775 => 2,
            _ => return false,
        };
        if waiting < parts {
            return false;
        }
        waiting -= parts;
        let deepest = depths[waiting..waiting + parts].iter().max().copied().unwrap_or(0);
        depths[waiting] = deepest + 1;
        waiting += 1;
    }
    waiting == 1 && depths[0] <= 32
}

fn records(section: &[u8], most: usize, fault_of: impl Fn(&[u8]) -> u8) -> u8 {
    let (mut rest, mut index) = (section, 0);
    while !rest.is_empty() {
        let Some(record) = record(&mut rest) else { return 4 };
        let fault = worse(fault_of(record), if index < most { 0 } else { 5 });
        if fault != 0 {
            return fault;
        }
        index += 1;
    }
    0
}

/// The number of the first fault of a model, or 0.
pub fn judge(model: &[u8]) -> u8 {
    if model.len() > 65_536 {
        return 2;
    }
    match model.first() {
        Some(version @ 1..=4) => judge_sections(*version, &model[1..]).err().unwrap_or(0),
        _ => 3,
    }
}

fn none(number: u8) -> Result<(), u8> {
    if number == 0 {
        Ok(())
    } else {
        Err(number)
    }
}

fn judge_sections(version: u8, mut rest: &[u8]) -> Result<(), u8> {
    let sizes = section(&mut rest).ok_or(4)?;
    none(if sizes.len() == 2 { 0 } else { 4 })?;
    let facts = Below(word(sizes), 6);
    none(if facts.0 > 4_096 { 5 } else { 0 })?;
    // The initial facts; from version 2 on persistent facts after them, from version 3 on names after those.
    for below in [facts, facts, NAMES].iter().take(version as usize) {
        let bare = section(&mut rest).ok_or(4)?;
        none(if bare.len() % 2 == 1 { 4 } else { list_fault(bare, *below) })?;
    }
    let lists = [facts, facts, facts, NAMES];
    let clauses = section(&mut rest).ok_or(4)?;
    none(records(clauses, 4_096, |clause| clause_fault(clause, facts)))?;
    let rules = section(&mut rest).ok_or(4)?;
    let of_a_rule = if version < 3 { &lists[..3] } else { &lists };
    none(records(rules, 2_048, |rule| lists_fault(rule, of_a_rule)))?;
    let goals = section(&mut rest).ok_or(4)?;
    none(records(goals, 64, |goal| lists_fault(goal, &lists[..2])))?;
    if version > 3 {
        let formulas = section(&mut rest).ok_or(4)?;
        none(records(formulas, 64, |formula| formula_fault(formula, facts)))?;
    }
    none(if rest.is_empty() { 0 } else { 4 })
}

/// Takes the next list off the rest of its record, and says whether all of its numbers are fine.
fn all(rest: &mut &[u8], is_fine: impl Fn(usize) -> bool) -> bool {
    let (list, after) = rest[2..].split_at(2 * word(rest));
    *rest = after;
    list.chunks_exact(2).map(word).all(is_fine)
}

/// The numbers of the rules that fire, at the front of a list that has room, where facts have these round numbers and
/// these names are used.
pub fn firing(model: &[u8], table: &[u16; 4_096], names: &[u8; 128], list: &mut [u16]) -> usize {
    let is_there = |fact: usize| table[fact & 4_095] != 65_535;
    let is_unused = |name: usize| names[name / 8 & 127] >> (name % 8) & 1 == 0;
    let (mut rest, mut number, mut count) = (records_of(model, 1), 0, 0);
    while let Some(mut rule) = record(&mut rest) {
        // The facts that it adds say nothing.
        let fires = all(&mut rule, is_there)
            && all(&mut rule, |fact| !is_there(fact))
            && (model[0] < 3 || all(&mut rule, |_| true) && all(&mut rule, is_unused));
        if fires {
            list[count] = number;
            count += 1;
        }
        number += 1;
    }
    count
}

#[cfg(test)]
mod tests {
    #[test]
    fn it_lists_the_rules_as_the_second_program_does() {
        for index in 0..5_000 {
            let second::gen::Pair { model, trace, .. } = second::gen::sound(3, index);
            let (mut state, mut table, mut names) = ([0; 512], [0; 4_096], [0; 128]);
            let (mut places, mut one) = (vec![0; 32_768], vec![7; 2_048]);
            let mut two = one.clone();
            let count = second::rules_api(
                &model,
                &trace,
                &mut state,
                &mut table,
                &mut names,
                &mut places,
                &mut one,
            );
            assert_eq!(Ok(super::firing(&model, &table, &names, &mut two)), count, "pair {index}");
            assert_eq!(one, two, "pair {index}");
        }
    }

    #[test]
    fn it_judges_as_the_second_program_does() {
        for index in 0..50_000 {
            let model = second::gen::pair(3, index).model;
            let number = second::parse_model(&model).err().map_or(0, |fault| fault.number);
            assert_eq!(super::judge(&model), number, "pair {index}");
        }
    }
}
