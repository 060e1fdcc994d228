//! Every rule that can fire in the last state reached. What must come out is worked out by hand.

mod common;
use common::*;
use second::gen::{write_model, write_trace};
use second::*;

const LEFT: u16 = 0x7E7E;

/// How much is lent besides state, table and names: entries of the index and of the list.
type Lent = (usize, usize);

/// What is answered with so much lent, as a list. The buffers are as the check leaves them, and what lies
/// behind the answer stays; a refusal changes nothing.
fn rules_in(model: &[u8], trace: &[u8], room: Room, lent: Lent) -> Result<Vec<u16>, u8> {
    let buffers = (vec![0xA5; room.0], vec![9; room.1], vec![0x3C; room.2], vec![LEFT; lent.0]);
    let [mut one, mut two] = [buffers.clone(), buffers.clone()];
    let mut list = vec![LEFT; lent.1];
    let answer = rules_api(model, trace, &mut one.0, &mut one.1, &mut one.2, &mut one.3, &mut list);
    let verdict = check_indexed(model, trace, &mut two.0, &mut two.1, &mut two.2, &mut two.3);
    match answer {
        Ok(count) => {
            assert!(matches!(verdict.number, ATTACK | BLOCKED | NOATTACK | USED));
            assert!(one == two, "the buffers");
            assert!(list[count..].iter().all(|entry| *entry == LEFT), "behind the answer");
            list.truncate(count);
            Ok(list)
        }
        Err(number) => {
            assert!(one == buffers && list == vec![LEFT; lent.1], "a refusal");
            Err(number)
        }
    }
}

const ENOUGH: Room = (513, 4_097, 129);

fn rules_of(model: &[u8], trace: &[u8], lent: Lent) -> Result<Vec<u16>, u8> {
    rules_in(model, trace, ENOUGH, lent)
}

/// The rules that fire after these steps, whatever is left over of index and list, and with goal 0.
fn fire(model: &Model, steps: &[u16], numbers: &[u16]) {
    let (bytes, trace) = (write_model(model), write_trace(0, steps));
    let (least, rules) = (places(&model.clauses), model.rules.len());
    for lent in [(least, rules), (least + 1, rules), (least, rules + 1), (least + 9, rules + 70)] {
        assert_eq!(rules_of(&bytes, &trace, lent), Ok(numbers.to_vec()), "{steps:?} {lent:?}");
    }
    if rules > 0 {
        assert_eq!(rules_of(&bytes, &trace, (least, rules - 1)), Err(ROOM));
        assert_eq!(rules_of(&bytes, &trace, (least, 0)), Err(ROOM));
    }
    if least > 0 {
        assert_eq!(rules_of(&bytes, &trace, (least - 1, rules + 9)), Err(ROOM));
    }
}

fn desk() -> Model {
    parse_model(&hex(DESK)).unwrap()
}

fn with_rules(facts: u16, initial: &[u16], rules: Vec<Rule>) -> Model {
    Model { initial: initial.to_vec(), rules, ..bare(facts) }
}

#[test]
fn the_desk_after_each_trace() {
    let cases: [(u16, &[u16], &[u16]); 8] = [
        // A and C: after r0 {0, 1, 3, 4} is stored, and 3 is in the way of r0. C's last step is that.
        (0, &[0], &[1, 2]),
        (0, &[0, 0], &[1, 2]),
        // B and D: after r1 {1, 4} is stored and nothing derived. B's last step is r0, which lacks 5.
        (0, &[1, 0], &[2]),
        (1, &[1], &[2]),
        // E: all of them at the start; r0 for the derived 5.
        (1, &[], &[0, 1, 2]),
        // F: r2 takes 1 and adds it again.
        (0, &[2], &[0, 1, 2]),
        // What stands behind a blocked step says nothing.
        (0, &[1, 0, 2, 1, 2], &[2]),
        (0, &[1, 1], &[2]),
    ];
    for (goal, steps, numbers) in cases {
        let answer = rules_of(&hex(DESK), &write_trace(goal, steps), (4, 3));
        assert_eq!(answer, Ok(numbers.to_vec()), "goal {goal}, steps {steps:?}");
        fire(&desk(), steps, numbers);
    }
    // G: the goal says nothing unless there is none such.
    assert_eq!(rules_of(&hex(DESK), &write_trace(2, &[]), (4, 3)), Err(NAME));
}

#[test]
fn none_and_all() {
    // No rule: the empty answer, for which a list of no entries has room.
    fire(&bare(1), &[], &[]);
    fire(&with_rules(2, &[1], vec![rule(&[0], &[], &[]); 3]), &[], &[]);
    fire(&with_rules(2, &[1], vec![rule(&[1], &[0], &[]); 3]), &[], &[0, 1, 2]);
    // A fact in both P and N: never.
    fire(&with_rules(2, &[1], vec![rule(&[1], &[1], &[]), rule(&[0], &[0], &[])]), &[], &[]);
    // The same rule twice is two rules.
    let rules = vec![rule(&[1], &[], &[]), rule(&[0], &[], &[]), rule(&[1], &[], &[])];
    fire(&with_rules(2, &[1], rules.clone()), &[], &[0, 2]);
    // It takes its fact away, so that no other fires after it.
    fire(&with_rules(2, &[1], rules), &[2], &[]);
}

#[test]
fn p_and_n_are_read_in_the_closure() {
    // 0 is stored; 1 in round 1, 2 in round 2; 3 never.
    let clauses = vec![clause(2, &[1]), clause(1, &[0]), clause(3, &[3])];
    let rules = [
        (rule(&[2], &[], &[]), true),
        (rule(&[0, 1, 2], &[3], &[]), true),
        (rule(&[3], &[], &[]), false),
        (rule(&[], &[2], &[]), false),
        (rule(&[], &[1], &[]), false),
        // It would take away what 2 comes from: N is judged before.
        (rule(&[0], &[2], &[]), false),
        (rule(&[0], &[0], &[]), false),
        (rule(&[], &[], &[3]), true),
        // What it adds says nothing of whether it fires.
        (rule(&[3], &[], &[3]), false),
    ];
    let numbers: Vec<u16> = (0..).zip(&rules).filter(|(_, r)| r.1).map(|(n, _)| n).collect();
    let rules = rules.map(|(rule, _)| rule).to_vec();
    let model = Model { clauses, ..with_rules(4, &[0], rules) };
    fire(&model, &[], &numbers);
    // With 3 stored besides.
    fire(&model, &[7], &[0, 2, 7, 8]);
    // Blocked by the derived 2: the state stays.
    fire(&model, &[7, 5, 2], &[0, 2, 7, 8]);
    // Rule 1 takes 0, 1 and 2 away, of which only 0 is stored: nothing is left, and nothing in the way.
    fire(&model, &[1], &[3, 4, 7]);
}

#[test]
fn names_that_are_used() {
    let making = |names: &[u16], pos: &[u16]| Rule { names: names.to_vec(), ..rule(pos, &[], &[]) };
    let rules = vec![
        making(&[], &[]),
        making(&[3], &[]),
        making(&[3, 8], &[]),
        making(&[5], &[]),
        making(&[1_023], &[]),
        making(&[4, 8], &[]),
        // A used name and a fact that is missing.
        making(&[5], &[0]),
    ];
    let model = Model { names: Some(vec![5]), ..with_rules(9, &[], rules) };
    fire(&model, &[], &[0, 1, 2, 4, 5]);
    // Rule 1 uses 3, for itself and for rule 2.
    fire(&model, &[1], &[0, 4, 5]);
    fire(&model, &[5], &[0, 1, 4]);
    fire(&model, &[4, 1, 5], &[0]);
    // A step that makes a used name doesn't fire, and uses none: rule 2's 8 stays unused after rule 1.
    fire(&model, &[1, 2], &[0, 4, 5]);
    fire(&model, &[1, 2, 4], &[0, 4, 5]);
    // Nor does one whose condition is missing.
    fire(&model, &[6], &[0, 1, 2, 4, 5]);
    // The full list, of which only the last is used.
    let rules = vec![making(&(0..32).collect::<Vec<u16>>(), &[]), making(&[31], &[])];
    let model = Model { names: Some(vec![]), ..with_rules(9, &[], rules) };
    fire(&model, &[], &[0, 1]);
    fire(&model, &[1], &[]);
    fire(&model, &[0], &[]);
}

#[test]
fn persistent_facts_and_formulas() {
    // 1 from 0. Rule 0 takes 0 away unless it is persistent; rule 1 asks for 1.
    let rules = vec![rule(&[0], &[], &[]), rule(&[1], &[], &[])];
    let model = Model { clauses: vec![clause(1, &[0])], ..with_rules(2, &[0], rules) };
    fire(&model, &[0], &[]);
    fire(&Model { persistent: Some(vec![0]), ..model.clone() }, &[0], &[0, 1]);
    fire(&Model { persistent: Some(vec![1]), ..model.clone() }, &[0], &[]);
    fire(&model, &[1, 1], &[0, 1]);
    // Goal 1 is a formula that is true, or false: NOATTACK and ATTACK, and the same rules.
    for codes in [vec![0], vec![32_768, 0]] {
        let model = Model { formulas: Some(vec![codes]), ..model.clone() };
        assert_eq!(rules_of(&write_model(&model), &write_trace(1, &[]), (1, 2)), Ok(vec![0, 1]));
        assert_eq!(rules_of(&write_model(&model), &write_trace(1, &[0]), (1, 2)), Ok(vec![]));
        assert_eq!(rules_of(&write_model(&model), &write_trace(2, &[0]), (1, 2)), Err(NAME));
    }
}

#[test]
fn full_lists() {
    // Every third of 2,048 rules, the last one among them: 2,048 is 3 x 682 + 2.
    let third = |n: u16| if n % 3 == 1 { rule(&[0], &[1], &[]) } else { rule(&[1], &[], &[]) };
    let numbers: Vec<u16> = (0..683).map(|n| 3 * n + 1).filter(|n| *n < 2_048).collect();
    assert_eq!((numbers.len(), numbers.last()), (683, Some(&2_047)));
    fire(&with_rules(2, &[0], (0..2_048).map(third).collect()), &[], &numbers);
    fire(&with_rules(2, &[], vec![Rule::default(); 2_048]), &[2_047], &up_to(2_048));
    // The last of 32 conditions: there, missing, in the way.
    let all = up_to(32);
    let rules = vec![rule(&all, &[], &[]), rule(&[], &all, &[])];
    fire(&with_rules(33, &all, rules.clone()), &[], &[0]);
    fire(&with_rules(33, &all[..31], rules.clone()), &[], &[]);
    fire(&with_rules(33, &all[31..], rules.clone()), &[], &[]);
    fire(&with_rules(33, &[32], rules), &[], &[1]);
    // The last of 4,095 rounds.
    let chain: Vec<Clause> = (1..4_096).rev().map(|f| clause(f, &[f - 1])).collect();
    let rules = vec![rule(&[4_095], &[], &[]), rule(&[], &[4_095], &[]), rule(&[], &[], &[])];
    let model = Model { clauses: chain, ..with_rules(4_096, &[0], rules) };
    let (bytes, trace) = (write_model(&model), write_trace(0, &[]));
    assert_eq!(rules_of(&bytes, &trace, (4_095, 3)), Ok(vec![0, 2]));
    assert_eq!(rules_of(&bytes, &trace, (4_094, 3)), Err(ROOM));
    // After as many steps as there may be.
    let rules = vec![rule(&[0], &[], &[1]), rule(&[1], &[], &[0])];
    let steps: Vec<u16> = (0..1_024).map(|step| step % 2).collect();
    fire(&with_rules(2, &[0], rules.clone()), &steps, &[0]);
    fire(&with_rules(2, &[0], rules), &steps[..1_023], &[1]);
}

/// The desk model with one of its bytes changed.
fn desk_with(at: usize, byte: u8) -> Vec<u8> {
    let mut model = hex(DESK);
    model[at] = byte;
    model
}

#[test]
fn the_refusals_and_their_order() {
    let (desk, trace) = (hex(DESK), write_trace(0, &[]));
    let number = |model: &[u8], trace: &[u8], lent| rules_of(model, trace, lent).unwrap_err();
    // Too short a buffer, before any file is looked at.
    for room in [(511, 4_096, 128), (512, 4_095, 128), (512, 4_096, 127), (0, 0, 0)] {
        assert_eq!(rules_in(&[], &[], room, (4, 3)), Err(ROOM));
        assert_eq!(rules_in(&desk, &trace, room, (4, 3)), Err(ROOM));
    }
    assert_eq!(rules_in(&desk, &trace, (512, 4_096, 128), (4, 3)), Ok(vec![0, 1, 2]));
    // The desk has 4 body places and 3 rules: with enough, and with too little of either or of both.
    for lent in [(4, 3), (3, 3), (4, 2), (0, 0)] {
        assert_eq!(number(&[0; 65_537], &trace, lent), LONG);
        assert_eq!(number(&desk, &[0; 4_097], lent), LONG);
        assert_eq!(number(&desk_with(0, 5), &trace, lent), VERSION);
        assert_eq!(number(&desk, &[2, 0, 0, 0, 2, 0, 0], lent), VERSION);
        assert_eq!(number(&desk, &[], lent), VERSION);
        assert_eq!(number(&desk[..100], &trace, lent), SHAPE);
        assert_eq!(number(&[&desk[..], &[0]].concat(), &trace, lent), SHAPE);
        assert_eq!(number(&desk_with(5, 0x10), &trace, lent), COUNT);
        assert_eq!(number(&desk_with(100, 6), &trace, lent), FACT);
        let twice = Model { attacks: vec![attack(&[3, 3], &[])], ..self::desk() };
        assert_eq!(number(&write_model(&twice), &trace, lent), ORDER);
        let named = Model { names: Some(vec![1_024]), ..self::desk() };
        assert_eq!(number(&write_model(&named), &trace, lent), BADNAME);
        let asked = Model { formulas: Some(vec![vec![]]), ..self::desk() };
        assert_eq!(number(&write_model(&asked), &trace, lent), FORMULA);
        // What is wrong with the trace besides comes after ROOM.
        let or_room = |number| if lent == (4, 3) { number } else { ROOM };
        assert_eq!(number(&desk, &[1], lent), or_room(SHAPE));
        assert_eq!(number(&desk, &[1, 0, 0, 0, 0], lent), or_room(SHAPE));
        assert_eq!(number(&desk, &[&trace[..], &[0]].concat(), lent), or_room(SHAPE));
        assert_eq!(number(&desk, &write_trace(0, &[0; 1_025]), lent), or_room(COUNT));
        assert_eq!(number(&desk, &write_trace(2, &[]), lent), or_room(NAME));
        assert_eq!(number(&desk, &write_trace(0, &[3]), lent), or_room(NAME));
        // A name behind a blocked step is judged all the same.
        assert_eq!(number(&desk, &write_trace(0, &[1, 0, 3]), lent), or_room(NAME));
    }
    // A list for the answer alone is too short: after r1 one rule fires.
    assert_eq!(number(&desk, &write_trace(0, &[1]), (4, 1)), ROOM);
    assert_eq!(number(&desk, &write_trace(0, &[1]), (4, 2)), ROOM);
}
