//! Whether one fact holds after a trace. What must come out is worked out by hand.

mod common;
use common::*;
use second::gen::{write_model, write_trace};
use second::*;

const LEFT: u16 = 0x7E7E;
const LEFT_OUT: u64 = 77;

/// What is answered: the fact's round number, the rounds run, and what the table shows.
type Answer = (u16, u64, Vec<u16>);

/// With so much lent, an index and an `out` of so many entries among it. What holds for every call is asserted
/// here: state, names and index are as the check leaves them, for a step that doesn't fire the table too; the
/// table shows what the check's does up to the rounds run; a refusal writes no answer, and otherwise changes
/// nothing; what lies behind stays.
fn holds_in(
    model: &[u8],
    trace: &[u8],
    fact: usize,
    room: Room,
    lent: (usize, usize),
) -> Result<Answer, u8> {
    let buffers = (vec![0xA5; room.0], vec![9; room.1], vec![0x3C; room.2], vec![LEFT; lent.0]);
    let [mut one, mut two] = [buffers.clone(), buffers.clone()];
    let mut out = vec![LEFT_OUT; lent.1];
    let (b, o) = (&mut one, &mut out);
    let number = holds_api(model, trace, fact, &mut b.0, &mut b.1, &mut b.2, &mut b.3, o);
    if number != 0 {
        assert!(out.iter().all(|entry| *entry == LEFT_OUT), "no answer");
    }
    if number != 0 && number != BLOCKED && number != USED {
        assert!(one == buffers, "a refusal");
        return Err(number);
    }
    let verdict = check_indexed(model, trace, &mut two.0, &mut two.1, &mut two.2, &mut two.3);
    if number != 0 {
        assert_eq!(verdict.number, number);
        assert!(one == two, "a step that doesn't fire");
        return Err(number);
    }
    assert!(matches!(verdict.number, ATTACK | NOATTACK));
    assert!((&one.0, &one.2, &one.3) == (&two.0, &two.2, &two.3), "state, names, index");
    let (round, rounds) = (out[0] as u16, out[1]);
    assert!(out[2..].iter().all(|entry| *entry == LEFT_OUT), "behind the answer");
    assert_eq!(round, two.1[fact], "as full closing answers");
    let up_to = |n: &u16| if *n as u64 <= rounds { *n } else { NONE };
    let shown: Vec<u16> = two.1[..4_096].iter().map(up_to).collect();
    assert!(one.1[..4_096] == shown && one.1[4_096..] == buffers.1[4_096..], "the table");
    one.1.truncate(4_096);
    Ok((round, rounds, one.1))
}

const ENOUGH: Room = (513, 4_097, 129);

fn holds_of(model: &[u8], trace: &[u8], fact: usize, entries: usize) -> Result<Answer, u8> {
    holds_in(model, trace, fact, ENOUGH, (entries, 3))
}

/// A fact after these steps, with goal 0: its round number, the rounds run, and of all facts the round numbers shown.
fn is(model: &Model, steps: &[u16], fact: u16, round: u16, rounds: u64, shown: &[(u16, u16)]) {
    let (bytes, trace) = (write_model(model), write_trace(0, steps));
    let least = places(&model.clauses);
    let mut table = vec![NONE; 4_096];
    shown.iter().for_each(|(fact, number)| table[*fact as usize] = *number);
    for entries in [least, least + 1, least + 70] {
        let answer = holds_of(&bytes, &trace, fact as usize, entries);
        assert!(answer == Ok((round, rounds, table.clone())), "fact {fact} after {steps:?}");
    }
    if least > 0 {
        assert_eq!(holds_of(&bytes, &trace, fact as usize, least - 1), Err(ROOM));
    }
}

/// A step doesn't fire, whatever fact is asked for, unless there is none such.
fn stops(model: &Model, steps: &[u16], number: u8) {
    let (bytes, trace) = (write_model(model), write_trace(0, steps));
    let least = places(&model.clauses);
    for fact in 0..model.facts as usize {
        assert_eq!(holds_of(&bytes, &trace, fact, least), Err(number));
    }
    for fact in [model.facts as usize, 65_535, 65_536, usize::MAX] {
        assert_eq!(holds_of(&bytes, &trace, fact, least), Err(FACT));
    }
}

fn desk() -> Model {
    parse_model(&hex(DESK)).unwrap()
}

#[test]
fn the_desk_after_each_trace() {
    let (all, none) = (desk(), NONE);
    // E: 0, 1, 4 are stored; 2 is there in round 1, 5 in round 2, 3 never.
    let first = [(0, 0), (1, 0), (4, 0)];
    let second = [(0, 0), (1, 0), (4, 0), (2, 1)];
    let third = [(0, 0), (1, 0), (4, 0), (2, 1), (5, 2)];
    // F: r2 takes 1 and adds it again.
    for steps in [&[][..], &[2], &[2, 2]] {
        [0, 1, 4].iter().for_each(|fact| is(&all, steps, *fact, 0, 0, &first));
        is(&all, steps, 2, 1, 1, &second);
        is(&all, steps, 5, 2, 2, &third);
        is(&all, steps, 3, none, 2, &third);
    }
    // A: r0 stores 3.
    is(&all, &[0], 3, 0, 0, &[(0, 0), (1, 0), (3, 0), (4, 0)]);
    is(&all, &[0], 2, 1, 1, &[(0, 0), (1, 0), (3, 0), (4, 0), (2, 1)]);
    // D: r1 takes 0, and nothing is derived any more: no round to run.
    is(&all, &[1], 4, 0, 0, &[(1, 0), (4, 0)]);
    [0, 2, 3, 5].iter().for_each(|fact| is(&all, &[1], *fact, none, 0, &[(1, 0), (4, 0)]));
    // B and C: the last step is blocked, and what stands behind it says nothing.
    stops(&all, &[1, 0], BLOCKED);
    stops(&all, &[0, 0], BLOCKED);
    stops(&all, &[1, 0, 2, 1], BLOCKED);
    // The goal says nothing, unless there is none such.
    for goal in [0, 1] {
        let answer = holds_of(&hex(DESK), &write_trace(goal, &[]), 5, 4).unwrap();
        assert_eq!((answer.0, answer.1), (2, 2));
    }
    assert_eq!(holds_of(&hex(DESK), &write_trace(2, &[]), 5, 4), Err(NAME));
}

/// Two facts in each of two rounds, then one in each of two, whatever the order of the clauses.
fn rounds_of_two() -> Vec<Clause> {
    vec![
        clause(6, &[5]),
        clause(5, &[3, 4]),
        clause(4, &[2]),
        clause(1, &[0]),
        clause(3, &[1]),
        clause(2, &[0]),
    ]
}

#[test]
fn the_round_is_finished_and_no_other_is_run() {
    let mut model = Model { initial: vec![0, 8], clauses: rounds_of_two(), ..bare(9) };
    let shown = [(0, 0), (8, 0), (1, 1), (2, 1), (3, 2), (4, 2), (5, 3), (6, 4)];
    for _ in 0..2 {
        is(&model, &[], 0, 0, 0, &shown[..2]);
        is(&model, &[], 8, 0, 0, &shown[..2]);
        is(&model, &[], 1, 1, 1, &shown[..4]);
        is(&model, &[], 2, 1, 1, &shown[..4]);
        is(&model, &[], 3, 2, 2, &shown[..6]);
        is(&model, &[], 4, 2, 2, &shown[..6]);
        is(&model, &[], 5, 3, 3, &shown[..7]);
        is(&model, &[], 6, 4, 4, &shown);
        // Absent: all rounds, of which there are four.
        is(&model, &[], 7, NONE, 4, &shown);
        model.clauses.reverse();
    }
}

#[test]
fn stored_facts_empty_bodies_and_none_at_all() {
    // 0 is stored and would be derived in round 2; 1 comes from nothing, 2 from 1, 3 from itself.
    let clauses = vec![clause(0, &[2]), clause(2, &[1]), clause(1, &[]), clause(3, &[3])];
    let model = Model { initial: vec![0], clauses, ..bare(4) };
    is(&model, &[], 0, 0, 0, &[(0, 0)]);
    is(&model, &[], 1, 1, 1, &[(0, 0), (1, 1)]);
    is(&model, &[], 2, 2, 2, &[(0, 0), (1, 1), (2, 2)]);
    is(&model, &[], 3, NONE, 2, &[(0, 0), (1, 1), (2, 2)]);
    // No clause: a fact is stored or absent, and there is no round.
    let model = Model { initial: vec![1], ..bare(2) };
    is(&model, &[], 1, 0, 0, &[(1, 0)]);
    is(&model, &[], 0, NONE, 0, &[(1, 0)]);
    // No fact: none to ask for.
    let (bytes, trace) = (write_model(&bare(0)), write_trace(0, &[]));
    [0, 1, 65_535].iter().for_each(|fact| {
        assert_eq!(holds_of(&bytes, &trace, *fact, 0), Err(FACT));
    });
}

#[test]
fn it_is_the_last_state_that_is_asked_about() {
    // 0 to 4 in a chain. r0 stores 2; r1 takes 0; r2 asks for 4, which is there in round 4 at first, and adds 5.
    let clauses = (0..4).rev().map(|f| clause(f + 1, &[f])).collect();
    let rules = vec![rule(&[], &[], &[2]), rule(&[0], &[], &[]), rule(&[4], &[], &[5])];
    let model = Model { initial: vec![0], clauses, rules, ..bare(7) };
    is(&model, &[], 3, 3, 3, &[(0, 0), (1, 1), (2, 2), (3, 3)]);
    // With 2 stored 3 is there in round 1, together with 1.
    is(&model, &[0], 3, 1, 1, &[(0, 0), (2, 0), (1, 1), (3, 1)]);
    is(&model, &[0, 1], 3, 1, 1, &[(2, 0), (3, 1)]);
    is(&model, &[0, 1], 1, NONE, 2, &[(2, 0), (3, 1), (4, 2)]);
    is(&model, &[1], 0, NONE, 0, &[]);
    // The initial state is closed in full for r2, though 0 and 1 are there long before 4.
    is(&model, &[2], 0, 0, 0, &[(0, 0), (5, 0)]);
    is(&model, &[2], 1, 1, 1, &[(0, 0), (5, 0), (1, 1)]);
    is(&model, &[2, 2, 2], 5, 0, 0, &[(0, 0), (5, 0)]);
    stops(&model, &[1, 2], BLOCKED);
    // So is an N judged: 4 is in the way, in round 4.
    let neg = Model { rules: vec![rule(&[], &[4], &[6])], ..model.clone() };
    stops(&neg, &[0], BLOCKED);
    // A persistent fact of P stays, and one that is only derived is not stored.
    let kept = Model { persistent: Some(vec![0, 4]), ..model };
    is(&kept, &[1], 0, 0, 0, &[(0, 0)]);
    is(&kept, &[1, 2], 4, 4, 4, &[(0, 0), (5, 0), (1, 1), (2, 2), (3, 3), (4, 4)]);
}

#[test]
fn names_and_formulas() {
    // 1 from 0; r0 makes names 3 and 8, r1 makes 5, which is in use.
    let makes = |names: &[u16]| Rule { names: names.to_vec(), ..rule(&[], &[], &[2]) };
    let rules = vec![makes(&[3, 8]), makes(&[5]), makes(&[])];
    let model = Model { initial: vec![0], clauses: vec![clause(1, &[0])], rules, ..bare(3) };
    let model = Model { names: Some(vec![5, 1_023]), ..model };
    is(&model, &[0], 2, 0, 0, &[(0, 0), (2, 0)]);
    is(&model, &[2, 0, 2], 1, 1, 1, &[(0, 0), (2, 0), (1, 1)]);
    stops(&model, &[1], USED);
    stops(&model, &[0, 0], USED);
    stops(&model, &[2, 0, 1, 2], USED);
    // A goal that is a formula, true or false.
    for codes in [vec![0], vec![32_768, 0]] {
        let bytes = write_model(&Model { formulas: Some(vec![codes]), ..model.clone() });
        let answer = holds_of(&bytes, &write_trace(1, &[]), 1, 1).unwrap();
        assert_eq!((answer.0, answer.1), (1, 1));
        assert_eq!(holds_of(&bytes, &write_trace(1, &[1]), 1, 1), Err(USED));
        assert_eq!(holds_of(&bytes, &write_trace(2, &[1]), 1, 1), Err(NAME));
    }
}

#[test]
fn at_the_bounds() {
    // The longest chain: fact f is there in round f.
    let chain: Vec<Clause> = (1..4_096).rev().map(|f| clause(f, &[f - 1])).collect();
    let model = Model { initial: vec![0], clauses: chain, ..bare(4_096) };
    let up_to = |last: u16| (0..=last).map(|f| (f, f)).collect::<Vec<_>>();
    for fact in [0, 1, 3, 256, 4_094, 4_095] {
        is(&model, &[], fact, fact, fact as u64, &up_to(fact));
    }
    let (bytes, trace) = (write_model(&model), write_trace(0, &[]));
    for fact in [4_096, 8_191, 65_535, 65_536, 65_536 + 4_095, 1 << 32, 1 << 63, usize::MAX] {
        assert_eq!(holds_of(&bytes, &trace, fact, 4_095), Err(FACT));
    }
    // Without its start: the last is absent after no round; without the last clause, after 4,094.
    is(&Model { initial: vec![], ..model.clone() }, &[], 4_095, NONE, 0, &[]);
    let clauses = model.clauses[1..].to_vec();
    is(&Model { clauses, ..model }, &[], 4_095, NONE, 4_094, &up_to(4_094));
    // All facts stored.
    let all: Vec<(u16, u16)> = (0..4_096).map(|f| (f, 0)).collect();
    is(
        &Model { initial: up_to(4_095).iter().map(|f| f.0).collect(), ..bare(4_096) },
        &[],
        4_095,
        0,
        0,
        &all,
    );
    // After as many steps as there may be: the last of them decides.
    let rules = vec![rule(&[0], &[], &[1]), rule(&[1], &[], &[0])];
    let model = Model { initial: vec![0], clauses: vec![clause(2, &[0])], rules, ..bare(3) };
    let steps: Vec<u16> = (0..1_024).map(|step| step % 2).collect();
    is(&model, &steps, 2, 1, 1, &[(0, 0), (2, 1)]);
    is(&model, &steps[..1_023], 2, NONE, 0, &[(1, 0)]);
    stops(&model, &[&steps[..1_023], &[0]].concat(), BLOCKED);
}

/// The desk model with one of its bytes changed.
fn desk_with(at: usize, byte: u8) -> Vec<u8> {
    let mut model = hex(DESK);
    model[at] = byte;
    model
}

#[test]
fn the_refusals_and_their_order() {
    let (desk, trace) = (hex(DESK), write_trace(0, &[]));
    // Too short a buffer, before any file is looked at; so is an `out` that is too short.
    for room in [(511, 4_096, 128), (512, 4_095, 128), (512, 4_096, 127), (0, 0, 0)] {
        assert_eq!(holds_in(&[], &[], 9, room, (4, 2)), Err(ROOM));
        assert_eq!(holds_in(&desk, &trace, 0, room, (4, 2)), Err(ROOM));
    }
    for entries in [0, 1] {
        assert_eq!(holds_in(&[], &[], 9, ENOUGH, (4, entries)), Err(ROOM));
        assert_eq!(holds_in(&desk, &trace, 0, ENOUGH, (4, entries)), Err(ROOM));
        assert_eq!(holds_in(&desk, &write_trace(0, &[1, 0]), 0, ENOUGH, (4, entries)), Err(ROOM));
    }
    assert!(holds_in(&desk, &trace, 0, (512, 4_096, 128), (4, 2)).is_ok());
    // The desk has 4 body places and 6 facts: with enough and with too little, for a fact that is there and one not.
    for (entries, fact) in [(4, 5), (3, 5), (0, 5), (4, 6), (3, 6), (4, usize::MAX)] {
        let number =
            |model: &[u8], trace: &[u8]| holds_of(model, trace, fact, entries).unwrap_err();
        assert_eq!(number(&[0; 65_537], &trace), LONG);
        assert_eq!(number(&desk, &[0; 4_097]), LONG);
        assert_eq!(number(&desk_with(0, 5), &trace), VERSION);
        assert_eq!(number(&desk, &[2, 0, 0, 0, 2, 0, 0]), VERSION);
        assert_eq!(number(&desk, &[]), VERSION);
        assert_eq!(number(&desk[..100], &trace), SHAPE);
        assert_eq!(number(&[&desk[..], &[0]].concat(), &trace), SHAPE);
        assert_eq!(number(&desk_with(5, 0x10), &trace), COUNT);
        assert_eq!(number(&desk_with(100, 6), &trace), FACT);
        let twice = Model { attacks: vec![attack(&[3, 3], &[])], ..self::desk() };
        assert_eq!(number(&write_model(&twice), &trace), ORDER);
        let named = Model { names: Some(vec![1_024]), ..self::desk() };
        assert_eq!(number(&write_model(&named), &trace), BADNAME);
        let asked = Model { formulas: Some(vec![vec![]]), ..self::desk() };
        assert_eq!(number(&write_model(&asked), &trace), FORMULA);
        // What is wrong with the trace besides comes after ROOM, and before a fact that there isn't.
        let or_room = |number| if entries == 4 { number } else { ROOM };
        assert_eq!(number(&desk, &[1]), or_room(SHAPE));
        assert_eq!(number(&desk, &[1, 0, 0, 0, 0]), or_room(SHAPE));
        assert_eq!(number(&desk, &[&trace[..], &[0]].concat()), or_room(SHAPE));
        assert_eq!(number(&desk, &write_trace(0, &[0; 1_025])), or_room(COUNT));
        assert_eq!(number(&desk, &write_trace(2, &[])), or_room(NAME));
        assert_eq!(number(&desk, &write_trace(0, &[3])), or_room(NAME));
        // A name behind a blocked step is judged all the same.
        assert_eq!(number(&desk, &write_trace(0, &[1, 0, 3])), or_room(NAME));
        // And a fact that there isn't before any step.
        let blocked = if fact < 6 { BLOCKED } else { FACT };
        assert_eq!(number(&desk, &write_trace(0, &[1, 0])), or_room(blocked));
    }
    assert_eq!(holds_of(&desk, &trace, 6, 4), Err(FACT));
    assert_eq!(holds_of(&desk, &trace, 6, 3), Err(ROOM));
}
