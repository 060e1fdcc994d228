//! Version 2 of the model: its persistent facts, what a step does to them, and how their section is
//! judged. Lines and places are worked out by hand.

mod common;
use common::*;
use second::gen::{write_model, write_trace};
use second::*;

/// 65 bytes. 1 from 0; 0 is stored, 1 persistent. r0 asks for 1, r1 takes 0 away, the goal is 1.
/// The sections' lengths stand at 1, 7, 13, 19, 29 and 53, so the goal's record is at 57.
const MANDATE: &str = "02 00000002 0002  00000002 0000  00000002 0001 \
    00000006 0004 0001 0000 \
    00000014 0008 0001 0001 0000 0000  0008 0001 0000 0000 0000 \
    00000008 0006 0001 0001 0000";

fn mandate() -> Model {
    Model {
        facts: 2,
        initial: vec![0],
        persistent: Some(vec![1]),
        names: None,
        clauses: vec![clause(1, &[0])],
        rules: vec![rule(&[1], &[], &[]), rule(&[0], &[], &[])],
        attacks: vec![attack(&[1], &[])],
        formulas: None,
    }
}

fn line_of(model: &Model, steps: &[u16]) -> String {
    line(&judge(&write_model(model), &write_trace(0, steps)))
}

#[test]
fn the_bytes_of_version_2() {
    assert_eq!((write_model(&mandate()), hex(MANDATE).len()), (hex(MANDATE), 65));
    assert_eq!(parse_model(&hex(MANDATE)), Ok(mandate()));
    let empty = Model { persistent: Some(vec![]), ..bare(3) };
    let bytes = "02 00000002 0003 00000000 00000000 00000000 00000000 00000006 0004 0000 0000";
    assert_eq!(write_model(&empty), hex(bytes));
    assert_eq!(parse_model(&hex(bytes)), Ok(empty));
}

#[test]
fn a_persistent_fact_that_is_derived_goes_with_its_derivation() {
    // {0} with 1 round, {0} again with 1 round, {} with none.
    let v = judge(&hex(MANDATE), &write_trace(0, &[0, 1]));
    assert_eq!(line(&v), "NOATTACK step 2 fact 1 rounds 2 held 0 kind positive round none");
    assert_eq!(place(v), (NOATTACK, MODEL, 57, 8));
    let after_r0 = "ATTACK step 1 fact none rounds 2 held 1 kind none round none";
    assert_eq!(line_of(&mandate(), &[0]), after_r0);
    // Once 0 is gone r0 can't fire: {0} with 1 round, {} with none.
    let blocked = "BLOCKED step 1 fact 1 rounds 1 held 0 kind positive round none";
    assert_eq!(line_of(&mandate(), &[1, 0]), blocked);
    // Written into A again, as version 1 has it: {0}, {0, 1}, {1}, only the first with a round.
    let mut old = Model { persistent: None, ..mandate() };
    old.rules[0].add = vec![1];
    let outlived = "ATTACK step 2 fact none rounds 1 held 1 kind none round none";
    assert_eq!(line_of(&old, &[0, 1]), outlived);
    // And so in version 2: a persistent fact in A is stored as any other.
    assert_eq!(line_of(&Model { persistent: Some(vec![1]), ..old }, &[0, 1]), outlived);
}

/// The first byte of the state after rule 0, which fires once, from {0, 1, 2}; F is 8.
fn state_after(persistent: Option<&[u16]>, pos: &[u16], add: &[u16]) -> u8 {
    let (rules, persistent) = (vec![rule(pos, &[], add)], persistent.map(<[u16]>::to_vec));
    let model = Model { initial: vec![0, 1, 2], persistent, rules, ..bare(8) };
    let (mut state, mut table, mut names) = ([0xA5; 512], [7; 4_096], [0x3C; 128]);
    let trace = write_trace(0, &[0]);
    let v = check(&write_model(&model), &trace, &mut state, &mut table, &mut names);
    assert_eq!((v.number, v.step, v.held), (ATTACK, 1, state[0].count_ones() as usize));
    assert!(state[1..] == [0; 511]);
    state[0]
}

#[test]
fn a_step_removes_what_is_not_persistent_and_stores_a() {
    // All of P goes in version 1, and where no fact is persistent.
    assert_eq!(state_after(None, &[0, 1], &[4]), 0b1_0100);
    assert_eq!(state_after(Some(&[]), &[0, 1], &[4]), 0b1_0100);
    // The first, the last, both; those outside P say nothing.
    assert_eq!(state_after(Some(&[0]), &[0, 1], &[4]), 0b1_0101);
    assert_eq!(state_after(Some(&[1]), &[0, 1], &[4]), 0b1_0110);
    assert_eq!(state_after(Some(&[0, 1]), &[0, 1], &[4]), 0b1_0111);
    assert_eq!(state_after(Some(&[2, 3, 7]), &[0, 1], &[]), 0b100);
    // In A: stored, persistent or not, in P or not.
    assert_eq!(state_after(Some(&[0, 4]), &[0, 1], &[0, 4]), 0b1_0101);
    assert_eq!(state_after(Some(&[1]), &[0, 1], &[0]), 0b111);
    assert_eq!(state_after(Some(&[7]), &[], &[7]), 0b1000_0111);
}

#[test]
fn a_derived_fact_is_not_stored_for_being_persistent() {
    // 3 from 0 in round 1, 4 from 3 in round 2; P is 0, 3, 4, and 0 or none of them stays.
    let of = |persistent: &[u16]| Model {
        initial: vec![0],
        persistent: Some(persistent.to_vec()),
        clauses: vec![clause(4, &[3]), clause(3, &[0])],
        rules: vec![rule(&[0, 3, 4], &[], &[])],
        attacks: vec![attack(&[4], &[])],
        ..bare(5)
    };
    let gone = "NOATTACK step 1 fact 4 rounds 2 held 0 kind positive round none";
    assert_eq!(line_of(&of(&[3, 4]), &[0]), gone);
    assert_eq!(line_of(&of(&[]), &[0]), gone);
    let stays = "ATTACK step 1 fact none rounds 4 held 1 kind none round none";
    assert_eq!(line_of(&of(&[0]), &[0]), stays);
    assert_eq!(line_of(&of(&[0, 1, 2, 3, 4]), &[0]), stays);
}

#[test]
fn a_persistent_fact_is_an_ordinary_condition() {
    // Missing in P: 2 is neither stored nor derived. In the way in N: 0 is stored.
    let with =
        |r: Rule| Model { initial: vec![0], persistent: Some(up_to(3)), rules: vec![r], ..bare(3) };
    let missing = "BLOCKED step 0 fact 2 rounds 0 held 1 kind positive round none";
    assert_eq!(line_of(&with(rule(&[0, 2], &[], &[])), &[0]), missing);
    let in_the_way = "BLOCKED step 0 fact 0 rounds 0 held 1 kind negative round 0";
    assert_eq!(line_of(&with(rule(&[0], &[0], &[])), &[0]), in_the_way);
}

#[test]
fn each_of_many_persistent_facts_is_kept_and_no_other() {
    // All 4,096 facts but one at most; the first, those around the middle, the last.
    for fact in [0, 1, 255, 256, 2_047, 2_048, 4_094, 4_095] {
        let of = |persistent: Vec<u16>| Model {
            initial: vec![fact],
            persistent: Some(persistent),
            rules: vec![rule(&[fact], &[], &[])],
            attacks: vec![attack(&[fact], &[])],
            ..bare(4_096)
        };
        let kept = "ATTACK step 1 fact none rounds 0 held 1 kind none round none";
        assert_eq!(line_of(&of(up_to(4_096)), &[0]), kept);
        assert_eq!(line_of(&of(vec![fact]), &[0]), kept);
        let gone = format!("NOATTACK step 1 fact {fact} rounds 0 held 0 kind positive round none");
        let others = up_to(4_096).into_iter().filter(|f| *f != fact).collect();
        assert_eq!(line_of(&of(others), &[0]), gone);
    }
}

#[test]
fn the_last_of_a_full_p_is_looked_up() {
    // Only the 32nd is persistent, all but the 32nd are, all are.
    for persistent in [31..32, 0..31, 0..32] {
        let (stay, go): (Vec<u16>, Vec<u16>) = (0..32).partition(|f| persistent.contains(f));
        let model = Model {
            initial: up_to(32),
            persistent: Some(stay.clone()),
            rules: vec![rule(&up_to(32), &[], &[])],
            attacks: vec![attack(&stay, &go)],
            ..bare(32)
        };
        let held = stay.len();
        let text = format!("ATTACK step 1 fact none rounds 0 held {held} kind none round none");
        assert_eq!(line_of(&model, &[0]), text);
    }
}

/// The desk model as version 2: its persistent facts 1 and 5 have their length at 17 and their
/// bytes from 21 to 25; the lengths after it stand at 25, 45 and 85.
fn desk() -> Vec<u8> {
    let mut bytes = hex(DESK);
    bytes[0] = 2;
    bytes.splice(17..17, hex("00000004 0001 0005"));
    bytes
}

#[test]
fn the_desk_model_with_an_empty_section_has_its_lines() {
    let mut model = hex(DESK);
    model[0] = 2;
    model.splice(17..17, [0; 4]);
    for (goal, steps) in
        [(0, &[0][..]), (0, &[1, 0]), (0, &[0, 0]), (1, &[1]), (1, &[]), (0, &[2]), (2, &[])]
    {
        let trace = write_trace(goal, steps);
        let (old, new) = (judge(&hex(DESK), &trace), judge(&model, &trace));
        // An attack state's record stands 4 bytes further on.
        let further = if old.number == NOATTACK { 4 } else { 0 };
        assert_eq!(new, Verdict { start: old.start + further, ..old });
    }
}

/// In the order in which they are judged.
const ROWS: &[Row] = &[
    ("version 5", VERSION, 0, Some(1), |m| m[0] = 5),
    ("F of 4,102", COUNT, 5, Some(2), |m| m[5] = 0x10),
    ("initial 1 1 4", ORDER, 11, Some(6), |m| m[12] = 1),
    ("length", SHAPE, 17, None, |m| m[17] = 0xFF),
    ("odd", SHAPE, 21, Some(3), |m| m[20] = 3),
    ("1 6", FACT, 21, Some(4), |m| m[24] = 6),
    ("5 5", ORDER, 21, Some(4), |m| m[22] = 5),
    ("clauses length", SHAPE, 25, None, |m| m[25] = 0xFF),
    ("clause 0 head 6", FACT, 29, Some(8), |m| m[32] = 6),
    ("a1 P 6", FACT, 99, Some(10), |m| m[104] = 6),
    ("after the model", SHAPE, 109, None, |m| m.push(0)),
];

#[test]
fn the_section_is_judged_between_the_initial_facts_and_the_clauses() {
    assert_eq!(judge(&desk(), &write_trace(0, &[0])).number, ATTACK);
    the_upper_row_is_answered(&desk(), ROWS);
}

/// A model of version 2 and 3 facts that ends after the bytes given, which follow the initial facts
/// from 11 on; place and number.
fn ended(bytes: &str) -> (u8, u8, usize, usize) {
    let model = hex(&format!("02 00000002 0003 00000000 {bytes}"));
    place(judge(&model, &write_trace(0, &[])))
}

#[test]
fn a_section_that_is_not_there_or_not_whole() {
    assert_eq!(ended(""), (SHAPE, MODEL, 11, 0));
    assert_eq!(ended("00"), (SHAPE, MODEL, 11, 1));
    assert_eq!(ended("000000"), (SHAPE, MODEL, 11, 3));
    assert_eq!(ended("00000001"), (SHAPE, MODEL, 11, 4));
    assert_eq!(ended("00010000 0000"), (SHAPE, MODEL, 11, 6));
    // Half a fact alone, and behind a fact of F and two in the wrong order: 4 comes first.
    assert_eq!(ended("00000001 00"), (SHAPE, MODEL, 15, 1));
    assert_eq!(ended("00000007 0003 0001 0000 00"), (SHAPE, MODEL, 15, 7));
    // 6 comes before 7, wherever the fact stands; an order that is broken in the last place.
    assert_eq!(ended("00000006 0001 0000 0003"), (FACT, MODEL, 15, 6));
    assert_eq!(ended("00000006 FFFF 0001 0000"), (FACT, MODEL, 15, 6));
    assert_eq!(ended("00000006 0000 0002 0002"), (ORDER, MODEL, 15, 6));
    assert_eq!(ended("00000006 0000 0002 0001"), (ORDER, MODEL, 15, 6));
    // With all of its facts it is fine, and the clauses' length is missed next.
    assert_eq!(ended("00000006 0000 0001 0002"), (SHAPE, MODEL, 21, 0));
    assert_eq!(ended("00000000"), (SHAPE, MODEL, 15, 0));
}

#[test]
fn the_section_has_no_bound_of_its_own() {
    let of = |facts, persistent| {
        let model = Model { persistent: Some(persistent), ..bare(facts) };
        place(judge(&write_model(&model), &write_trace(0, &[])))
    };
    assert_eq!(of(4_096, up_to(4_096)), (ATTACK, MODEL, 0, 0));
    // Fact F, one or many facts twice: never 5. The section's bytes start at 15.
    assert_eq!(of(4_096, up_to(4_097)), (FACT, MODEL, 15, 2 * 4_097));
    assert_eq!(of(4_095, up_to(4_096)), (FACT, MODEL, 15, 2 * 4_096));
    let mut twice = up_to(4_096);
    twice.push(4_095);
    assert_eq!(of(4_096, twice), (ORDER, MODEL, 15, 2 * 4_097));
    assert_eq!(of(4_096, vec![0; 5_000]), (ORDER, MODEL, 15, 2 * 5_000));
}

#[test]
fn heads_and_facts_never_stored_may_be_persistent() {
    let model = Model {
        persistent: Some(vec![1, 2]),
        clauses: vec![clause(1, &[0])],
        rules: vec![rule(&[], &[1, 2], &[0])],
        ..bare(3)
    };
    let text = "ATTACK step 1 fact none rounds 1 held 1 kind none round none";
    assert_eq!(line_of(&model, &[0]), text);
}

#[test]
fn the_versions_that_there_are() {
    for model in [hex(DESK), desk()] {
        for version in [0, 5, 6, 127, 128, 254, 255] {
            let mut other = model.clone();
            other[0] = version;
            let v = judge(&other, &write_trace(0, &[]));
            assert_eq!(place(v), (VERSION, MODEL, 0, 1), "{version}");
            assert_eq!(count_api(&other), Err(VERSION));
        }
        // The trace has one version, whichever the model has.
        for version in [0, 2, 3, 255] {
            let mut trace = write_trace(0, &[]);
            trace[0] = version;
            assert_eq!(place(judge(&model, &trace)), (VERSION, TRACE, 0, 1), "{version}");
        }
    }
    // The desk model with another version than its layout's. As version 2, the 16 bytes of its
    // clauses, from 21 on, are facts: 6 is F. As version 1, the persistent facts are clauses: a
    // record of 1 byte, 0, that is no head.
    let mut wrong = hex(DESK);
    wrong[0] = 2;
    assert_eq!(place(judge(&wrong, &write_trace(0, &[]))), (FACT, MODEL, 21, 16));
    let mut wrong = desk();
    wrong[0] = 1;
    assert_eq!(place(judge(&wrong, &write_trace(0, &[]))), (SHAPE, MODEL, 21, 3));
}

#[test]
fn counting_and_closing_are_the_same_for_both_versions() {
    let counts = Counts { facts: 6, clauses: 2, rules: 3, goals: 2 };
    assert_eq!([count_api(&hex(DESK)), count_api(&desk())], [Ok(counts); 2]);
    // 0, 1 and 4: 2 in round 1, 5 in round 2, persistent or not.
    let mut state = [0; 512];
    state[0] = 0b1_0011;
    let mut table = [9; 4_096];
    assert_eq!(close_api(&desk(), &state, &mut table), Ok(2));
    assert_eq!(table[..6], [0, 0, 1, NONE, 0, 2]);
}

#[test]
fn the_longest_model_of_version_2() {
    // `bare` has 33 bytes as version 2, and 8,192 with all facts persistent; 286 rules of
    // 2 + 3 * 66 = 200 bytes leave 65,535 - 8,225 - 57,200 = 110 for the last: 8 and 51 facts.
    let mut model = Model { persistent: Some(up_to(4_096)), ..bare(4_096) };
    model.rules = vec![rule(&up_to(32), &up_to(32), &up_to(32)); 286];
    model.rules.push(rule(&up_to(32), &up_to(19), &[]));
    is_longest(&model);
}
