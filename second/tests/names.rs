//! Version 3 of the model: the names in use at the start, those that a rule makes, what firing does to
//! them, and how both lists are judged. Lines and places are worked out by hand.

mod common;
use common::*;
use second::gen::{write_model, write_trace};
use second::*;

/// 81 bytes. 1 from 0; 0 is stored, 1 persistent; 3 and 1,023 are in use. r0 makes 4 and 7, r1 asks
/// for 1 and makes 3, the goal is 1. The sections' lengths stand at 1, 7, 13, 19, 27, 37 and 69, the
/// rules at 41 and 55, the goal's record at 73.
const MINT: &str = "03 00000002 0002  00000002 0000  00000002 0001  00000004 0003 03FF \
    00000006 0004 0001 0000 \
    0000001C 000C 0000 0000 0000 0002 0004 0007  000C 0001 0001 0000 0000 0001 0003 \
    00000008 0006 0001 0001 0000";

fn mint() -> Model {
    Model {
        facts: 2,
        initial: vec![0],
        persistent: Some(vec![1]),
        names: Some(vec![3, 1_023]),
        clauses: vec![clause(1, &[0])],
        rules: vec![making(&[4, 7]), Rule { pos: vec![1], ..making(&[3]) }],
        attacks: vec![attack(&[1], &[])],
        formulas: None,
    }
}

fn making(names: &[u16]) -> Rule {
    Rule { names: names.to_vec(), ..Rule::default() }
}

/// No fact is persistent, and one attack state is always met.
fn with(names: &[u16], rules: &[Rule]) -> Model {
    let (names, rules) = (Some(names.to_vec()), rules.to_vec());
    Model { persistent: Some(vec![]), names, rules, ..bare(40) }
}

/// The line, and the names used at the end.
fn run(model: &Model, steps: &[u16]) -> (String, Vec<u16>) {
    let (mut state, mut table, mut names) = ([0xA5; 512], [7; 4_096], [0x3C; 128]);
    let trace = write_trace(0, steps);
    let v = check(&write_model(model), &trace, &mut state, &mut table, &mut names);
    let is_used = |name: &u16| names[*name as usize / 8] >> (name % 8) & 1 == 1;
    (line(&v), (0..1_024).filter(is_used).collect())
}

fn ends(model: &Model, steps: &[u16], text: &str, used: &[u16]) {
    assert_eq!(run(model, steps), (text.to_string(), used.to_vec()));
}

#[test]
fn the_bytes_of_version_3() {
    assert_eq!((write_model(&mint()), hex(MINT).len()), (hex(MINT), 81));
    assert_eq!(parse_model(&hex(MINT)), Ok(mint()));
    let empty = Model { persistent: Some(vec![]), names: Some(vec![]), ..bare(3) };
    let bytes =
        "03 00000002 0003 00000000 00000000 00000000 00000000 00000000 00000006 0004 0000 0000";
    assert_eq!(write_model(&empty), hex(bytes));
    assert_eq!(parse_model(&hex(bytes)), Ok(empty));
}

#[test]
fn firing_uses_names_and_they_stay_used() {
    let attack = |steps: usize, rounds: usize| {
        format!("ATTACK step {steps} fact none rounds {rounds} held 1 kind none round none")
    };
    // Each state has one round.
    ends(&mint(), &[], &attack(0, 1), &[3, 1_023]);
    ends(&mint(), &[0], &attack(1, 2), &[3, 4, 7, 1_023]);
    // The second r0 makes 4 again; r1 makes 3, which was in use from the start.
    let again = "USED step 1 fact 4 rounds 2 held 1 kind none round none";
    ends(&mint(), &[0, 0], again, &[3, 4, 7, 1_023]);
    let in_use = "USED step 0 fact 3 rounds 1 held 1 kind none round none";
    ends(&mint(), &[1, 0], in_use, &[3, 1_023]);
    // The bytes at fault are the step's two, as for BLOCKED.
    let place_of = |steps: &[u16]| place(judge(&hex(MINT), &write_trace(0, steps)));
    assert_eq!(place_of(&[0, 0]), (USED, TRACE, 9, 2));
    assert_eq!(place_of(&[1]), (USED, TRACE, 7, 2));
}

#[test]
fn a_name_is_a_bit_of_its_own() {
    for name in [0, 7, 8, 255, 256, 511, 512, 1_022, 1_023] {
        let rules = [making(&[name])];
        let fine = "ATTACK step 1 fact none rounds 0 held 0 kind none round none";
        ends(&with(&[], &rules), &[0], fine, &[name]);
        let used = format!("USED step 0 fact {name} rounds 0 held 0 kind none round none");
        ends(&with(&[name], &rules), &[0], &used, &[name]);
        // All others in use are no hindrance.
        let others: Vec<u16> = up_to(1_024).into_iter().filter(|other| *other != name).collect();
        ends(&with(&others, &rules), &[0], fine, &up_to(1_024));
        ends(&with(&up_to(1_024), &rules), &[0], &used, &up_to(1_024));
        // Made by another rule before.
        let rules = [making(&[name]), making(&[name])];
        let used = format!("USED step 1 fact {name} rounds 0 held 0 kind none round none");
        ends(&with(&[], &rules), &[1, 0], &used, &[name]);
    }
}

#[test]
fn the_fact_is_the_first_used_name_of_the_list() {
    for (in_use, first) in [(&[2, 5, 9][..], 2), (&[5, 9], 5), (&[9], 9), (&[0, 5, 1_000], 5)] {
        let text = format!("USED step 0 fact {first} rounds 0 held 0 kind none round none");
        // The names before it stay unused.
        ends(&with(in_use, &[making(&[2, 5, 9])]), &[0], &text, in_use);
    }
    // The last of a full list.
    let text = "USED step 0 fact 331 rounds 0 held 0 kind none round none";
    let list: Vec<u16> = (300..332).collect();
    ends(&with(&[299, 331, 332], &[making(&list)]), &[0], text, &[299, 331, 332]);
}

#[test]
fn a_step_that_makes_a_used_name_does_nothing_else() {
    // Its P stays and its A does not come; 2 from 0 in round 1.
    let rule = Rule { pos: vec![0], add: vec![1], ..making(&[4, 5]) };
    let model =
        Model { initial: vec![0], clauses: vec![clause(2, &[0])], ..with(&[5, 6], &[rule]) };
    let (mut state, mut table, mut names) = ([0xA5; 513], [7; 4_097], [0x3C; 129]);
    let trace = write_trace(0, &[0]);
    let v = check(&write_model(&model), &trace, &mut state, &mut table, &mut names);
    assert_eq!(line(&v), "USED step 0 fact 5 rounds 1 held 1 kind none round none");
    assert!(state[0] == 1 && state[1..512] == [0; 511] && state[512] == 0xA5);
    assert!(table[..3] == [0, NONE, 1] && table[3..4_096] == [NONE; 4_093] && table[4_096] == 7);
    assert!(names[0] == 0x60 && names[1..128] == [0; 127] && names[128] == 0x3C);
}

#[test]
fn a_used_name_comes_after_the_conditions_of_its_step() {
    // 0 is stored, 1 is not.
    let of = |pos: &[u16], neg: &[u16]| {
        let rule = Rule { pos: pos.to_vec(), neg: neg.to_vec(), ..making(&[5, 6]) };
        Model { initial: vec![0], ..with(&[5], &[rule]) }
    };
    let p = "BLOCKED step 0 fact 1 rounds 0 held 1 kind positive round none";
    ends(&of(&[0, 1], &[0]), &[0], p, &[5]);
    let n = "BLOCKED step 0 fact 0 rounds 0 held 1 kind negative round 0";
    ends(&of(&[0], &[0, 1]), &[0], n, &[5]);
    let used = "USED step 0 fact 5 rounds 0 held 1 kind none round none";
    ends(&of(&[0], &[1]), &[0], used, &[5]);
    // A step before that makes a used name, and one that is blocked after it.
    let rules = [making(&[5]), Rule { pos: vec![1], ..Rule::default() }];
    let used = "USED step 0 fact 5 rounds 0 held 0 kind none round none";
    ends(&with(&[5], &rules), &[0, 1], used, &[5]);
    let blocked = "BLOCKED step 0 fact 1 rounds 0 held 0 kind positive round none";
    ends(&with(&[5], &rules), &[1, 0], blocked, &[5]);
}

#[test]
fn a_blocked_step_uses_no_name() {
    let rules = [making(&[2]), Rule { pos: vec![1], ..making(&[8]) }];
    let text = "BLOCKED step 1 fact 1 rounds 0 held 0 kind positive round none";
    ends(&with(&[5], &rules), &[0, 1], text, &[2, 5]);
}

#[test]
fn nothing_frees_a_name() {
    // Fact 4 comes with name 4 and goes, by a P that is not persistent; the name stays used.
    let rules = [
        Rule { add: vec![4], ..making(&[4]) },
        Rule { pos: vec![4], ..making(&[5]) },
        making(&[4]),
    ];
    let text = "USED step 2 fact 4 rounds 0 held 0 kind none round none";
    ends(&with(&[], &rules), &[0, 1, 2], text, &[4, 5]);
    // And a used name is no fact: 5 is used and not stored, in P and in N.
    let rules = [Rule { pos: vec![5], ..Rule::default() }, Rule { neg: vec![5], ..making(&[6]) }];
    let blocked = "BLOCKED step 0 fact 5 rounds 0 held 0 kind positive round none";
    ends(&with(&[5], &rules), &[0], blocked, &[5]);
    let fine = "ATTACK step 1 fact none rounds 0 held 0 kind none round none";
    ends(&with(&[5], &rules), &[1], fine, &[5, 6]);
}

#[test]
fn names_decide_nothing_but_firing() {
    // All are in use, and r0 makes none: 1,024 steps fire. F is 40, and names from 40 on are fine.
    let model = with(&up_to(1_024), &[making(&[])]);
    let text = "ATTACK step 1024 fact none rounds 0 held 0 kind none round none";
    ends(&model, &[0; 1_024], text, &up_to(1_024));
    // A goal has no names, and NOATTACK writes those used.
    let model = Model { attacks: vec![attack(&[3], &[])], ..with(&[3], &[making(&[39, 40])]) };
    let text = "NOATTACK step 1 fact 3 rounds 0 held 0 kind positive round none";
    ends(&model, &[0], text, &[3, 39, 40]);
}

#[test]
fn a_thousand_steps_with_a_name_each() {
    let rules: Vec<Rule> = (0..1_024).rev().map(|name| making(&[name])).collect();
    let mut steps = up_to(1_024);
    let fine = "ATTACK step 1024 fact none rounds 0 held 0 kind none round none";
    ends(&with(&[], &rules), &steps, fine, &up_to(1_024));
    // The last step is the first again, whose name is 1,023; name 0 stays unused.
    steps[1_023] = 0;
    let used = "USED step 1023 fact 1023 rounds 0 held 0 kind none round none";
    ends(&with(&[], &rules), &steps, used, &(1..1_024).collect::<Vec<u16>>());
    // In 32 steps of 32 names.
    let rules: Vec<Rule> = up_to(1_024).chunks(32).map(making).chain([making(&[500])]).collect();
    let used = "USED step 32 fact 500 rounds 0 held 0 kind none round none";
    ends(&with(&[], &rules), &up_to(33), used, &up_to(1_024));
}

#[test]
fn versions_1_and_2_have_no_names_and_leave_none() {
    let rules = vec![rule(&[], &[], &[])];
    for persistent in [None, Some(vec![])] {
        let model = Model { persistent, rules: rules.clone(), ..bare(3) };
        let text = "ATTACK step 1 fact none rounds 0 held 0 kind none round none";
        ends(&model, &[0], text, &[]);
    }
}

#[test]
fn the_names_need_128_bytes_whatever_the_version() {
    let files: [&[u8]; 5] = [&hex(DESK), &hex(MINT), &[], &[0; 65_537], &[9]];
    for model in files {
        for trace in [&write_trace(0, &[])[..], &[], &[0; 4_097]] {
            for room in [(512, 4_096, 127), (512, 4_096, 0), (600, 5_000, 127), (0, 0, 0)] {
                assert_eq!(place(judge_in(model, trace, room)), (ROOM, MODEL, 0, 0));
            }
            assert_ne!(judge_in(model, trace, (512, 4_096, 128)).number, ROOM);
        }
    }
}

/// Number and place of a model whose only rule is this one; its record starts at 27.
fn one_rule(rule: Rule) -> (u8, u8, usize, usize) {
    place(judge(&write_model(&with(&[], &[rule])), &write_trace(0, &[])))
}

#[test]
fn bounds_of_the_lists() {
    let fine = (ATTACK, MODEL, 0, 0);
    // 32 names and 33: the record has 2 + 4 * 2 bytes and 2 for each.
    assert_eq!(one_rule(making(&up_to(32))), fine);
    assert_eq!(one_rule(making(&up_to(33))), (COUNT, MODEL, 27, 10 + 66));
    assert_eq!(one_rule(making(&up_to(300))), (COUNT, MODEL, 27, 10 + 600));
    // Name 1,023 and 1,024. F is 40, which says nothing of names.
    assert_eq!(one_rule(making(&[39, 40, 1_023])), fine);
    assert_eq!(one_rule(making(&[1_024])), (BADNAME, MODEL, 27, 12));
    assert_eq!(one_rule(making(&[0, 65_535])), (BADNAME, MODEL, 27, 14));
    // And 1,024 is a fact as any other.
    let model = Model { facts: 1_025, ..with(&[], &[rule(&[], &[], &[1_024])]) };
    assert_eq!(place(judge(&write_model(&model), &write_trace(0, &[0]))), fine);
    // The section has no bound of its own, and its bytes start at 19.
    let section =
        |names: Vec<u16>| place(judge(&write_model(&with(&names, &[])), &write_trace(0, &[])));
    assert_eq!(section(up_to(1_024)), fine);
    assert_eq!(section(up_to(1_025)), (BADNAME, MODEL, 19, 2 * 1_025));
    assert_eq!(section(up_to(5_000)), (BADNAME, MODEL, 19, 2 * 5_000));
    let mut twice = up_to(1_024);
    twice.push(1_023);
    assert_eq!(section(twice), (ORDER, MODEL, 19, 2 * 1_025));
    assert_eq!(section(vec![0; 5_000]), (ORDER, MODEL, 19, 2 * 5_000));
}

/// A model of F = 40 with one rule of these bytes, in version 2 or 3.
fn raw_rule(version: u8, lists: &[&[u16]]) -> (u8, u8, usize, usize) {
    let payload: Vec<u8> = lists.concat().iter().flat_map(|n| n.to_be_bytes()).collect();
    let mut model = hex("00 00000002 0028");
    model[0] = version;
    // The initial facts, the persistent ones, in version 3 the names, and the clauses.
    model.extend(vec![0; 4 * (version as usize + 1)]);
    model.extend((payload.len() as u32 + 2).to_be_bytes());
    model.extend((payload.len() as u16).to_be_bytes());
    model.extend(payload);
    model.extend([0; 4]);
    place(judge(&model, &write_trace(0, &[])))
}

#[test]
fn a_rule_is_judged_in_five_passes() {
    let many = &[&[33], &up_to(33)[..]].concat()[..];
    let few = &[&[33], &up_to(32)[..], &[1_024]].concat()[..];
    // P, A and the names; N is empty. Fact 40 is F.
    let cases: [(u8, &[u16], &[u16], &[u16]); 20] = [
        (SHAPE, &[0], &[0], &[]),            // no fourth list
        (SHAPE, &[0], &[0], &[1]),           // one name, which is not there
        (SHAPE, &[0], &[0], &[0, 0]),        // a word after it
        (SHAPE, &[0], &[0], &[33, 1]),       // over 32 without its names is only a bad shape
        (SHAPE, many, &[1, 40], &[1]),       // after a count and a fact that are too great
        (SHAPE, &[2, 1, 1], &[0], &[1]),     // after 1 twice
        (SHAPE, &[0], &[0], &[1, 1_024, 0]), // after a name too great
        (COUNT, &[0], &[0], many),
        (COUNT, &[0], &[0], few),            // 33, the last too great
        (COUNT, &[1, 40], &[0], many),       // after a fact of F
        (COUNT, many, &[0], &[1, 1_024]),    // before a name too great
        (FACT, &[1, 40], &[0], &[1, 1_024]), // before a name too great
        (FACT, &[0], &[1, 40], &[2, 1_024, 1]),
        (FACT, &[0], &[1, 40], &[2, 1, 1]), // before a name twice
        (BADNAME, &[0], &[0], &[1, 1_024]),
        (BADNAME, &[2, 1, 1], &[0], &[1, 1_024]), // before a fact twice
        (BADNAME, &[0], &[0], &[3, 65_535, 1, 1]), // before a name twice
        (ORDER, &[0], &[0], &[2, 1, 1]),
        (ORDER, &[0], &[0], &[3, 1, 1_023, 40]),
        (ORDER, &[2, 1, 1], &[0], &[1, 1_023]),
    ];
    for (number, pos, add, names) in cases {
        let lists = [pos, &[0], add, names];
        let len = 2 + 2 * lists.concat().len();
        assert_eq!(raw_rule(3, &lists), (number, MODEL, 27, len), "{lists:?}");
    }
}

#[test]
fn only_version_3_has_a_fourth_list() {
    // NAME, as there is no attack state: the rule itself is fine.
    let fine = (NAME, TRACE, 5, 2);
    let (three, four): (&[u16], &[u16]) = (&[0; 3], &[0; 4]);
    assert_eq!([raw_rule(1, &[three]), raw_rule(2, &[three]), raw_rule(3, &[four])], [fine; 3]);
    // A rule of version 1 starts at 19, one of version 2 at 23.
    assert_eq!(raw_rule(1, &[four]), (SHAPE, MODEL, 19, 10));
    assert_eq!(raw_rule(2, &[four]), (SHAPE, MODEL, 23, 10));
    assert_eq!(raw_rule(3, &[three]), (SHAPE, MODEL, 27, 8));
    // An attack state has two in every version.
    let mut model = hex(MINT);
    model.truncate(69);
    model.extend(hex("00000008 0006 0000 0000 0000"));
    assert_eq!(place(judge(&model, &write_trace(0, &[]))), (SHAPE, MODEL, 73, 8));
}

/// In the order in which they are judged.
const ROWS: &[Row] = &[
    ("version 5", VERSION, 0, Some(1), |m| m[0] = 5),
    ("F of 4,098", COUNT, 5, Some(2), |m| m[5] = 0x10),
    ("persistent 2", FACT, 17, Some(2), |m| m[18] = 2),
    ("length", SHAPE, 19, None, |m| m[19] = 0xFF),
    ("odd", SHAPE, 23, Some(3), |m| m[22] = 3),
    ("3 1,279", BADNAME, 23, Some(4), |m| m[25] = 4),
    ("1,023 1,023", ORDER, 23, Some(4), |m| m[23..25].copy_from_slice(&[3, 0xFF])),
    ("clauses length", SHAPE, 27, None, |m| m[27] = 0xFF),
    ("clause 0 head 2", FACT, 31, Some(6), |m| m[34] = 2),
    ("rules length", SHAPE, 37, None, |m| m[37] = 0xFF),
    ("r0 makes 3 in room for 2", SHAPE, 41, Some(14), |m| m[50] = 3),
    ("r0 makes 4 1,031", BADNAME, 41, Some(14), |m| m[53] = 4),
    ("r0 makes 7 7", ORDER, 41, Some(14), |m| m[52] = 7),
    ("r1 P 2", FACT, 55, Some(14), |m| m[60] = 2),
    ("r1 makes 1,027", BADNAME, 55, Some(14), |m| m[67] = 4),
    ("a0 P 2", FACT, 73, Some(8), |m| m[78] = 2),
    ("after the model", SHAPE, 81, None, |m| m.push(0)),
];

#[test]
fn names_are_judged_where_they_stand() {
    assert_eq!(judge(&hex(MINT), &write_trace(0, &[0])).number, ATTACK);
    the_upper_row_is_answered(&hex(MINT), ROWS);
}

#[test]
fn the_model_s_12_comes_before_all_of_the_trace_but_its_size_and_version() {
    let mut model = hex(MINT);
    model[67] = 4;
    let on = |trace: &[u8]| place(judge(&model, trace));
    assert_eq!(on(&[1; 4_097]), (LONG, TRACE, 0, 4_097));
    assert_eq!(on(&[2]), (VERSION, TRACE, 0, 1));
    // No section, bytes after it, 1,025 steps, a goal that is not there.
    for trace in [&[1][..], &[1, 0, 0, 0, 2, 0, 0, 9], &write_trace(0, &[0; 1_025])] {
        assert_eq!(on(trace), (BADNAME, MODEL, 55, 14));
    }
    assert_eq!(on(&write_trace(7, &[9])), (BADNAME, MODEL, 55, 14));
    // A starting state with fact F: the model comes first.
    let state = [0xFF; 512];
    assert_eq!(close_api(&model, &state, &mut [0; 4_096]), Err(BADNAME));
    assert_eq!(close_api(&hex(MINT), &state, &mut [0; 4_096]), Err(FACT));
}

/// A model of version 3 and 3 facts that ends after the bytes given, which follow the persistent facts
/// from 15 on; place and number.
fn ended(bytes: &str) -> (u8, u8, usize, usize) {
    let model = hex(&format!("03 00000002 0003 00000000 00000000 {bytes}"));
    place(judge(&model, &write_trace(0, &[])))
}

#[test]
fn a_section_that_is_not_there_or_not_whole() {
    assert_eq!(ended(""), (SHAPE, MODEL, 15, 0));
    assert_eq!(ended("00"), (SHAPE, MODEL, 15, 1));
    assert_eq!(ended("000000"), (SHAPE, MODEL, 15, 3));
    assert_eq!(ended("00000001"), (SHAPE, MODEL, 15, 4));
    assert_eq!(ended("00010000 0000"), (SHAPE, MODEL, 15, 6));
    // Half a name alone, and behind one too great and two in the wrong order: 4 comes first.
    assert_eq!(ended("00000001 00"), (SHAPE, MODEL, 19, 1));
    assert_eq!(ended("00000007 0400 0001 0000 00"), (SHAPE, MODEL, 19, 7));
    // 12 comes before 7, wherever the name stands; an order that is broken in the last place.
    assert_eq!(ended("00000006 0001 0000 0400"), (BADNAME, MODEL, 19, 6));
    assert_eq!(ended("00000006 FFFF 0001 0000"), (BADNAME, MODEL, 19, 6));
    assert_eq!(ended("00000006 0000 0002 0002"), (ORDER, MODEL, 19, 6));
    assert_eq!(ended("00000006 0000 03FF 0100"), (ORDER, MODEL, 19, 6));
    // Names of F and more are fine, and the clauses' length is missed next.
    assert_eq!(ended("00000006 0002 0003 03FF"), (SHAPE, MODEL, 25, 0));
    assert_eq!(ended("00000000"), (SHAPE, MODEL, 19, 0));
}

#[test]
fn the_versions_that_there_are() {
    for version in [0, 5, 6, 127, 128, 254, 255] {
        let mut other = hex(MINT);
        other[0] = version;
        let v = judge(&other, &write_trace(0, &[]));
        assert_eq!(place(v), (VERSION, MODEL, 0, 1), "{version}");
        assert_eq!(count_api(&other), Err(VERSION));
    }
    // The trace has one version, whichever the model has.
    for version in [0, 2, 3, 255] {
        let mut trace = write_trace(0, &[]);
        trace[0] = version;
        assert_eq!(place(judge(&hex(MINT), &trace)), (VERSION, TRACE, 0, 1), "{version}");
    }
    // Read as version 2, the names are clauses: a record of 3 bytes in a section that has 2 more.
    // Read as version 1, the persistent facts are: a record of 1 byte where there is none.
    let mut wrong = hex(MINT);
    wrong[0] = 2;
    assert_eq!(place(judge(&wrong, &write_trace(0, &[]))), (SHAPE, MODEL, 23, 4));
    wrong[0] = 1;
    assert_eq!(place(judge(&wrong, &write_trace(0, &[]))), (SHAPE, MODEL, 17, 2));
}

#[test]
fn an_empty_section_and_empty_lists_give_the_lines_of_version_2() {
    let desk = Model { persistent: Some(vec![1]), ..parse_model(&hex(DESK)).unwrap() };
    let named = Model { names: Some(vec![]), ..desk.clone() };
    for (goal, steps) in
        [(0, &[0][..]), (0, &[1, 0]), (0, &[0, 0]), (1, &[1]), (1, &[]), (0, &[2]), (2, &[])]
    {
        let trace = write_trace(goal, steps);
        let [old, new] = [&desk, &named].map(|model| judge(&write_model(model), &trace));
        // An attack state's record stands 4 bytes further on, and 2 for each of 3 rules.
        let further = if old.number == NOATTACK { 10 } else { 0 };
        assert_eq!(new, Verdict { start: old.start + further, ..old });
    }
}

#[test]
fn counting_and_closing_do_not_look_at_names() {
    let counts = Counts { facts: 2, clauses: 1, rules: 2, goals: 1 };
    assert_eq!(count_api(&hex(MINT)), Ok(counts));
    // 0 gives 1 in round 1, whichever names are in use.
    let mut state = [0; 512];
    state[0] = 1;
    let mut table = [9; 4_096];
    assert_eq!(close_api(&hex(MINT), &state, &mut table), Ok(1));
    assert!(table[..2] == [0, 1] && table[2..] == [NONE; 4_094]);
    // As many as there may be of all that is counted, and of names, which are not.
    let most = Model { rules: vec![making(&[5]); 2_048], ..with(&up_to(1_024), &[]) };
    let counts = Counts { facts: 40, clauses: 0, rules: 2_048, goals: 1 };
    assert_eq!(count_api(&write_model(&most)), Ok(counts));
}

#[test]
fn the_longest_model_of_version_3() {
    // `bare` has 37 bytes as version 3, 8,192 and 2,048 with all facts persistent and all names in use; 207 rules of
    // 2 + 4 * 66 = 266 bytes leave 65,535 - 10,277 - 55,062 = 196 for the last: 10 and 93 numbers.
    let full = Rule { names: up_to(32), ..rule(&up_to(32), &up_to(32), &up_to(32)) };
    let mut model = with(&up_to(1_024), &vec![full.clone(); 207]);
    (model.facts, model.persistent) = (4_096, Some(up_to(4_096)));
    model.rules.push(Rule { add: up_to(29), names: vec![], ..full });
    is_longest(&model);
}
