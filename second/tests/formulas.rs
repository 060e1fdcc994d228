//! Version 4 of the model: what a formula says over the states of a run, which goals there are, and
//! how the records of formulas are judged. Lines and places are worked out by hand.

mod common;
use common::*;
use second::gen::{write_model, write_trace};
use second::*;

/// 107 bytes. 0 is opened, 1 signed, 2 from both. r0 opens, r1 signs, r2 closes again. The goals are
/// a0, which is 2, then f0, in every state so far signed only if opened by then, and f1, signed since
/// opened. The sections' lengths stand at 1, 7, 11, 15, 19, 31, 71 and 83, the clause at 23, the rules
/// at 35, 47 and 59, the attack state at 75, the formulas at 87 and 99.
const FORM: &str = "04 00000002 0003  00000000  00000000  00000000 \
    00000008 0006 0002 0000 0001 \
    00000024 000A 0000 0000 0001 0000 0000  000A 0000 0000 0001 0001 0000 \
             000A 0001 0000 0000 0000 0000 \
    00000008 0006 0001 0002 0000 \
    00000014 000A 8006 8003 0001 8005 0000  0006 8007 0001 0000";

const NOT: u16 = 0x8000;
const AND: u16 = 0x8001;
const OR: u16 = 0x8002;
const IMPLIES: u16 = 0x8003;
const YESTERDAY: u16 = 0x8004;
const ONCE: u16 = 0x8005;
const HISTORICALLY: u16 = 0x8006;
const SINCE: u16 = 0x8007;

fn form() -> Model {
    Model {
        facts: 3,
        initial: vec![],
        persistent: Some(vec![]),
        names: Some(vec![]),
        clauses: vec![clause(2, &[0, 1])],
        rules: vec![rule(&[], &[], &[0]), rule(&[], &[], &[1]), rule(&[0], &[], &[])],
        attacks: vec![attack(&[2], &[])],
        formulas: Some(vec![vec![HISTORICALLY, IMPLIES, 1, ONCE, 0], vec![SINCE, 1, 0]]),
    }
}

/// F is 40, and one attack state is always met; nothing else is there but the formulas.
fn with(formulas: &[Vec<u16>]) -> Model {
    let formulas = Some(formulas.to_vec());
    Model { persistent: Some(vec![]), names: Some(vec![]), formulas, ..bare(40) }
}

/// Number and place of a model with one formula, which is the goal; its record starts at 41.
fn one_formula(codes: &[u16]) -> (u8, u8, usize, usize) {
    place(judge(&write_model(&with(&[codes.to_vec()])), &write_trace(1, &[])))
}

#[test]
fn the_bytes_of_version_4() {
    assert_eq!((write_model(&form()), hex(FORM).len()), (hex(FORM), 107));
    assert_eq!(parse_model(&hex(FORM)), Ok(form()));
    // All sections may be empty but for the sizes.
    let bytes = "04 00000002 0028 00000000 00000000 00000000 00000000 00000000 \
        00000006 0004 0000 0000 00000000";
    assert_eq!(write_model(&with(&[])), hex(bytes));
    assert_eq!(parse_model(&hex(bytes)), Ok(with(&[])));
    assert_eq!(NAMES[FORMULA as usize], "FORMULA");
}

#[test]
fn nobody_signed_before_the_form_was_opened() {
    let on = |goal: u16, steps: &[u16]| {
        let v = judge(&hex(FORM), &write_trace(goal, steps));
        (line(&v), (v.mark, v.start, v.len))
    };
    let attack = |text: &str| (format!("ATTACK {text} kind none round none"), (MODEL, 0, 0));
    let none = |text: &str, start: usize, len: usize| {
        (format!("NOATTACK {text} kind none round none"), (MODEL, start, len))
    };
    // The states with both facts have one round, all others none.
    assert_eq!(on(1, &[]), none("step 0 fact none rounds 0 held 0", 87, 12));
    assert_eq!(on(1, &[0, 1]), none("step 2 fact none rounds 1 held 2", 87, 12));
    assert_eq!(on(1, &[1]), attack("step 1 fact none rounds 0 held 1"));
    // Opened too late, and opened once although it is closed when it is signed.
    assert_eq!(on(1, &[1, 0]), attack("step 2 fact none rounds 1 held 2"));
    assert_eq!(on(1, &[1, 0, 0]), attack("step 3 fact none rounds 2 held 2"));
    assert_eq!(on(1, &[0, 2, 1]), none("step 3 fact none rounds 0 held 1", 87, 12));
    // Signed since opened: opened now; opened, then both, then signed; closed in between.
    assert_eq!(on(2, &[]), attack("step 0 fact none rounds 0 held 0"));
    assert_eq!(on(2, &[0]), none("step 1 fact none rounds 0 held 1", 99, 8));
    assert_eq!(on(2, &[0, 1, 2]), none("step 3 fact none rounds 1 held 1", 99, 8));
    assert_eq!(on(2, &[0, 2]), attack("step 2 fact none rounds 0 held 0"));
    assert_eq!(on(2, &[0, 2, 1]), attack("step 3 fact none rounds 0 held 1"));
    // The attack state is as ever.
    assert_eq!(on(0, &[0, 1]), attack("step 2 fact none rounds 1 held 2"));
    let unmet = "NOATTACK step 1 fact 2 rounds 0 held 1 kind positive round none";
    assert_eq!(on(0, &[0]), (unmet.to_string(), (MODEL, 75, 8)));
}

#[test]
fn a_step_that_does_not_fire_comes_before_the_formula() {
    // r2 asks for 0. After r1 f0 is false, before it is true.
    for (steps, text, start) in [
        (&[2][..], "BLOCKED step 0 fact 0 rounds 0 held 0 kind positive round none", 7),
        (&[1, 2], "BLOCKED step 1 fact 0 rounds 0 held 1 kind positive round none", 9),
        (&[1, 2, 0], "BLOCKED step 1 fact 0 rounds 0 held 1 kind positive round none", 9),
    ] {
        let v = judge(&hex(FORM), &write_trace(1, steps));
        assert_eq!((line(&v).as_str(), v.mark, v.start, v.len), (text, TRACE, start, 2));
    }
    // A name that is used, in version 4 as in version 3.
    let mut model = form();
    (model.names, model.rules[1].names) = (Some(vec![5]), vec![5]);
    let v = judge(&write_model(&model), &write_trace(1, &[0, 1]));
    assert_eq!(line(&v), "USED step 1 fact 5 rounds 0 held 1 kind none round none");
}

#[test]
fn the_buffers_are_those_of_the_last_state() {
    let mut model = form();
    (model.names, model.rules[1].names) = (Some(vec![8]), vec![3]);
    // Opened and signed: f0 is true. Signed and opened: it is false.
    for (steps, number) in [([0, 1], NOATTACK), ([1, 0], ATTACK)] {
        let (mut state, mut table, mut names) = ([0xA5; 513], [7; 4_097], [0x3C; 129]);
        let trace = write_trace(1, &steps);
        let v = check(&write_model(&model), &trace, &mut state, &mut table, &mut names);
        assert_eq!(v.number, number);
        assert!(state[0] == 3 && state[1..512] == [0; 511] && state[512] == 0xA5);
        assert!(table[..3] == [0, 0, 1] && table[3..4_096] == [NONE; 4_093] && table[4_096] == 7);
        assert!(names[..2] == [8, 1] && names[2..128] == [0; 126] && names[128] == 0x3C);
    }
}

/// Whether a formula is true in the last state, where fact n is there in the states in which the nth
/// life has a 1. Fact 30 is never there, and 39 always, by a clause.
fn is_true(codes: &[u16], lives: &[&str]) -> bool {
    let there = |fact: usize, state: usize| lives[fact].as_bytes()[state] == b'1';
    let only_in = |now: usize, other: usize| -> Vec<u16> {
        (0..lives.len() as u16)
            .filter(|f| there(*f as usize, now) && !there(*f as usize, other))
            .collect()
    };
    let states = lives.first().map_or(1, |life| life.len());
    let mut model = with(&[codes.to_vec()]);
    model.clauses = vec![clause(39, &[])];
    model.initial = (0..lives.len() as u16).filter(|f| there(*f as usize, 0)).collect();
    model.rules =
        (1..states).map(|now| rule(&only_in(now - 1, now), &[], &only_in(now, now - 1))).collect();
    let v = judge(&write_model(&model), &write_trace(1, &up_to(states as u16 - 1)));
    assert!((v.number, v.step, v.rounds) == (ATTACK, states - 1, states) || v.number == NOATTACK);
    v.number == NOATTACK
}

/// A formula over fact 0, the lives with which it is true and those with which it is false.
fn tells(codes: &[u16], trues: &[&str], falses: &[&str]) {
    for (lives, expected) in [(trues, true), (falses, false)] {
        for life in lives {
            assert_eq!(is_true(codes, &[life]), expected, "{codes:x?} of {life}");
        }
    }
}

#[test]
fn facts_and_not() {
    tells(&[0], &["1", "01", "1101"], &["0", "10", "1110"]);
    tells(&[NOT, 0], &["0", "10", "1110"], &["1", "01", "1101"]);
    tells(&[NOT, NOT, 0], &["1", "01"], &["0", "10"]);
    // In the closure, not only in the stored state.
    assert!(is_true(&[39], &[]) && is_true(&[HISTORICALLY, 39], &["011"]));
    assert!(!is_true(&[30], &[]) && !is_true(&[ONCE, 30], &["011"]));
}

#[test]
fn and_or_implies_of_the_last_state() {
    // Neither, the second alone, the first alone, both.
    let rows = [(AND, [false, false, false, true]), (OR, [false, true, true, true])];
    for (operator, values) in rows.into_iter().chain([(IMPLIES, [true, true, false, true])]) {
        for (lives, expected) in [["0", "0"], ["0", "1"], ["1", "0"], ["1", "1"]].iter().zip(values)
        {
            assert_eq!(is_true(&[operator, 0, 1], lives), expected, "{operator:x} {lives:?}");
        }
        // With the opposite in the state before.
        for (lives, expected) in
            [["10", "10"], ["10", "01"], ["01", "10"], ["01", "01"]].iter().zip(values)
        {
            assert_eq!(is_true(&[operator, 0, 1], lives), expected, "{operator:x} {lives:?}");
        }
    }
}

#[test]
fn yesterday_is_false_in_the_initial_state() {
    tells(&[YESTERDAY, 0], &["10", "11", "010"], &["0", "1", "00", "01", "100", "101"]);
    tells(&[YESTERDAY, NOT, 0], &["00", "01", "101"], &["0", "1", "10", "11"]);
    tells(&[NOT, YESTERDAY, 0], &["0", "1", "00", "01"], &["10", "11"]);
    // Two states back; with two states there is none.
    tells(&[YESTERDAY, YESTERDAY, 0], &["100", "0100"], &["1", "10", "11", "011", "1001"]);
    assert!(!is_true(&[YESTERDAY, 39], &[]) && is_true(&[YESTERDAY, 39], &["00"]));
}

#[test]
fn once_and_historically_include_the_present_state_and_the_first() {
    tells(&[ONCE, 0], &["1", "10", "01", "1000", "0100", "0001"], &["0", "00", "0000"]);
    tells(&[HISTORICALLY, 0], &["1", "11", "1111"], &["0", "01", "10", "0111", "1011", "1110"]);
    tells(&[NOT, ONCE, NOT, 0], &["1", "11", "1111"], &["0", "01", "10", "0111", "1011", "1110"]);
    tells(&[ONCE, NOT, 0], &["0", "01", "10", "0111", "1011"], &["1", "11", "1111"]);
}

#[test]
fn since_needs_its_first_part_after_its_second() {
    // Lives of the first part and of the second.
    let trues = [
        ["0", "1"],       // now
        ["00", "01"],     // now, and no first part at all
        ["01", "10"],     // in the first state, and since
        ["0111", "1000"], // the same for longer: not needed in the first state itself
        ["0001", "1010"], // broken, but the second part came again after that
        ["0000", "1111"], // now, whatever was before
        ["1111", "0100"],
        ["0011", "0100"],
    ];
    let falses = [
        ["0", "0"],
        ["1", "0"],
        ["1111", "0000"],
        ["00", "10"],
        ["10", "10"],     // the first part held with the second, but not after it
        ["0011", "1000"], // missing right after
        ["0101", "1000"], // missing in between
        ["0110", "1000"], // missing now
        ["1110", "1110"],
        ["1010", "0100"],
    ];
    for (lives, expected) in
        trues.iter().map(|lives| (lives, true)).chain(falses.iter().map(|lives| (lives, false)))
    {
        assert_eq!(is_true(&[SINCE, 0, 1], lives), expected, "{lives:?}");
    }
    // Once is since a truth, and the parts are not the same.
    tells(&[SINCE, 39, 0], &["1", "10", "0100"], &["0", "000"]);
    tells(&[SINCE, 0, 39], &["0", "1", "10", "111"], &[]);
}

#[test]
fn one_inside_the_other() {
    tells(&[YESTERDAY, ONCE, 0], &["10", "010", "1000"], &["1", "0", "01", "0001"]);
    tells(&[ONCE, YESTERDAY, 0], &["10", "010", "1000"], &["1", "0", "01", "0001"]);
    // Never true in the initial state, so never always true.
    tells(&[HISTORICALLY, YESTERDAY, 0], &[], &["1", "11", "111"]);
    tells(&[YESTERDAY, HISTORICALLY, 0], &["10", "11", "1110"], &["1", "0", "011", "1011"]);
    tells(&[HISTORICALLY, ONCE, 0], &["1", "10", "1000"], &["0", "01", "0111"]);
    tells(&[ONCE, HISTORICALLY, 0], &["1", "10", "1000"], &["0", "01", "0111"]);
    // It came: there now and not in the state before.
    tells(&[AND, 0, NOT, YESTERDAY, 0], &["1", "01", "1101"], &["0", "11", "10", "011"]);
    // Every time that 0 was there 1 had been there in the state before.
    let before = [HISTORICALLY, IMPLIES, 0, YESTERDAY, 1];
    for (lives, expected) in [
        (["0", "0"], true),
        (["1", "1"], false),
        (["01", "10"], true),
        (["011", "110"], true),
        (["011", "100"], false),
        (["010", "010"], false),
    ] {
        assert_eq!(is_true(&before, &lives), expected, "{lives:?}");
    }
    // 0 since (1 since 2): 2 at first, 1 in the next two states, then 0.
    let two = [SINCE, 0, SINCE, 1, 2];
    assert!(is_true(&two, &["00011", "01100", "10000"]));
    assert!(!is_true(&two, &["00010", "01100", "10000"]));
    assert!(!is_true(&two, &["00001", "01100", "10000"]));
    // (0 since 1) since 2: in the state of 2 it need not hold, in the next two it must.
    let other = [SINCE, SINCE, 0, 1, 2];
    assert!(is_true(&other, &["001", "010", "100"]));
    assert!(!is_true(&other, &["000", "010", "100"]));
    assert!(!is_true(&other, &["001", "100", "100"]));
}

#[test]
fn a_fact_is_read_in_the_closure_of_each_state() {
    // 1 from 0; 0 is stored at first and goes. 1 is never stored.
    let of = |codes: &[u16], steps: &[u16]| {
        let model = Model {
            initial: vec![0],
            clauses: vec![clause(1, &[0])],
            rules: vec![rule(&[0], &[], &[]), rule(&[], &[], &[])],
            ..with(&[codes.to_vec()])
        };
        line(&judge(&write_model(&model), &write_trace(1, steps)))
    };
    let none = |text: &str| format!("NOATTACK {text} kind none round none");
    let attack = |text: &str| format!("ATTACK {text} kind none round none");
    assert_eq!(of(&[1], &[]), none("step 0 fact none rounds 1 held 1"));
    assert_eq!(of(&[1], &[0]), attack("step 1 fact none rounds 1 held 0"));
    assert_eq!(of(&[ONCE, 1], &[0]), none("step 1 fact none rounds 1 held 0"));
    assert_eq!(of(&[YESTERDAY, 1], &[1, 0]), none("step 2 fact none rounds 2 held 0"));
    assert_eq!(of(&[YESTERDAY, 1], &[0, 1]), attack("step 2 fact none rounds 1 held 0"));
    assert_eq!(of(&[HISTORICALLY, 1], &[1, 1]), none("step 2 fact none rounds 3 held 1"));
    assert_eq!(of(&[SINCE, NOT, 1, 1], &[1, 0, 1]), none("step 3 fact none rounds 2 held 0"));
}

#[test]
fn the_first_of_a_thousand_states() {
    // 1,025 states: there in the first alone, or in all but the first, or in all but one.
    let life = |other: char, places: &[usize], there: char| -> String {
        (0..1_025).map(|now| if places.contains(&now) { there } else { other }).collect()
    };
    let (first, later) = (life('0', &[0], '1'), life('1', &[0], '0'));
    assert!(is_true(&[ONCE, 0], &[&first]) && !is_true(&[ONCE, 0], &[&life('0', &[], '0')]));
    assert!(!is_true(&[HISTORICALLY, 0], &[&later]));
    assert!(is_true(&[HISTORICALLY, 0], &[&life('1', &[], '1')]));
    assert!(is_true(&[SINCE, 0, 1], &[&later, &first]));
    for broken in [1, 2, 255, 256, 512, 1_023, 1_024] {
        assert!(!is_true(&[SINCE, 0, 1], &[&life('1', &[0, broken], '0'), &first]), "{broken}");
        assert!(!is_true(&[HISTORICALLY, 0], &[&life('1', &[broken], '0')]), "{broken}");
        assert!(is_true(&[ONCE, 0], &[&life('0', &[broken], '1')]), "{broken}");
    }
    assert!(is_true(&[YESTERDAY, 0], &[&life('0', &[1_023], '1')]));
    assert!(!is_true(&[YESTERDAY, 0], &[&life('1', &[1_023], '0')]));
}

#[test]
fn goal_numbers_run_on_from_the_attack_states() {
    // Every attack state is met; formula n is the fact n, of which the even ones are stored.
    for (attacks, formulas) in [(0, 1), (1, 0), (1, 2), (64, 64), (64, 1), (0, 64), (0, 0)] {
        let codes: Vec<Vec<u16>> = up_to(formulas).iter().map(|n| vec![*n]).collect();
        let model = Model {
            facts: 64,
            initial: up_to(64).into_iter().filter(|n| n % 2 == 0).collect(),
            attacks: vec![attack(&[], &[]); attacks],
            ..with(&codes)
        };
        let bytes = write_model(&model);
        let on = |goal: u16| place(judge(&bytes, &write_trace(goal, &[])));
        let goals = (attacks as u16, attacks as u16 + formulas);
        assert_eq!(count_api(&bytes).unwrap().goals, goals.1 as usize);
        (0..goals.0).for_each(|goal| assert_eq!(on(goal), (ATTACK, MODEL, 0, 0)));
        for number in 0..formulas {
            // The formulas are the last, with 4 bytes each.
            let start = bytes.len() - 4 * (formulas - number) as usize;
            let even = (NOATTACK, MODEL, start, 4);
            let expected = if number % 2 == 0 { even } else { (ATTACK, MODEL, 0, 0) };
            assert_eq!(on(goals.0 + number), expected, "formula {number}");
        }
        for beyond in [goals.1, goals.1 + 1, goals.1 + 64, 65_535] {
            assert_eq!(on(beyond), (NAME, TRACE, 5, 2), "goal {beyond}");
        }
    }
}

/// Parts under one operator, flat: n of them make n - 1 operators.
fn tree(operator: u16, parts: &[u16]) -> Vec<u16> {
    match parts {
        [part] => vec![*part],
        _ => {
            let (first, second) = parts.split_at(parts.len() / 2);
            [vec![operator], tree(operator, first), tree(operator, second)].concat()
        }
    }
}

#[test]
fn bounds_of_formulas() {
    let (fine, attack) = ((NOATTACK, MODEL, 41, 512), (ATTACK, MODEL, 0, 0));
    // 128 facts, all of which are missing, and 127 operators: 255 codes, 510 bytes and the length.
    let full = tree(OR, &vec![5; 128]);
    assert_eq!((full.len(), one_formula(&full)), (255, attack));
    let negated = [&[NOT][..], &tree(OR, &[5; 127])].concat();
    assert_eq!((negated.len(), one_formula(&negated)), (254, (NOATTACK, MODEL, 41, 510)));
    // 255 with an implication, which is true as its first part is missing.
    assert_eq!(one_formula(&[&[IMPLIES, 5][..], &tree(OR, &[5; 127])].concat()), fine);
    let more = [&[NOT][..], &full].concat();
    assert_eq!((more.len(), one_formula(&more)), (256, (COUNT, MODEL, 41, 514)));
    assert_eq!(one_formula(&tree(OR, &[5; 129])), (COUNT, MODEL, 41, 516));
    assert_eq!(one_formula(&tree(OR, &[5; 256])), (COUNT, MODEL, 41, 1_024));
    // The last of 128 facts decides.
    let stored = |fact: u16| {
        let model = Model { facts: 200, initial: vec![fact], ..with(&[tree(OR, &up_to(128))]) };
        judge(&write_model(&model), &write_trace(1, &[])).number
    };
    assert_eq!([0, 126, 127, 128].map(stored), [NOATTACK, NOATTACK, NOATTACK, ATTACK]);
    // 64 records of 4 bytes and 65: the last, and the bytes at fault are those of the 65th.
    let many = |count: usize, goal: u16| {
        place(judge(&write_model(&with(&vec![vec![5]; count])), &write_trace(goal, &[])))
    };
    assert_eq!(many(64, 64), attack);
    assert_eq!(many(65, 65), (COUNT, MODEL, 41 + 4 * 64, 4));
    assert_eq!(many(300, 0), (COUNT, MODEL, 41 + 4 * 64, 4));
    // Fact F-1 and F, and the last fact that there is.
    assert_eq!(one_formula(&[39]), attack);
    assert_eq!(one_formula(&[40]), (FACT, MODEL, 41, 4));
    assert_eq!(one_formula(&[32_767]), (FACT, MODEL, 41, 4));
    let model = Model { facts: 4_096, initial: vec![4_095], ..with(&[vec![4_095]]) };
    let v = judge(&write_model(&model), &write_trace(1, &[]));
    assert_eq!(place(v), (NOATTACK, MODEL, 43, 4));
}

/// So many operators one inside the other, along the first parts or along the second.
fn nested(operator: u16, deep: usize, along_first: bool) -> Vec<u16> {
    let operators = deep - 1;
    match (operator, along_first) {
        (NOT | YESTERDAY | ONCE | HISTORICALLY, _) => [vec![operator; operators], vec![5]].concat(),
        (_, true) => [vec![operator; operators], vec![5; deep]].concat(),
        _ => [[operator, 5].repeat(operators), vec![5]].concat(),
    }
}

#[test]
fn formulas_of_32_and_33() {
    for operator in [NOT, AND, OR, IMPLIES, YESTERDAY, ONCE, HISTORICALLY, SINCE] {
        for along_first in [true, false] {
            for deep in [1, 2, 31, 32] {
                let number = one_formula(&nested(operator, deep, along_first)).0;
                assert!([ATTACK, NOATTACK].contains(&number), "{operator:x} {deep}");
            }
            for deep in [33, 34, 65, 128] {
                let codes = nested(operator, deep, along_first);
                let expected = (FORMULA, MODEL, 41, 2 + 2 * codes.len());
                assert_eq!(one_formula(&codes), expected, "{operator:x} {deep}");
            }
        }
    }
    // The deepest of 32 decides: 5 is not stored. An odd number of nots, an even one.
    assert_eq!(one_formula(&nested(NOT, 32, true)).0, NOATTACK);
    assert_eq!(one_formula(&nested(NOT, 31, true)).0, ATTACK);
    // 32 deep with a part of 31 beside one of 31, and one of 32 beside a fact.
    let part = nested(ONCE, 31, true);
    let is_run = |codes: Vec<u16>| [ATTACK, NOATTACK].contains(&one_formula(&codes).0);
    assert!(is_run([&[AND][..], &part, &part].concat()));
    let part = nested(ONCE, 32, true);
    assert_eq!(one_formula(&[&[AND, 5][..], &part].concat()).0, FORMULA);
    assert_eq!(one_formula(&[&[AND][..], &part, &[5]].concat()).0, FORMULA);
    // As deep as codes allow.
    assert_eq!(one_formula(&nested(NOT, 255, true)), (FORMULA, MODEL, 41, 512));
}

#[test]
fn what_is_no_formula() {
    let codes: [&[u16]; 16] = [
        &[],                 // nothing
        &[32_776],           // the first code that is none
        &[65_535],           // the last
        &[NOT, 32_776],      // in the place of a part
        &[AND, 32_776, 5],   //
        &[NOT],              // parts missing
        &[AND, 5],           //
        &[SINCE, 5],         //
        &[AND, NOT, 5],      //
        &[ONCE, YESTERDAY],  //
        &[5, 5],             // codes left over
        &[NOT, 5, 6],        //
        &[5, NOT],           //
        &[AND, 5, 6, 7],     //
        &[YESTERDAY, 5, OR], //
        &[5, 32_776],        // left over and none
    ];
    for codes in codes {
        assert_eq!(one_formula(codes), (FORMULA, MODEL, 41, 2 + 2 * codes.len()), "{codes:x?}");
    }
    // Operators are the codes from 32,768 to 32,775.
    for operator in 32_768..32_776 {
        let wide = [AND, OR, IMPLIES, SINCE].contains(&operator);
        let parts = if wide { &[5, 5][..] } else { &[5] };
        let number = one_formula(&[&[operator], parts].concat()).0;
        assert!([ATTACK, NOATTACK].contains(&number), "{operator}");
    }
}

/// A record of these bytes behind so many others, in a model of F = 40; number, place from the
/// record's start, and length.
fn raw(before: usize, bytes: &[u8]) -> (u8, usize, usize) {
    let mut model = write_model(&with(&vec![vec![5]; before]));
    let start = model.len();
    let section = (4 * before + 2 + bytes.len()) as u32;
    model[37..41].copy_from_slice(&section.to_be_bytes());
    model.extend((bytes.len() as u16).to_be_bytes());
    model.extend(bytes);
    let v = judge(&model, &write_trace(1, &[]));
    assert_eq!(v.mark, MODEL);
    (v.number, v.start - start, v.len)
}

#[test]
fn a_formula_is_judged_in_four_passes() {
    let bytes = |codes: &[u16]| -> Vec<u8> { codes.iter().flat_map(|c| c.to_be_bytes()).collect() };
    let odd = |codes: &[u16]| [&bytes(codes)[..], &[0]].concat();
    let many = [5; 256];
    let far = [&[5; 255][..], &[40]].concat();
    let cases: [(u8, usize, Vec<u8>); 20] = [
        (SHAPE, 0, vec![0]),
        (SHAPE, 0, odd(&[5])),
        (SHAPE, 0, odd(&[40])),     // before a fact of F
        (SHAPE, 0, odd(&[32_776])), // before no formula
        (SHAPE, 0, odd(&[5; 255])), // half a code beyond the bound
        (SHAPE, 0, odd(&many)),     // before too many codes
        (SHAPE, 64, odd(&[5])),     // before too many formulas
        (COUNT, 64, bytes(&[5])),
        (COUNT, 64, bytes(&[40])), // before a fact of F
        (COUNT, 64, bytes(&[])),   // before no formula
        (COUNT, 63, bytes(&many)), // before codes left over
        (COUNT, 0, bytes(&far)),   // before a fact of F
        (FACT, 63, bytes(&[40])),
        (FACT, 0, bytes(&[5, 40])),         // after the end
        (FACT, 0, bytes(&[AND, 5, 5, 40])), //
        (FACT, 0, bytes(&[32_776, 40])),    // after a code that is none
        (FACT, 0, bytes(&[AND, 40])),       // before an unfinished one
        (FACT, 0, bytes(&[vec![NOT; 40], vec![32_767]].concat())), // before one too deep
        (FORMULA, 63, bytes(&[5, 39])),
        (FORMULA, 0, bytes(&[39, 65_535])),
    ];
    for (number, before, bytes) in cases {
        assert_eq!(raw(before, &bytes), (number, 0, 2 + bytes.len()), "{before} {bytes:x?}");
    }
}

/// In the order in which they are judged.
const ROWS: &[Row] = &[
    ("version 5", VERSION, 0, Some(1), |m| m[0] = 5),
    ("F of 4,099", COUNT, 5, Some(2), |m| m[5] = 0x10),
    ("clause 0 head 3", FACT, 23, Some(8), |m| m[26] = 3),
    ("r2 P 3", FACT, 59, Some(12), |m| m[64] = 3),
    ("attack states length", SHAPE, 71, None, |m| m[71] = 0xFF),
    ("a0 P 3", FACT, 75, Some(8), |m| m[80] = 3),
    ("formulas length", SHAPE, 83, None, |m| m[83] = 0xFF),
    // The rest of the section, which is the rest of the file but for what follows it.
    ("f0 length", SHAPE, 87, Some(20), |m| m[87] = 0xFF),
    ("f0 of 9 bytes", SHAPE, 87, Some(11), |m| m[88] = 9),
    ("f0 asks for 3", FACT, 87, Some(12), |m| m[94] = 3),
    ("f0 with code 8008", FORMULA, 87, Some(12), |m| m[92] = 8),
    ("f1 length", SHAPE, 99, Some(8), |m| m[99] = 0xFF),
    ("f1 asks for 3", FACT, 99, Some(8), |m| m[106] = 3),
    ("f1 a fact and two more", FORMULA, 99, Some(8), |m| m[101..103].copy_from_slice(&[0, 1])),
    ("after the model", SHAPE, 107, None, |m| m.push(0)),
];

#[test]
fn formulas_are_judged_where_they_stand() {
    let sound = judge(&hex(FORM), &write_trace(1, &[1]));
    assert_eq!(sound.number, ATTACK);
    the_upper_row_is_answered(&hex(FORM), ROWS);
}

#[test]
fn the_model_s_17_comes_before_all_of_the_trace_but_its_size_and_version() {
    let mut model = hex(FORM);
    model[103..105].copy_from_slice(&[0xFF, 0xFF]);
    let on = |trace: &[u8]| place(judge(&model, trace));
    assert_eq!(on(&[1; 4_097]), (LONG, TRACE, 0, 4_097));
    assert_eq!(on(&[2]), (VERSION, TRACE, 0, 1));
    // No section, bytes after it, 1,025 steps, a goal that is not there.
    for trace in [&[1][..], &[1, 0, 0, 0, 2, 0, 0, 9], &write_trace(0, &[0; 1_025])] {
        assert_eq!(on(trace), (FORMULA, MODEL, 99, 8));
    }
    assert_eq!(on(&write_trace(7, &[9])), (FORMULA, MODEL, 99, 8));
    // A starting state with fact F: the model comes first.
    let state = [0xFF; 512];
    assert_eq!(close_api(&model, &state, &mut [0; 4_096]), Err(FORMULA));
    assert_eq!(close_api(&hex(FORM), &state, &mut [0; 4_096]), Err(FACT));
}

#[test]
fn a_section_that_is_not_there_or_not_whole() {
    let cut = |len: usize| place(judge(&hex(FORM)[..len], &write_trace(0, &[])));
    assert_eq!(cut(83), (SHAPE, MODEL, 83, 0));
    assert_eq!(cut(84), (SHAPE, MODEL, 83, 1));
    assert_eq!(cut(86), (SHAPE, MODEL, 83, 3));
    assert_eq!(cut(87), (SHAPE, MODEL, 83, 4));
    assert_eq!(cut(106), (SHAPE, MODEL, 83, 23));
    // A section that ends within a record or its length: the rest of the section.
    let ended = |len: usize| {
        let mut model = hex(FORM);
        model.truncate(87 + len);
        model[86] = len as u8;
        place(judge(&model, &write_trace(0, &[])))
    };
    assert_eq!(ended(1), (SHAPE, MODEL, 87, 1));
    assert_eq!(ended(2), (SHAPE, MODEL, 87, 2));
    assert_eq!(ended(11), (SHAPE, MODEL, 87, 11));
    assert_eq!(ended(13), (SHAPE, MODEL, 99, 1));
    assert_eq!(ended(19), (SHAPE, MODEL, 99, 7));
    // Without f1, and without any.
    let unmet = (NOATTACK, MODEL, 75, 8);
    assert_eq!([ended(12), ended(0)], [unmet; 2]);
}

#[test]
fn the_versions_that_there_are() {
    for version in [0, 5, 6, 127, 128, 254, 255] {
        let mut other = hex(FORM);
        other[0] = version;
        let v = judge(&other, &write_trace(0, &[]));
        assert_eq!(place(v), (VERSION, MODEL, 0, 1), "{version}");
        assert_eq!(count_api(&other), Err(VERSION));
    }
    // The trace has one version, whichever the model has.
    for version in [0, 2, 3, 4, 255] {
        let mut trace = write_trace(0, &[]);
        trace[0] = version;
        assert_eq!(place(judge(&hex(FORM), &trace)), (VERSION, TRACE, 0, 1), "{version}");
    }
    // Read as version 3, the formulas are left over. Version 3 read as version 4 ends too early.
    let mut wrong = hex(FORM);
    wrong[0] = 3;
    assert_eq!(place(judge(&wrong, &write_trace(0, &[]))), (SHAPE, MODEL, 83, 24));
    wrong.truncate(83);
    assert_eq!(judge(&wrong, &write_trace(0, &[])).number, NOATTACK);
    wrong[0] = 4;
    assert_eq!(place(judge(&wrong, &write_trace(0, &[]))), (SHAPE, MODEL, 83, 0));
}

#[test]
fn without_formulas_the_lines_are_those_of_version_3() {
    let desk = Model { names: Some(vec![]), ..parse_model(&hex(DESK)).unwrap() };
    // Also with some that nobody asks for, whose records stand behind all else.
    for formulas in [vec![], vec![vec![NOT, 5], vec![ONCE, 3]]] {
        let newer = Model { formulas: Some(formulas.clone()), ..desk.clone() };
        for (goal, steps) in
            [(0, &[0][..]), (0, &[1, 0]), (0, &[0, 0]), (1, &[1]), (1, &[]), (0, &[2])]
        {
            let trace = write_trace(goal, steps);
            let [old, new] = [&desk, &newer].map(|model| judge(&write_model(model), &trace));
            assert_eq!(new, old, "goal {goal} {steps:?}");
        }
        let named = judge(&write_model(&newer), &write_trace(2 + formulas.len() as u16, &[]));
        assert_eq!(place(named), (NAME, TRACE, 5, 2));
    }
}

#[test]
fn goals_are_counted_together_and_closing_does_not_look_at_them() {
    let counts = Counts { facts: 3, clauses: 1, rules: 3, goals: 3 };
    assert_eq!(count_api(&hex(FORM)), Ok(counts));
    // 0 and 1 give 2 in round 1, whatever the formulas say.
    let mut state = [0; 512];
    state[0] = 3;
    let mut table = [9; 4_096];
    assert_eq!(close_api(&hex(FORM), &state, &mut table), Ok(1));
    assert!(table[..3] == [0, 0, 1] && table[3..] == [NONE; 4_093]);
    let most = Model { attacks: vec![attack(&[], &[]); 64], ..with(&vec![vec![5]; 64]) };
    let counts = Counts { facts: 40, clauses: 0, rules: 0, goals: 128 };
    assert_eq!(count_api(&write_model(&most)), Ok(counts));
    let none = Model { attacks: vec![], ..with(&[]) };
    assert_eq!(count_api(&write_model(&none)).unwrap().goals, 0);
}

#[test]
fn the_longest_model_of_version_4() {
    // Without formulas it has 41 bytes. 64 of 255 codes have 512 each: 32,809. 123 rules of 266 bytes leave
    // 65,535 - 32,809 - 32,718 = 8, which are 4 persistent facts.
    let full = Rule { names: up_to(32), ..rule(&up_to(32), &up_to(32), &up_to(32)) };
    let not_there = [&[IMPLIES, 5][..], &tree(OR, &[5; 127])].concat();
    let mut model = with(&vec![not_there; 64]);
    (model.persistent, model.rules) = (Some(up_to(4)), vec![full; 123]);
    is_longest(&model);
    // The last formula is true, and its record is the file's last.
    let v = judge(&write_model(&model), &write_trace(64, &[]));
    assert_eq!(place(v), (NOATTACK, MODEL, 65_535 - 512, 512));
}
