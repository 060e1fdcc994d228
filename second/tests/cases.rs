//! Cases A to L, the buffers, the edges, closing and counting by themselves, and the generator.

mod common;
use common::*;
use second::gen::{write_model, write_trace};
use second::*;

#[test]
fn desk_bytes() {
    let desk = Model {
        facts: 6,
        initial: vec![0, 1, 4],
        persistent: None,
        names: None,
        clauses: vec![clause(2, &[0, 1]), clause(5, &[2, 4])],
        rules: vec![rule(&[5], &[3], &[3]), rule(&[0], &[], &[]), rule(&[1], &[], &[1])],
        attacks: vec![attack(&[3, 5], &[]), attack(&[4], &[0])],
        formulas: None,
    };
    let bytes = write_model(&desk);
    assert_eq!((bytes.len(), &bytes), (101, &hex(DESK)));
    // 1 version + 6 sizes + 10 initial + 20 clauses + 4 rules' length = 41.
    assert_eq!(bytes[41..55], hex("000C 0001 0005 0001 0003 0001 0003"));
    assert_eq!(parse_model(&bytes), Ok(desk));
    assert_eq!(write_trace(0, &[1, 0]), hex("01 00000006 0000 0001 0000"));
}

#[test]
fn cases_a_to_g_and_their_buffers() {
    // Step s stands at 7 + 2s in the trace; a0 is at 81 and a1 at 91 in the model, 10 bytes each.
    // After r0 {0,1,3,4} is stored, after r1 {1,4}, after r2 the initial {0,1,4}. G changes nothing.
    const N: u16 = NONE;
    // C's fact 3 and E's fact 0 are stored, so that they arose in round 0.
    let [a, b, c, d] = [
        "ATTACK step 1 fact none rounds 4 held 4 kind none round none",
        "BLOCKED step 1 fact 5 rounds 2 held 2 kind positive round none",
        "BLOCKED step 1 fact 3 rounds 4 held 4 kind negative round 0",
        "ATTACK step 1 fact none rounds 2 held 2 kind none round none",
    ];
    let [e, f, g] = [
        "NOATTACK step 0 fact 0 rounds 2 held 3 kind negative round 0",
        "NOATTACK step 1 fact 3 rounds 4 held 3 kind positive round none",
        "NAME step 0 fact none rounds 0 held 0 kind none round none",
    ];
    type Case = (u16, &'static [u16], &'static str, (u8, usize, usize), u8, [u16; 6]);
    let cases: [Case; 7] = [
        (0, &[0], a, (0, 0, 0), 0x1B, [0, 0, 1, 0, 0, 2]),
        (0, &[1, 0], b, (1, 9, 2), 0x12, [N, 0, N, N, 0, N]),
        (0, &[0, 0], c, (1, 9, 2), 0x1B, [0, 0, 1, 0, 0, 2]),
        (1, &[1], d, (0, 0, 0), 0x12, [N, 0, N, N, 0, N]),
        (1, &[], e, (0, 91, 10), 0x13, [0, 0, 1, N, 0, 2]),
        (0, &[2], f, (0, 81, 10), 0x13, [0, 0, 1, N, 0, 2]),
        (2, &[], g, (1, 5, 2), 0xA5, [7; 6]),
    ];
    for (goal, steps, text, at, byte, numbers) in cases {
        let (mut state, mut table, mut names) = ([0xA5; 513], [7; 4_097], [0x3C; 129]);
        let trace = write_trace(goal, steps);
        let v = check(&hex(DESK), &trace, &mut state, &mut table, &mut names);
        assert_eq!((line(&v).as_str(), (v.mark, v.start, v.len)), (text, at));
        let (rest, none) = if goal == 2 { (0xA5, 7) } else { (0, NONE) };
        assert!(state[0] == byte && state[1..512] == [rest; 511] && state[512] == 0xA5);
        assert!(table[..6] == numbers && table[6..4_096] == [none; 4_090] && table[4_096] == 7);
        assert!(names[..128] == [if goal == 2 { 0x3C } else { 0 }; 128] && names[128] == 0x3C);
    }
}

#[test]
fn cases_h_to_l() {
    let ends = |facts, initial: &[u16], clauses: &[Clause], goal: &[u16], text: &str| {
        let (initial, clauses) = (initial.to_vec(), clauses.to_vec());
        let model = Model { initial, clauses, attacks: vec![attack(goal, &[])], ..bare(facts) };
        assert_eq!(line(&judge(&write_model(&model), &write_trace(0, &[]))), text);
    };
    ends(0, &[], &[], &[], "ATTACK step 0 fact none rounds 0 held 0 kind none round none");
    ends(
        1,
        &[],
        &[clause(0, &[])],
        &[0],
        "ATTACK step 0 fact none rounds 1 held 0 kind none round none",
    );
    ends(
        1,
        &[],
        &[clause(0, &[0])],
        &[0],
        "NOATTACK step 0 fact 0 rounds 0 held 0 kind positive round none",
    );
    let k = [clause(0, &[1]), clause(1, &[0])];
    ends(2, &[], &k, &[0], "NOATTACK step 0 fact 0 rounds 0 held 0 kind positive round none");
    let mut l = [clause(3, &[2]), clause(2, &[1]), clause(1, &[0])];
    ends(4, &[0], &l, &[3], "ATTACK step 0 fact none rounds 3 held 1 kind none round none");
    l.reverse();
    ends(4, &[0], &l, &[3], "ATTACK step 0 fact none rounds 3 held 1 kind none round none");
}

/// Fact 0 stored; 1 from 0, 2 from 1, 3 from 2, so that fact f arises in round f; 4 never.
fn ladder() -> Model {
    let clauses = vec![clause(3, &[2]), clause(2, &[1]), clause(1, &[0])];
    Model { initial: vec![0], clauses, ..bare(5) }
}

fn ends(model: Model, steps: &[u16], text: &str) {
    assert_eq!(line(&judge(&write_model(&model), &write_trace(0, steps))), text);
}

#[test]
fn one_fact_wanted_and_unwanted_is_legal_but_blocked() {
    // P is met, by the stored 0 or the derived 2, so the unmet condition is the same fact in N.
    for (fact, round) in [(0, 0), (2, 2)] {
        let rules = vec![rule(&[fact], &[fact], &[])];
        let text =
            format!("BLOCKED step 0 fact {fact} rounds 3 held 1 kind negative round {round}");
        ends(Model { rules, ..ladder() }, &[0], &text);
    }
}

#[test]
fn an_unwanted_fact_has_the_round_in_which_it_arose() {
    // Stored, in the first, a middle and the last round; alone, and as the last of the list.
    for round in 0..4 {
        for neg in [&[round][..], &[round, 4]] {
            let end = format!("fact {round} rounds 3 held 1 kind negative round {round}");
            let rules = vec![rule(&[], neg, &[])];
            ends(Model { rules, ..ladder() }, &[0], &format!("BLOCKED step 0 {end}"));
            let attacks = vec![attack(&[], neg)];
            ends(Model { attacks, ..ladder() }, &[], &format!("NOATTACK step 0 {end}"));
        }
    }
    // A head that is never given is not in the way.
    let model =
        Model { clauses: vec![clause(0, &[1])], attacks: vec![attack(&[], &[0])], ..bare(2) };
    ends(model, &[], "ATTACK step 0 fact none rounds 0 held 0 kind none round none");
}

#[test]
fn all_of_p_comes_before_n() {
    // 4 is missing and stands after 3, 0 is in the way: P is named, without a round.
    let rules = vec![rule(&[3, 4], &[0], &[])];
    let text = "BLOCKED step 0 fact 4 rounds 3 held 1 kind positive round none";
    ends(Model { rules, ..ladder() }, &[0], text);
}

#[test]
fn n_is_judged_before_p_goes() {
    // Without the stored 0 nothing would be derived; the rule takes it away only if it fires.
    let rules = vec![rule(&[0], &[3], &[4])];
    let text = "BLOCKED step 0 fact 3 rounds 3 held 1 kind negative round 3";
    ends(Model { rules, ..ladder() }, &[0], text);
    // Gone with a step before, its 3 rounds are counted and none follow.
    let rules = vec![rule(&[0], &[], &[4]), rule(&[4], &[1, 2, 3], &[])];
    let text = "ATTACK step 2 fact none rounds 3 held 0 kind none round none";
    ends(Model { rules, ..ladder() }, &[0, 1], text);
}

#[test]
fn the_round_is_that_of_the_state_judged() {
    // At first 3 arises in round 3; once 1 and 2 are stored, in round 1. The rounds are 3 + 1.
    let rules = vec![rule(&[], &[], &[1, 2]), rule(&[], &[3], &[])];
    let attacks = vec![attack(&[], &[3])];
    let model = Model { rules, attacks, ..ladder() };
    let end = "fact 3 rounds 4 held 3 kind negative round 1";
    ends(model.clone(), &[0, 1], &format!("BLOCKED step 1 {end}"));
    ends(model, &[0], &format!("NOATTACK step 1 {end}"));
}

/// Of two sizes the first is run and the second refused at the given place of the model.
fn edge(sizes: [u16; 2], make: impl Fn(u16) -> Model, number: u8, start: usize, len: usize) {
    let [legal, beyond] = sizes.map(|n| judge(&write_model(&make(n)), &write_trace(0, &[])));
    assert!(legal.number == ATTACK || legal.number == NOATTACK, "{legal:?}");
    assert_eq!(place(beyond), (number, MODEL, start, len));
}

#[test]
fn edges_of_the_model() {
    let with_clause = |c| Model { clauses: vec![c], ..bare(40) };
    let with_rule = |r| Model { rules: vec![r], ..bare(40) };
    let with_attack = |a| Model { attacks: vec![a], ..bare(40) };
    edge([16, 17], |n| with_clause(clause(39, &up_to(n))), COUNT, 15, 2 + 2 + 34);
    edge([32, 33], |n| with_rule(rule(&up_to(n), &[], &[])), COUNT, 19, 2 + 6 + 66);
    edge([32, 33], |n| with_rule(rule(&[], &up_to(n), &[])), COUNT, 19, 2 + 6 + 66);
    edge([32, 33], |n| with_rule(rule(&[], &[], &up_to(n))), COUNT, 19, 2 + 6 + 66);
    edge([32, 33], |n| with_attack(attack(&up_to(n), &[])), COUNT, 23, 2 + 4 + 66);
    edge([32, 33], |n| with_attack(attack(&[], &up_to(n))), COUNT, 23, 2 + 4 + 66);
    // Fact F-1 and F: in a list, as a head, as an initial fact.
    edge([39, 40], |f| with_attack(attack(&[f], &[])), FACT, 23, 2 + 4 + 2);
    edge([39, 40], |f| with_clause(clause(f, &[])), FACT, 15, 4);
    edge([39, 40], |f| Model { initial: vec![f], ..bare(40) }, FACT, 11, 2);
    // Records of 6, 8 and 4 bytes; the first one too many follows all the legal ones.
    let attacks = |n| Model { attacks: vec![attack(&[], &[]); n as usize], ..bare(0) };
    edge([64, 65], attacks, COUNT, 23 + 64 * 6, 6);
    let rules = |n| Model { rules: vec![rule(&[], &[], &[]); n as usize], ..bare(0) };
    edge([2_048, 2_049], rules, COUNT, 19 + 2_048 * 8, 8);
    let clauses = |n| Model { clauses: vec![clause(0, &[]); n as usize], ..bare(1) };
    edge([4_096, 4_097], clauses, COUNT, 15 + 4_096 * 4, 4);
    // Initial facts have no bound but F: all 4,096 of them are fine.
    edge([4_096, 4_097], |n| Model { initial: up_to(n), ..bare(n) }, COUNT, 5, 2);
}

#[test]
fn edges_of_the_trace() {
    // r2 changes nothing, so each of the 1,025 states takes the desk's 2 rounds.
    let most = judge(&hex(DESK), &write_trace(0, &[2; 1_024]));
    assert_eq!(
        line(&most),
        "NOATTACK step 1024 fact 3 rounds 2050 held 3 kind positive round none"
    );
    // The goal and 1,025 steps are 2,052 bytes from 5 on.
    let more = judge(&hex(DESK), &write_trace(0, &[2; 1_025]));
    assert_eq!(place(more), (COUNT, TRACE, 5, 2_052));
    // 4,096 bytes are read and have bytes after the section's end at 7; one more is too long.
    let mut trace = write_trace(0, &[]);
    trace.resize(4_096, 0);
    assert_eq!(place(judge(&hex(DESK), &trace)), (SHAPE, TRACE, 7, 4_089));
    trace.push(0);
    assert_eq!(place(judge(&hex(DESK), &trace)), (LONG, TRACE, 0, 4_097));
}

#[test]
fn closing_by_itself() {
    let desk = hex(DESK);
    let mut state = vec![0; 600];
    state[0] = 0b01_0011;
    state[512..].fill(0xFF); // Beyond the first 512 bytes nothing is looked at.
    let mut table = vec![9; 4_097];
    assert_eq!(close_api(&desk, &state, &mut table), Ok(2));
    assert_eq!(table[..7], [0, 0, 1, NONE, 0, 2, NONE]);
    assert!(table[6..4_096].iter().all(|e| *e == NONE) && table[4_096] == 9);

    let refuse = |model: &[u8], state: &[u8], entries: usize| {
        let mut table = vec![9; entries];
        let answer = close_api(model, state, &mut table);
        assert!(table.iter().all(|e| *e == 9));
        answer.unwrap_err()
    };
    assert_eq!(refuse(&[], &state[..511], 4_096), ROOM);
    assert_eq!(refuse(&[], &state, 4_095), ROOM);
    // Fact 6 is F: refused, but only after all that is wrong with the model.
    state[0] |= 1 << 6;
    assert_eq!(refuse(&desk, &state, 4_096), FACT);
    assert_eq!(refuse(&[0; 65_537], &state, 4_096), LONG);
    assert_eq!(refuse(&[], &state, 4_096), VERSION);
    assert_eq!(refuse(&desk[..100], &state, 4_096), SHAPE);
    // F of 4,102; clause 0 from 1 and 1.
    for (at, byte, number) in [(5, 0x10, COUNT), (26, 1, ORDER)] {
        let mut model = desk.clone();
        model[at] = byte;
        assert_eq!(refuse(&model, &state, 4_096), number);
    }
}

#[test]
fn counting_by_itself() {
    let has = |model: &[u8], [facts, clauses, rules, goals]: [usize; 4]| {
        assert_eq!(count_api(model), Ok(Counts { facts, clauses, rules, goals }));
    };
    let desk = hex(DESK);
    has(&desk, [6, 2, 3, 2]);
    has(&write_model(&Model::default()), [0; 4]);
    // As many of each as there may be; initial facts are counted nowhere.
    let mut most = Model { initial: up_to(4_096), ..bare(4_096) };
    has(&write_model(&most), [4_096, 0, 0, 1]);
    most.initial.clear();
    most.clauses = vec![clause(0, &[]); 4_096];
    most.rules = vec![rule(&[], &[], &[]); 2_048];
    most.attacks = vec![attack(&[], &[]); 64];
    has(&write_model(&most), [4_096, 4_096, 2_048, 64]);
    // The refusals are those of closing by itself, without a state.
    for (model, number) in [(&[0; 65_537][..], LONG), (&[], VERSION), (&desk[..100], SHAPE)] {
        assert_eq!(count_api(model), Err(number));
    }
    for (at, byte, number) in [(5, 0x10, COUNT), (14, 6, FACT), (26, 1, ORDER)] {
        let mut model = desk.clone();
        model[at] = byte;
        assert_eq!(count_api(&model), Err(number));
    }
}

#[test]
fn fast_closings_agree_with_the_plain_one() {
    for index in 0..3_000 {
        let model = gen::sound(3, index).model;
        let at = clause_place(&model).unwrap();
        let state = gen::start_state(3, index, at.facts);
        let [mut one, mut two, mut three] = [[9; 4_097]; 3];
        match close_api(&model, &state, &mut one) {
            Err(number) => assert_eq!(number, FACT),
            Ok(rounds) => {
                assert_eq!(bench_close(&model, &at, &state, &mut two), rounds);
                assert_eq!(bench_close_flat(&flat(&model, &at), &state, &mut three), rounds);
                assert!(one == two && one == three);
            }
        }
    }
}

#[test]
fn the_stream_is_mixed_and_repeatable() {
    let mut tally = Tally::default();
    for index in 0..20_000 {
        let pair = gen::pair(2, index);
        assert_eq!(pair, gen::pair(2, index));
        let room = (pair.state_len, pair.table_len, pair.names_len);
        let v = judge_in(&pair.model, &pair.trace, room);
        assert_ne!(v.number, NEGATED);
        tally.add(&pair, &v, &Indexed::of(&pair, 2, index));
        let sound = gen::sound(2, index);
        let number = judge(&sound.model, &sound.trace).number;
        assert!([ATTACK, BLOCKED, NOATTACK, USED].contains(&number));
        assert_eq!(write_model(&parse_model(&sound.model).unwrap()), sound.model);
    }
    assert!(tally.is_mixed());
}
