//! What a check and a closing do that are lent an index: its entries, the crossings, and the room for it.
//! What must come out is worked out by hand.

mod common;
use common::*;
use second::gen::{write_model, write_trace};
use second::*;

const LEFT: u16 = 0x7E7E;

/// The initial facts as a starting state.
fn start(facts: &[u16]) -> [u8; 512] {
    let mut state = [0; 512];
    facts.iter().for_each(|f| state[*f as usize / 8] |= 1 << (f % 8));
    state
}

/// A check with so many entries lent: its verdict, and the index afterwards. State, table and names are
/// as without an index, unless there is no room for it.
fn check_with(model: &[u8], trace: &[u8], entries: usize) -> (Verdict, Vec<u16>) {
    let [mut one, mut two] = [0; 2].map(|_| (vec![0xA5; 513], vec![9; 4_097], vec![0x3C; 129]));
    let mut index = vec![LEFT; entries];
    let before = one.clone();
    let with = check_indexed(model, trace, &mut one.0, &mut one.1, &mut one.2, &mut index);
    let without = check(model, trace, &mut two.0, &mut two.1, &mut two.2);
    if with.number == ROOM {
        let Verdict { step, fact, rounds, held, kind, round, .. } = with;
        assert_eq!((step, fact, rounds, held, kind, round), (0, NONE, 0, 0, NO_KIND, NONE));
        assert_eq!(place(with), (ROOM, MODEL, 0, 0));
        assert!(one == before && index == vec![LEFT; entries]);
    } else {
        assert!(with == without && one == two);
    }
    (with, index)
}

/// Closing from a state with so many entries lent: the answer, and the index afterwards.
fn close_with(model: &[u8], state: &[u8], entries: usize) -> (Result<Closed, u8>, Vec<u16>) {
    let [mut one, mut two] = [[9; 4_097]; 2];
    let mut index = vec![LEFT; entries];
    let with = close_indexed_api(model, state, &mut one, &mut index);
    match with {
        Ok(Closed { rounds, .. }) => {
            assert!(close_api(model, state, &mut two) == Ok(rounds) && one == two);
        }
        Err(_) => assert!(one == [9; 4_097] && index == vec![LEFT; entries]),
    }
    (with, index)
}

/// What closing answers, and its index: a check without steps leaves the same one. An entry less is
/// no room, an entry more stays.
fn closes(model: &Model, rounds: usize, crossings: usize, entries: &[u16]) {
    let (state, bytes) = (start(&model.initial), write_model(model));
    let trace = write_trace(0, &[]);
    assert_eq!(places(&model.clauses), entries.len());
    for more in [0, 1, 70] {
        let expected = [entries, &vec![LEFT; more]].concat();
        let (answer, index) = close_with(&bytes, &state, entries.len() + more);
        assert_eq!((answer, &index), (Ok(Closed { rounds, crossings }), &expected));
        let (verdict, index) = check_with(&bytes, &trace, entries.len() + more);
        assert_eq!((verdict.number, verdict.rounds, &index), (ATTACK, rounds, &expected));
    }
    for fewer in (0..entries.len()).rev().take(2) {
        assert_eq!(close_with(&bytes, &state, fewer).0, Err(ROOM));
        assert_eq!(check_with(&bytes, &trace, fewer).0.number, ROOM);
    }
}

fn of(facts: u16, initial: &[u16], clauses: &[Clause]) -> Model {
    Model { initial: initial.to_vec(), clauses: clauses.to_vec(), ..bare(facts) }
}

#[test]
fn the_desk_model_s_index() {
    // 2 from 0 and 1, 5 from 2 and 4: facts 0 and 1 stand in clause 0, 2 and 4 in clause 1.
    let desk = parse_model(&hex(DESK)).unwrap();
    let desk = Model { attacks: bare(0).attacks, rules: vec![], ..desk };
    closes(&desk, 2, 4, &[0, 0, 1, 1]);
    // Without 1 only 0 and 4 arrive; with nothing no place is crossed. The index is the same.
    closes(&Model { initial: vec![0, 4], ..desk.clone() }, 0, 2, &[0, 0, 1, 1]);
    closes(&Model { initial: vec![], ..desk.clone() }, 0, 0, &[0, 0, 1, 1]);
    // With 2 stored its clause is still crossed.
    closes(&Model { initial: vec![0, 1, 2], ..desk.clone() }, 0, 3, &[0, 0, 1, 1]);
    // The other way round: facts 0 and 1 in clause 1, 2 and 4 in clause 0.
    let clauses = desk.clauses.iter().rev().cloned().collect();
    closes(&Model { clauses, ..desk }, 2, 4, &[1, 1, 0, 0]);
}

#[test]
fn cases_a_to_g_with_an_index() {
    let numbers = [ATTACK, BLOCKED, BLOCKED, ATTACK, NOATTACK, NOATTACK, NAME];
    let cases: [(u16, &[u16]); 7] =
        [(0, &[0]), (0, &[1, 0]), (0, &[0, 0]), (1, &[1]), (1, &[]), (0, &[2]), (2, &[])];
    for ((goal, steps), number) in cases.into_iter().zip(numbers) {
        let trace = write_trace(goal, steps);
        for entries in 4..7 {
            // Written unless refused, and by the model alone: the state reached says nothing.
            let written = if number == NAME { [LEFT; 4] } else { [0, 0, 1, 1] };
            let (verdict, index) = check_with(&hex(DESK), &trace, entries);
            assert_eq!((verdict.number, &index[..4]), (number, &written[..]));
            assert!(index[4..].iter().all(|entry| *entry == LEFT));
        }
        assert_eq!(check_with(&hex(DESK), &trace, 3).0.number, ROOM);
        assert_eq!(check_with(&hex(DESK), &trace, 0).0.number, ROOM);
    }
    // A step that makes a used name.
    let rules = vec![Rule { names: vec![5], ..Rule::default() }];
    let model = Model { names: Some(vec![5]), rules, ..of(3, &[], &[clause(0, &[1, 2])]) };
    let (verdict, index) = check_with(&write_model(&model), &write_trace(0, &[0]), 3);
    assert_eq!((verdict.number, index), (USED, vec![0, 0, LEFT]));
}

#[test]
fn by_fact_and_then_by_clause() {
    // Fact 0 in clauses 1 and 2, 1 in 0 and 2, 2 in 0, 1 and 2, 3 in none.
    let clauses = [clause(4, &[1, 2]), clause(4, &[0, 2]), clause(4, &[0, 1, 2])];
    closes(&of(5, &[], &clauses), 0, 0, &[1, 2, 0, 2, 0, 1, 2]);
    closes(&of(5, &[2], &clauses), 0, 3, &[1, 2, 0, 2, 0, 1, 2]);
    closes(&of(5, &[0, 2], &clauses), 1, 5, &[1, 2, 0, 2, 0, 1, 2]);
    closes(&of(5, &[0, 1, 2, 3], &clauses), 1, 7, &[1, 2, 0, 2, 0, 1, 2]);
}

#[test]
fn two_clauses_of_one_head_are_two_places_of_a_fact() {
    // The same clause twice, and a third time with another fact: 0 in all three, crossed three times.
    let clauses = [clause(1, &[0]), clause(1, &[0]), clause(1, &[0, 2])];
    closes(&of(3, &[0], &clauses), 1, 3, &[0, 1, 2, 2]);
    closes(&of(3, &[2], &clauses), 0, 1, &[0, 1, 2, 2]);
    closes(&of(3, &[0, 2], &clauses), 1, 4, &[0, 1, 2, 2]);
}

#[test]
fn an_empty_body_is_no_place() {
    closes(&of(1, &[], &[]), 0, 0, &[]);
    // Nothing but empty bodies: no entry is needed, and no place is crossed.
    closes(&of(2, &[], &[clause(1, &[]), clause(0, &[])]), 1, 0, &[]);
    // 0 from nothing in round 1, 1 from 0 in round 2. The first clause with a place is number 1.
    closes(&of(2, &[], &[clause(0, &[]), clause(1, &[0]), clause(1, &[])]), 1, 1, &[1]);
    let clauses = [clause(0, &[]), clause(1, &[0]), clause(0, &[]), clause(2, &[0, 1])];
    closes(&of(3, &[], &clauses), 3, 3, &[1, 3, 3]);
}

#[test]
fn a_fact_that_is_stored_and_derived_is_crossed_once() {
    // 0 and 1 stored, and each derived from the other; 2 from both.
    let clauses = [clause(0, &[1]), clause(1, &[0]), clause(2, &[0, 1])];
    closes(&of(3, &[0, 1], &clauses), 1, 4, &[1, 2, 0, 2]);
    closes(&of(3, &[1], &clauses), 2, 4, &[1, 2, 0, 2]);
    // From itself.
    closes(&of(1, &[0], &[clause(0, &[0])]), 0, 1, &[0]);
    closes(&of(1, &[], &[clause(0, &[0])]), 0, 0, &[0]);
    // Derived by two clauses, in rounds 1 and 2: 3 arrives once.
    let clauses = [clause(1, &[0]), clause(3, &[1]), clause(3, &[0]), clause(2, &[3])];
    closes(&of(4, &[0], &clauses), 2, 4, &[0, 2, 1, 3]);
}

#[test]
fn chains_in_both_orders() {
    for length in [1, 3, 300] {
        let links = 0..length;
        let up: Vec<Clause> = links.clone().map(|f| clause(f + 1, &[f])).collect();
        let down: Vec<Clause> = up.iter().rev().cloned().collect();
        let (crossed, forth) = (length as usize, links.collect::<Vec<u16>>());
        let back: Vec<u16> = forth.iter().rev().copied().collect();
        closes(&of(length + 1, &[0], &up), crossed, crossed, &forth);
        closes(&of(length + 1, &[0], &down), crossed, crossed, &back);
        // From the second fact on the first place is never crossed.
        closes(&of(length + 1, &[1], &down), crossed - 1, crossed - 1, &back);
    }
}

#[test]
fn the_longest_indexes() {
    // 4,096 clauses of facts 4,091 to 4,095: each fact has every clause, and the last entry is 4,095.
    let body: Vec<u16> = (4_091..4_096).collect();
    let clauses = vec![clause(0, &body); 4_096];
    let entries: Vec<u16> = (0..5).flat_map(|_| 0..4_096).collect();
    closes(&of(4_096, &body, &clauses), 1, 20_480, &entries);
    closes(&of(4_096, &body[4..], &clauses), 0, 4_096, &entries);
    // The most places that a file has room for, which has 23 bytes without any record: 36 bytes for each
    // of 1,819 clauses of 16 facts, and 28 for one of 12.
    let full = vec![clause(0, &(4_080..4_096).collect::<Vec<u16>>()); 1_819];
    let last = clause(0, &(0..12).collect::<Vec<u16>>());
    let clauses = [&full[..], &[last]].concat();
    let model = Model { facts: 4_096, clauses, ..Model::default() };
    let first: Vec<u16> = (0..12).map(|_| 1_819).collect();
    let entries = [first, (0..16).flat_map(|_| 0..1_819).collect()].concat();
    let (bytes, state) = (write_model(&model), start(&[0, 4_095]));
    assert_eq!((bytes.len(), entries.len()), (65_535, 29_116));
    assert!(entries.len() < INDEX_ENTRIES);
    let answer = Ok(Closed { rounds: 0, crossings: 1 + 1_819 });
    assert_eq!(close_with(&bytes, &state, 29_116), (answer, entries));
    assert_eq!(close_with(&bytes, &state, 29_115).0, Err(ROOM));
}

/// The desk model with one of its bytes changed.
fn desk_with(at: usize, byte: u8) -> Vec<u8> {
    let mut model = hex(DESK);
    model[at] = byte;
    model
}

#[test]
fn the_place_of_its_room() {
    let trace = write_trace(0, &[]);
    let number = |model: &[u8], trace: &[u8]| check_with(model, trace, 3).0.number;
    let desk = hex(DESK);
    // After the sizes and versions of both files, and all that is wrong with the model.
    assert_eq!(number(&[0; 65_537], &trace), LONG);
    assert_eq!(number(&desk, &[0; 4_097]), LONG);
    assert_eq!(number(&desk_with(0, 5), &trace), VERSION);
    assert_eq!(number(&desk, &[2, 0, 0, 0, 2, 0, 0]), VERSION);
    assert_eq!(number(&desk, &[]), VERSION);
    assert_eq!(number(&desk[..100], &trace), SHAPE);
    assert_eq!(number(&[&desk[..], &[0]].concat(), &trace), SHAPE);
    assert_eq!(number(&desk_with(5, 0x10), &trace), COUNT);
    // The last attack state's N is fact 6; its P and N are in the wrong order for the last list.
    assert_eq!(number(&desk_with(100, 6), &trace), FACT);
    let twice = Model { attacks: vec![attack(&[3, 3], &[])], ..parse_model(&desk).unwrap() };
    assert_eq!(number(&write_model(&twice), &trace), ORDER);
    let named = Model { names: Some(vec![1_024]), ..parse_model(&desk).unwrap() };
    assert_eq!(number(&write_model(&named), &trace), BADNAME);
    let asked = Model { formulas: Some(vec![vec![]]), ..parse_model(&desk).unwrap() };
    assert_eq!(number(&write_model(&asked), &trace), FORMULA);
    // Before the rest that is wrong with the trace: no goal, a byte too many, steps, goal, step.
    assert_eq!(number(&desk, &[1, 0, 0, 0, 0]), ROOM);
    assert_eq!(number(&desk, &[1]), ROOM);
    assert_eq!(number(&desk, &[&trace[..], &[0]].concat()), ROOM);
    assert_eq!(number(&desk, &write_trace(0, &[0; 1_025])), ROOM);
    assert_eq!(number(&desk, &write_trace(2, &[])), ROOM);
    assert_eq!(number(&desk, &write_trace(0, &[3])), ROOM);
    // And with room each of them.
    let number = |trace: &[u8]| check_with(&desk, trace, 4).0.number;
    assert_eq!(number(&[1, 0, 0, 0, 0]), SHAPE);
    assert_eq!(number(&write_trace(0, &[0; 1_025])), COUNT);
    assert_eq!(number(&write_trace(2, &[])), NAME);
    assert_eq!(number(&write_trace(0, &[3])), NAME);
}

#[test]
fn closing_s_room_comes_before_its_6() {
    let desk = hex(DESK);
    // Fact 6 is F.
    let (good, beyond) = (start(&[0, 1, 4]), start(&[0, 6]));
    let answer = |model: &[u8], state: &[u8], entries| close_with(model, state, entries).0;
    assert_eq!(answer(&desk, &good, 4), Ok(Closed { rounds: 2, crossings: 4 }));
    assert_eq!(answer(&desk, &beyond, 4), Err(FACT));
    assert_eq!(answer(&desk, &beyond, 3), Err(ROOM));
    assert_eq!(answer(&desk, &beyond, 0), Err(ROOM));
    // After the model's own numbers, and before any file is looked at where a state is short.
    assert_eq!(answer(&desk[..100], &beyond, 0), Err(SHAPE));
    assert_eq!(answer(&desk_with(100, 6), &good, 3), Err(FACT));
    assert_eq!(answer(&[0; 65_537], &beyond, 0), Err(LONG));
    assert_eq!(answer(&[], &beyond[..511], 0), Err(ROOM));
    assert_eq!(answer(&[], &beyond, 0), Err(VERSION));
}

#[test]
fn a_check_closes_each_state_by_the_same_index() {
    // 1 from 0, 2 from 1; r0 takes 0 and adds 3. The states {0} and {3} have 2 rounds and none.
    let clauses = [clause(2, &[1]), clause(1, &[0])];
    let rules = vec![rule(&[0], &[], &[3]), rule(&[3], &[], &[0])];
    let model = write_model(&Model { rules, ..of(4, &[0], &clauses) });
    for steps in 0..5_usize {
        let trace: Vec<u16> = (0..steps as u16).map(|step| step % 2).collect();
        let (verdict, index) = check_with(&model, &write_trace(0, &trace), 3);
        let rounds = 2 * (steps / 2 + 1);
        assert_eq!((verdict.number, verdict.rounds, index), (ATTACK, rounds, vec![1, 0, LEFT]));
    }
}
