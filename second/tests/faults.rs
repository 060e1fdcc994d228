//! Every fault alone, every two together, the passes within a record, and the readings.
//! Places are counted off by hand from the desk model's bytes (see DESK) and from the writers.

mod common;
use common::*;
use second::gen::{write_model, write_trace};
use second::*;

struct Files {
    model: Vec<u8>,
    trace: Vec<u8>,
    room: Room,
}

/// Where the bytes at fault lie in the marked file.
#[derive(Clone, Copy)]
enum Where {
    At(usize, usize),
    /// From here to the end of the file.
    From(usize),
    /// From the first to the end of the section whose length stands at the second.
    Section(usize, usize),
    Last(usize),
}
use Where::*;

type Row = (&'static str, u8, u8, Where, fn(&mut Files));

/// In the order in which they are judged, so of any two rows together the upper one is answered;
/// that holds readings 9, 10 and 12 too. The untouched pair is goal a1 after r0, r2 and r0, which
/// is BLOCKED at the last, and so every row is also a pair with that.
const ROWS: &[Row] = &[
    ("short state", ROOM, MODEL, At(0, 0), |f| f.room.0 = 511),
    ("short table", ROOM, MODEL, At(0, 0), |f| f.room.1 = 4_095),
    ("short names", ROOM, MODEL, At(0, 0), |f| f.room.2 = 127),
    // The whole file, whatever it holds.
    ("long model", LONG, MODEL, From(0), |f| f.model.resize(65_537, 0)),
    ("long trace", LONG, TRACE, From(0), |f| f.trace.resize(4_097, 0)),
    ("model version", VERSION, MODEL, At(0, 1), |f| f.model[0] = 5),
    ("trace version", VERSION, TRACE, At(0, 1), |f| f.trace[0] = 0),
    // Sizes: length at 1, payload at 5. A length of 3 fits the file, so the payload is blamed.
    ("sizes length", SHAPE, MODEL, From(1), |f| f.model[1] = 0xFF),
    ("sizes of 3 bytes", SHAPE, MODEL, At(5, 3), |f| f.model[4] = 3),
    ("F of 4,102", COUNT, MODEL, At(5, 2), |f| f.model[5] = 0x10),
    // Initial facts: length at 7, payload 11 to 17.
    ("initial length", SHAPE, MODEL, From(7), |f| f.model[7] = 0xFF),
    ("initial odd", SHAPE, MODEL, At(11, 5), |f| f.model[10] = 5),
    ("initial 0 6 4", FACT, MODEL, At(11, 6), |f| f.model[14] = 6),
    ("initial 1 1 4", ORDER, MODEL, At(11, 6), |f| f.model[12] = 1),
    // Clauses: length at 17, records at 21 and 29, end 37.
    ("clauses length", SHAPE, MODEL, From(17), |f| f.model[17] = 0xFF),
    ("clause 0 length", SHAPE, MODEL, Section(21, 17), |f| f.model[21] = 0xFF),
    ("clause 0 odd", SHAPE, MODEL, At(21, 7), |f| f.model[22] = 5),
    ("clause 0 head 6", FACT, MODEL, At(21, 8), |f| f.model[24] = 6),
    ("clause 0 from 1 1", ORDER, MODEL, At(21, 8), |f| f.model[26] = 1),
    ("clause 1 length", SHAPE, MODEL, Section(29, 17), |f| f.model[29] = 0xFF),
    ("clause 1 empty", SHAPE, MODEL, At(29, 2), |f| f.model[30] = 0),
    ("clause 1 from 6 4", FACT, MODEL, At(29, 8), |f| f.model[34] = 6),
    ("clause 1 from 2 2", ORDER, MODEL, At(29, 8), |f| f.model[36] = 2),
    // A third clause of 2 + 2 + 34 bytes; the section grows from 16 to 54.
    ("clause 2 from 17", COUNT, MODEL, At(37, 38), |f| {
        f.model[20] = 54;
        insert(f, 37, &write_record(&[&[0], &up_to(17)]));
    }),
    // Rules: length at 37, records at 41, 55 and 65, end 77.
    ("rules length", SHAPE, MODEL, From(37), |f| f.model[37] = 0xFF),
    ("r0 length", SHAPE, MODEL, Section(41, 37), |f| f.model[41] = 0xFF),
    ("r0 A of 2 in room for 1", SHAPE, MODEL, At(41, 14), |f| f.model[52] = 2),
    ("r0 A 6", FACT, MODEL, At(41, 14), |f| f.model[54] = 6),
    ("r0 P 5 5, A 3", ORDER, MODEL, At(41, 14), |f| {
        f.model[43..55].copy_from_slice(&hex("0002 0005 0005 0000 0001 0003"))
    }),
    ("r2 P 6", FACT, MODEL, At(65, 12), |f| f.model[70] = 6),
    // A fourth rule of 2 + 2 + 66 + 2 + 2 bytes; the section grows from 36 to 110.
    ("r3 P of 33", COUNT, MODEL, At(77, 74), |f| {
        f.model[40] = 110;
        insert(f, 77, &write_record(&[&[33], &up_to(33), &[0, 0]]));
    }),
    // Attack states: length at 77, records at 81 and 91, end 101.
    ("attacks length", SHAPE, MODEL, From(77), |f| f.model[77] = 0xFF),
    ("a0 length", SHAPE, MODEL, Section(81, 77), |f| f.model[81] = 0xFF),
    ("a0 N of 1 in room for 0", SHAPE, MODEL, At(81, 10), |f| f.model[90] = 1),
    ("a0 P 6 5", FACT, MODEL, At(81, 10), |f| f.model[86] = 6),
    ("a0 P 3 3", ORDER, MODEL, At(81, 10), |f| f.model[88] = 3),
    ("a1 length", SHAPE, MODEL, Section(91, 77), |f| f.model[91] = 0xFF),
    ("a1 P 6", FACT, MODEL, At(91, 10), |f| f.model[96] = 6),
    // A third attack state of 2 + 2 + 66 + 2 bytes; the section grows from 20 to 92.
    ("a2 P of 33", COUNT, MODEL, At(101, 72), |f| {
        f.model[80] = 92;
        insert(f, 101, &write_record(&[&[33], &up_to(33), &[0]]));
    }),
    ("after the model", SHAPE, MODEL, Last(1), |f| f.model.push(0)),
    // Trace: length at 1, goal at 5, steps at 7, 9 and 11, end 13.
    ("trace length", SHAPE, TRACE, From(1), |f| f.trace[1] = 0xFF),
    ("trace odd", SHAPE, TRACE, At(5, 5), |f| f.trace[1..5].copy_from_slice(&[0, 0, 0, 5])),
    ("after the trace", SHAPE, TRACE, Last(1), |f| f.trace.push(0)),
    // The goal and 1,025 steps take 2,052 bytes, 0x0804.
    ("1,025 steps", COUNT, TRACE, At(5, 2_052), |f| {
        f.trace[3..5].copy_from_slice(&[8, 4]);
        f.trace.resize(5 + 2_052, 0);
    }),
    ("goal 2", NAME, TRACE, At(5, 2), |f| f.trace[6] = 2),
    ("step 1 names r3", NAME, TRACE, At(9, 2), |f| f.trace[10] = 3),
    ("r0 again", BLOCKED, TRACE, At(11, 2), |_| ()),
];

fn insert(files: &mut Files, at: usize, bytes: &[u8]) {
    files.model.splice(at..at, bytes.iter().copied());
}

/// A record with its right length from runs of numbers.
fn write_record(runs: &[&[u16]]) -> Vec<u8> {
    let payload: Vec<u8> = runs.concat().iter().flat_map(|n| n.to_be_bytes()).collect();
    [&(payload.len() as u16).to_be_bytes()[..], &payload].concat()
}

fn expect(row: &Row, files: &Files, what: &str) {
    let (_, number, mark, place_of, _) = *row;
    let file = if mark == MODEL { &files.model } else { &files.trace };
    let (start, len) = match place_of {
        At(start, len) => (start, len),
        From(start) => (start, file.len() - start),
        Section(start, at) => {
            let len = u32::from_be_bytes(file[at..at + 4].try_into().unwrap()) as usize;
            (start, at + 4 + len - start)
        }
        Last(len) => (file.len() - len, len),
    };
    let v = judge_in(&files.model, &files.trace, files.room);
    assert_eq!(place(v), (number, mark, start, len), "{what}");
}

fn untouched() -> Files {
    Files { model: hex(DESK), trace: write_trace(1, &[0, 2, 0]), room: (512, 4_096, 128) }
}

#[test]
fn each_fault_alone_and_the_earlier_of_two() {
    for (index, winner) in ROWS.iter().enumerate() {
        // Starting with the winner itself, which is then alone.
        for loser in &ROWS[index..] {
            let mut files = untouched();
            loser.4(&mut files);
            if loser.0 != winner.0 {
                winner.4(&mut files);
            }
            expect(winner, &files, &format!("{} before {}", winner.0, loser.0));
        }
    }
}

/// A model of F = 40 with one record in one section (2 clauses, 3 rules, 4 attack states).
fn one_record(section: usize, record: &[u8]) -> Vec<u8> {
    let mut model = hex("01 00000002 0028");
    for index in 1..5 {
        let bytes = if index == section { record } else { &[] };
        model.extend((bytes.len() as u32).to_be_bytes());
        model.extend(bytes);
    }
    model
}

/// The number for one record alone in its section, with that record as the bytes at fault.
fn expect_record(number: u8, section: usize, record: &[u8]) {
    let start = [15, 19, 23][section - 2];
    let v = judge(&one_record(section, record), &write_trace(0, &[]));
    assert_eq!(place(v), (number, MODEL, start, record.len()), "{section} {record:?}");
}

#[test]
fn reading_4_a_clause_is_judged_in_four_passes() {
    let body = &up_to(18)[1..];
    let fallen: Vec<u16> = body.iter().rev().copied().collect();
    // An odd byte with a body of 17, with fact F = 40, with a body out of order.
    for runs in [&[&[0], body][..], &[&[40]], &[&[0, 2, 1]]] {
        let mut record = write_record(runs);
        record[1] += 1;
        record.push(0);
        expect_record(SHAPE, 2, &record);
    }
    // A body of 17 with head 40, and out of order; fact 40 with a body out of order.
    expect_record(COUNT, 2, &write_record(&[&[40], body]));
    expect_record(COUNT, 2, &write_record(&[&[0], &fallen]));
    expect_record(FACT, 2, &write_record(&[&[0, 2, 1, 40]]));
}

#[test]
fn reading_4_rules_and_attack_states_are_judged_in_four_passes() {
    let many = &[&[33], &up_to(33)[..]].concat()[..];
    // The first list (P) and the last (A of a rule, N of an attack state); fact 40 is F.
    let cases: [(u8, &[u16], &[u16]); 8] = [
        (SHAPE, many, &[1]),       // 33 facts, and a last list that is cut off
        (SHAPE, &[1, 40], &[]),    // a fact of F, and no last list
        (SHAPE, &[2, 1, 1], &[]),  // 1 twice, and no last list
        (COUNT, &[1, 40], many),   // a fact of F, and 33 facts
        (COUNT, &[2, 1, 1], many), // 1 twice, and 33 facts
        (FACT, &[2, 1, 1], &[1, 40]),
        (SHAPE, &[0], &[33, 1]), // a count over 32 without its facts is only a bad shape
        (SHAPE, &[0], &[0, 0]),  // the lists stop short of the record's end
    ];
    for (number, first, last) in cases {
        expect_record(number, 3, &write_record(&[first, &[0], last]));
        expect_record(number, 4, &write_record(&[first, last]));
    }
}

#[test]
fn reading_3_a_record_beyond_the_bound_is_judged_for_4_and_then_is_5() {
    // 64 empty attack states of 6 bytes from 23 on, so the one too many stands at 407.
    let with = |last: &[u8]| {
        let all = [write_record(&[&[0, 0]]).repeat(64), last.to_vec()].concat();
        place(judge(&one_record(4, &all), &write_trace(0, &[])))
    };
    assert_eq!(with(&hex("0004 0000 0000")), (COUNT, MODEL, 407, 6));
    // With a fact of F, and with 1 twice: still 5.
    assert_eq!(with(&hex("0006 0001 0028 0000")), (COUNT, MODEL, 407, 8));
    assert_eq!(with(&hex("0008 0002 0001 0001 0000")), (COUNT, MODEL, 407, 10));
    // Half an N count, a length one too long, half a length: its own shape comes first.
    assert_eq!(with(&hex("0003 0000 00")), (SHAPE, MODEL, 407, 5));
    assert_eq!(with(&hex("0005 0000 0000")), (SHAPE, MODEL, 407, 6));
    assert_eq!(with(&hex("00")), (SHAPE, MODEL, 407, 1));
    // What follows it doesn't matter, shapeless or not.
    assert_eq!(with(&hex("0004 0000 0000 0001 00")), (COUNT, MODEL, 407, 6));
    assert_eq!(with(&hex("0004 0000 0000 FFFF")), (COUNT, MODEL, 407, 6));
}

#[test]
fn readings_1_and_2_records_with_their_length_and_sections_without() {
    let (mut model, trace) = (hex(DESK), write_trace(0, &[2]));
    let v = judge(&model, &trace);
    let part = fault_part(&model, &trace, v.mark, v.start, v.len);
    assert_eq!((v.number, part), (NOATTACK, &hex("0008 0002 0003 0005 0000")[..]));
    model[12] = 1; // initial 1 1 4
    let v = judge(&model, &trace);
    let part = fault_part(&model, &trace, v.mark, v.start, v.len);
    assert_eq!((v.number, part), (ORDER, &hex("0001 0001 0004")[..]));
}

#[test]
fn reading_5_heads() {
    let goal = write_trace(0, &[]);
    // A head above, below or among its body facts breaks no order; a head of F is a bad fact.
    for head in 0..6 {
        let model = Model { clauses: vec![clause(head, &[1, 3])], ..bare(5) };
        let expected = if head < 5 { ATTACK } else { FACT };
        assert_eq!(judge(&write_model(&model), &goal).number, expected);
    }
    // A head may stand in any list, in an N too.
    let mut model = Model { clauses: vec![clause(1, &[0])], ..bare(2) };
    model.rules = vec![rule(&[1], &[1], &[1]), rule(&[], &[0, 1], &[])];
    model.attacks.push(attack(&[1], &[1]));
    assert_eq!(judge(&write_model(&model), &goal).number, ATTACK);
}

#[test]
fn readings_7_and_8_short_files() {
    let on_trace = |text: &str| place(judge(&hex(DESK), &hex(text)));
    assert_eq!(on_trace("01 00000000"), (SHAPE, TRACE, 5, 0));
    assert_eq!(on_trace("01 00000001 00"), (SHAPE, TRACE, 5, 1));
    assert_eq!(on_trace("01 00000003 000000"), (SHAPE, TRACE, 5, 3));
    assert_eq!(on_trace("01"), (SHAPE, TRACE, 1, 0));
    assert_eq!(on_trace("01 000000"), (SHAPE, TRACE, 1, 3));
    assert_eq!(on_trace(""), (VERSION, TRACE, 0, 0));
    let on_model = |model: &[u8]| place(judge(model, &write_trace(0, &[])));
    assert_eq!(on_model(&[]), (VERSION, MODEL, 0, 0));
    // The sections' lengths stand here; a file that ends before or within one is blamed from it.
    for at in [1, 7, 17, 37, 77] {
        for more in 0..4 {
            assert_eq!(on_model(&hex(DESK)[..at + more]), (SHAPE, MODEL, at, more));
        }
    }
    // Empty sizes fit the file and are too short in themselves.
    assert_eq!(on_model(&hex("01 00000000")), (SHAPE, MODEL, 5, 0));
}

#[test]
fn reading_9_the_sizes_are_judged_before_the_next_section() {
    // F = 4,097 or more, and an initial fact of as much.
    for facts in [4_097, 65_535] {
        let model = write_model(&Model { initial: vec![facts], ..bare(facts) });
        assert_eq!(place(judge(&model, &write_trace(0, &[]))), (COUNT, MODEL, 5, 2));
    }
}

#[test]
fn reading_11_a_state_counts_each_time_it_is_reached() {
    // r2 leads back to the same state, which takes 2 rounds: 3 times 2.
    let v = judge(&hex(DESK), &write_trace(0, &[2, 2]));
    assert_eq!(line(&v), "NOATTACK step 2 fact 3 rounds 6 held 3 kind positive round none");
}

#[test]
fn reading_13_the_longest_models() {
    // `bare` has 29 bytes; 327 rules of 2 + 3 * 66 = 200 bytes and one of 2 + 66 + 36 + 2 = 106.
    let mut model = bare(40);
    model.rules = vec![rule(&up_to(32), &up_to(32), &up_to(32)); 327];
    model.rules.push(rule(&up_to(32), &up_to(17), &[]));
    is_longest(&model);
}
