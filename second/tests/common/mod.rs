//! What more than one test file needs.
#![allow(dead_code)]

use second::gen::{write_model, write_trace};
use second::*;

/// The desk model byte by byte: its sections have their lengths at 1, 7, 17, 37 and 77.
pub const DESK: &str = "01 00000002 0006  00000006 0000 0001 0004 \
    00000010 0006 0002 0000 0001  0006 0005 0002 0004 \
    00000024 000C 0001 0005 0001 0003 0001 0003 \
             0008 0001 0000 0000 0000  000A 0001 0001 0000 0001 0001 \
    00000014 0008 0002 0003 0005 0000  0008 0001 0004 0001 0000";

pub fn hex(text: &str) -> Vec<u8> {
    let digits: Vec<u8> = text.bytes().filter(|b| !b.is_ascii_whitespace()).collect();
    let pair = |two: &[u8]| u8::from_str_radix(std::str::from_utf8(two).unwrap(), 16).unwrap();
    digits.chunks(2).map(pair).collect()
}

/// How much of each buffer there is: bytes of the state, entries of the table, bytes of the names.
pub type Room = (usize, usize, usize);

/// Checks with leftovers in the buffers. What holds for every verdict is asserted here.
pub fn judge_in(model: &[u8], trace: &[u8], room: Room) -> Verdict {
    let (mut state, mut table) = (vec![0xA5; room.0], vec![0x5A5A; room.1]);
    let mut names = vec![0x3C; room.2];
    let v = check(model, trace, &mut state, &mut table, &mut names);
    let refused = (1..=9).contains(&v.number) || v.number == BADNAME || v.number == FORMULA;
    if refused {
        assert_eq!((v.step, v.fact, v.rounds, v.held), (0, NONE, 0, 0));
    }
    // Only an unmet condition has a kind. A fact of P has no round in the table, one of N has. A
    // formula that is true has no fact, and only version 4 has formulas.
    let is_true = v.number == NOATTACK && v.fact == NONE;
    assert!(!is_true || model[0] == 4);
    let is_unmet = v.number == BLOCKED || v.number == NOATTACK && !is_true;
    let round = if is_unmet { table[v.fact as usize] } else { NONE };
    let kind = [NO_KIND, if round == NONE { POSITIVE } else { NEGATIVE }][is_unmet as usize];
    // And a name that is used isn't one.
    let has_fact = is_unmet || v.number == USED;
    assert_eq!((v.kind, v.round, v.fact != NONE), (kind, round, has_fact));
    assert!(v.number != USED || names[v.fact as usize / 8] >> (v.fact % 8) & 1 == 1);
    let (bytes, entries, name_bytes) = if refused { (0, 0, 0) } else { (512, 4_096, 128) };
    assert!(state[bytes..].iter().all(|b| *b == 0xA5));
    assert!(table[entries..].iter().all(|e| *e == 0x5A5A));
    assert!(names[name_bytes..].iter().all(|b| *b == 0x3C));
    // Versions 1 and 2 have no names, so that none is used.
    if !refused && model[0] < 3 {
        assert!(names[..128] == [0; 128]);
    }
    assert_eq!(fault_part(model, trace, v.mark, v.start, v.len).len(), v.len);
    v
}

pub fn judge(model: &[u8], trace: &[u8]) -> Verdict {
    judge_in(model, trace, (520, 4_100, 130))
}

/// Number, mark, start and length.
pub fn place(v: Verdict) -> (u8, u8, usize, usize) {
    (v.number, v.mark, v.start, v.len)
}

pub fn clause(head: u16, body: &[u16]) -> Clause {
    Clause { head, body: body.to_vec() }
}

pub fn rule(pos: &[u16], neg: &[u16], add: &[u16]) -> Rule {
    Rule { pos: pos.to_vec(), neg: neg.to_vec(), add: add.to_vec(), names: vec![] }
}

pub fn attack(pos: &[u16], neg: &[u16]) -> Attack {
    Attack { pos: pos.to_vec(), neg: neg.to_vec() }
}

/// Nothing but F and one attack state without conditions: 29 bytes. The section lengths stand at
/// 1, 7, 11, 15 and 19, so a first clause is at 15, and with no clause a first rule at 19.
pub fn bare(facts: u16) -> Model {
    Model { facts, attacks: vec![attack(&[], &[])], ..Model::default() }
}

pub fn up_to(end: u16) -> Vec<u16> {
    (0..end).collect()
}

/// The model is a true attack with no step and as long as a file may be: with a byte more it has a
/// tail, with two it is too long.
pub fn is_longest(model: &Model) {
    let trace = write_trace(0, &[]);
    let mut bytes = write_model(model);
    assert_eq!(bytes.len(), 65_535);
    assert_eq!(judge(&bytes, &trace).number, ATTACK);
    bytes.push(0);
    assert_eq!(place(judge(&bytes, &trace)), (SHAPE, MODEL, 65_535, 1));
    bytes.push(0);
    assert_eq!(place(judge(&bytes, &trace)), (LONG, MODEL, 0, 65_537));
}

/// A fault of a model: its name, its number, and the start and the length of its bytes; without a
/// length they go up to the file's end.
pub type Row = (&'static str, u8, usize, Option<usize>, fn(&mut Vec<u8>));

/// Of any two faults of a sound model the upper row is answered, and so is each row alone. Counting
/// and closing refuse with the same number.
pub fn the_upper_row_is_answered(sound: &[u8], rows: &[Row]) {
    for (index, winner) in rows.iter().enumerate() {
        // Starting with the winner itself, which is then alone.
        for loser in &rows[index..] {
            let mut model = sound.to_vec();
            loser.4(&mut model);
            winner.4(&mut model);
            let (name, number, start, len, _) = *winner;
            let len = len.unwrap_or(model.len() - start);
            let what = format!("{name} before {}", loser.0);
            let v = judge(&model, &write_trace(0, &[0]));
            assert_eq!(place(v), (number, MODEL, start, len), "{what}");
            assert_eq!(count_api(&model), Err(number), "{what}");
            assert_eq!(close_api(&model, &[0; 512], &mut [0; 4_096]), Err(number), "{what}");
        }
    }
}
