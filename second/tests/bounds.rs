//! What the pairs at the bounds are for: large values in every field of every verdict, so that a
//! number cut short shows.

mod common;
use common::judge;
use second::*;

/// The greatest step, fact, rounds, held, start, length and round of each verdict.
fn greatest() -> [[usize; 7]; NAMES.len()] {
    let mut most = [[0; 7]; NAMES.len()];
    // Eight turns have each kind in most of its ways.
    for index in (gen::AT_BOUNDS - 1..10_000).step_by(gen::AT_BOUNDS as usize) {
        let pair = gen::pair(1, index);
        let Verdict { number, step, fact, rounds, held, round, start, len, .. } =
            judge(&pair.model, &pair.trace);
        let [fact, round] = [fact, round].map(|n| if n == NONE { 0 } else { n as usize });
        let row = &mut most[number as usize];
        for (so_far, value) in row.iter_mut().zip([step, fact, rounds, held, start, len, round]) {
            *so_far = value.max(*so_far);
        }
    }
    most
}

#[test]
fn every_field_of_every_verdict_gets_large() {
    let most = greatest();
    let large = |number: u8, fields: &[usize]| {
        let row = most[number as usize];
        fields.iter().for_each(|f| assert!(row[*f] > 255, "field {f} of {number}: {row:?}"));
    };
    large(ATTACK, &[0, 2, 3]);
    large(LONG, &[5]);
    [SHAPE, COUNT, FACT, ORDER, BADNAME, FORMULA].iter().for_each(|number| large(*number, &[4, 5]));
    // A name has 2 bytes.
    large(NAME, &[4]);
    [BLOCKED, NOATTACK].iter().for_each(|number| large(*number, &[0, 1, 2, 3, 4, 6]));
    // The fact of USED is a name, and it has no round.
    large(USED, &[0, 1, 2, 3, 4]);
    assert_eq!([most[USED as usize][0], most[USED as usize][1]], [1_023, 1_023]);
    let any = |field: usize| most.iter().map(|row| row[field]).max().unwrap();
    // Steps, facts, facts held and rounds at their bounds, sums and lengths of over two bytes, places in a model's last
    // bytes.
    assert_eq!([0, 1, 3, 6].map(any), [1_024, 4_095, 4_096, 4_095]);
    assert!(any(2) > 65_535 && any(4) > 65_000 && any(5) > 65_536, "{most:?}");
}
