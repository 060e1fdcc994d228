//! `bench`: the proved library against the second program, one run, no limits. Each row takes turns with its rival and
//! shows the best turn of each; a ratio of 2 says that the library takes twice as long.

use both::plain;
use both::worklist::{clauses, Worklist};
use second::gen::{self, write_model, write_trace, Pair, Rng};
use second::{Attack, Clause, Model, Rule};
use std::hint::black_box;
use std::process::{Command, Stdio};
use std::time::Instant;

fn main() {
    let desk = desk();
    println!("Judging and closing by an index, against a plain worklist that does the same, and against the sweeps");
    indexed_head();
    for (name, model) in full_closings() {
        indexed(name, &write_model(&model));
    }
    println!(
        "\nThe closing of a step by an index, against a plain worklist, and against the sweeps"
    );
    indexed_head();
    for (name, model) in full_closings() {
        indexed_alone(name, model);
    }
    println!("\nWhole checks by an index, against the same without one");
    head();
    indexed_checks(&desk);
    println!("\nListing the rules that fire, the check taken off, against a plain loop over the same bytes");
    head();
    for (name, model) in listings() {
        listing(name, &write_model(&model));
    }
    println!(
        "\nThe whole call, against the plain reader, a plain worklist and that loop: judging on both sides"
    );
    head();
    for (name, model) in listings() {
        whole_listing(name, &write_model(&model));
    }
    println!("\nOne fact in the last state, all but its closing taken off, against that state's full closing");
    early_stops();
    println!(
        "\nThe whole call, against the plain reader and a plain worklist that stops: judging on both sides"
    );
    head();
    whole_stops();
    println!("\nHow the time grows with the body places: judging, index and closing");
    indexed_growth();
    println!(
        "\nClosing alone, as a step's share of a check, against the second program's bench_close"
    );
    head();
    for (name, model) in closings() {
        closing_alone(name, model);
    }
    println!("\nJudging and closing, against the second program's parser and bench_close");
    head();
    for (name, model) in closings() {
        closing(name, &write_model(&model));
    }
    println!("\nJudging a model, against the second program's parser, and against a plain reader in place");
    head();
    for (name, model) in judgings() {
        judging(name, &model);
    }
    println!("\nWhole checks, against the second program's check");
    head();
    checks(&desk);
    println!("\nVersions 2 to 4 with the library, against the library");
    head();
    versions(&desk);
    println!("\nHow the time grows: closing, ns");
    growth();
    println!("\nclingo on the same clauses as facts and rules, its start included");
    for (name, model) in full_closings() {
        clingo(name, &model);
    }
}

fn indexed_head() {
    let columns = ["judging, ns", "library, ns", "plain, ns", "ratio", "sweeps, ns", "faster"];
    let [judging, library, plain, ratio, sweeps, faster] = columns;
    println!(
        "{:44} {judging:>12} {library:>12} {plain:>12} {ratio:>6} {sweeps:>12} {faster:>7}",
        ""
    );
}

/// One row of a closing by an index: what judging takes of it, if it does, a plain worklist, and the sweeps.
fn indexed_row(name: &str, judging: Option<f64>, library: f64, plain: f64, sweeps: f64) {
    let judging = judging.map_or("none".to_string(), |ns| format!("{ns:.0}"));
    println!(
        "{name:44} {judging:>12} {library:12.0} {plain:12.0} {:6.2} {sweeps:12.0} {:7.1}",
        library / plain,
        sweeps / library
    );
}

/// The best of some turns of each by turns; what takes long gets fewer.
fn best<const N: usize>(mut runs: [&mut dyn FnMut() -> u64; N]) -> [f64; N] {
    let once = runs.each_mut().map(|run| time(1, run));
    let mut least = once;
    let longest = once.iter().copied().fold(0.0, f64::max);
    let turns = if longest < 1e5 { 33 } else { 9 };
    for _ in 0..turns {
        for ((run, least), once) in runs.iter_mut().zip(&mut least).zip(once) {
            // What takes over a second has had its turn.
            if once < 1e9 {
                let times = (2e6 / once.max(1.0)).clamp(1.0, 20_000.0) as u32;
                *least = least.min(time(times, run));
            }
        }
    }
    least
}

/// Each closing judges the model first; the plain worklist does so by the plain reader.
fn indexed(name: &str, model: &[u8]) {
    let (state, mut list) = (state(model), Worklist::default());
    let [mut one, mut two, mut three] = [[0; 4_096]; 3];
    let mut index = vec![0; cantivorex::INDEX_ENTRIES];
    let mut judging = || cantivorex::count(black_box(model)).expect("judged").facts as u64;
    let mut library = || {
        let closed = cantivorex::close_indexed(black_box(model), &state, &mut one, &mut index);
        closed.expect("closed").rounds as u64
    };
    let mut plain = || {
        assert_eq!(plain::judge(black_box(model)), 0);
        list.build(clauses(model));
        list.close(&state, &mut two).0 as u64
    };
    let mut sweeps =
        || cantivorex::close(black_box(model), &state, &mut three).expect("closed") as u64;
    assert!(library() == plain() && plain() == sweeps(), "{name}");
    let [judging, library, plain, sweeps] =
        best([&mut judging, &mut library, &mut plain, &mut sweeps]);
    indexed_row(name, Some(judging), library, plain, sweeps);
}

/// A rule without conditions and effect closes the initial facts anew in each step.
fn indexed_alone(name: &str, mut model: Model) {
    model.rules = vec![Rule::default()];
    model.attacks = vec![Attack::default()];
    let model = write_model(&model);
    let (initial, mut list) = (state(&model), Worklist::default());
    list.build(clauses(&model));
    let (mut lent, mut table) = (Own::new(), [0; 4_096]);
    let [none, few, many] = [0, 2, 256].map(|steps| write_trace(0, &vec![0; steps]));
    let mut other = Own::new();
    let mut without = || lent.library(&model, &none).rounds as u64;
    let mut swept = || other.library(&model, &few).rounds as u64;
    let mut plain = || (0..256).map(|_| list.close(black_box(&initial), &mut table).0 as u64).sum();
    let [mut third, mut fourth] = [0; 2].map(|_| Own::new());
    let mut rest = || third.indexed(&model, &none).rounds as u64;
    let mut all = || fourth.indexed(&model, &many).rounds as u64;
    assert_eq!(all(), plain() + rest(), "{name}");
    let [without, swept, plain, rest, all] =
        best([&mut without, &mut swept, &mut plain, &mut rest, &mut all]);
    indexed_row(name, None, (all - rest) / 256.0, plain / 256.0, (swept - without) / 2.0);
}

fn indexed_check(name: &str, pairs: &[(Vec<u8>, Vec<u8>)]) {
    let [mut one, mut two] = [0; 2].map(|_| Own::new());
    let ours = || pairs.iter().map(|(m, tr)| one.indexed(m, tr).rounds).sum::<usize>() as u64;
    let theirs = || pairs.iter().map(|(m, tr)| two.library(m, tr).rounds).sum::<usize>() as u64;
    race(name, ours, theirs);
}

fn indexed_checks(desk: &Model) {
    let desk = write_model(desk);
    for (case, steps) in [("A", &[0][..]), ("B", &[1, 0])] {
        let pair = (desk.clone(), write_trace(0, steps));
        indexed_check(&format!("desk model, case {case}"), &[pair]);
    }
    let night: Vec<_> = (0..200).map(|i| gen::sound(11, i)).map(|p| (p.model, p.trace)).collect();
    indexed_check("a night of 200 typical pairs", &night);
    let [mut one, mut two] = [0; 2].map(|_| Own::new());
    let ours = || night.iter().map(|(m, tr)| one.by_size(m, tr).rounds).sum::<usize>() as u64;
    let theirs = || night.iter().map(|(m, tr)| two.library(m, tr).rounds).sum::<usize>() as u64;
    race("the same night by the models' sizes, as the command asks", ours, theirs);
    let full = write_model(&bodies(4_000, 6));
    for steps in [0, 16, 128] {
        let pair = (full.clone(), write_trace(0, &vec![0; steps]));
        indexed_check(&format!("4,000 clauses of 6, {steps} steps"), &[pair]);
    }
    longest_pair();
}

/// The pair that takes the sweeps a minute: a reversed chain of clauses of six, 1,024 steps. They run three of its
/// states, and the rest is reckoned.
fn longest_pair() {
    let clause = |k: u16| Clause { head: k + 6, body: (k..k + 6).collect() };
    let clauses = (0..4_006).rev().map(clause).collect();
    let mut model = with(4_096, (0..6).collect(), clauses);
    model.attacks[0].pos = (0..7).collect();
    let model = write_model(&model);
    let [all, few, none] = [1_024, 2, 0].map(|steps| write_trace(0, &vec![0; steps]));
    let mut lent = Own::new();
    let seconds = |ns: f64| ns / 1e9;
    let by_index = (0..3).map(|_| time(1, || lent.indexed(&model, &all).rounds as u64));
    let by_index = seconds(by_index.fold(f64::MAX, f64::min));
    assert_eq!(lent.indexed(&model, &all).rounds, 1_025 * 4_006);
    let start = seconds(time(1, || lent.library(&model, &none).rounds as u64));
    let three = seconds(time(1, || lent.library(&model, &few).rounds as u64));
    let sweeps = start + (three - start) / 2.0 * 1_024.0;
    println!(
        "{} bytes, a reversed chain of six, 1,024 steps: {by_index:.3} s, the sweeps some {sweeps:.0} s, {:.0} times",
        model.len(),
        sweeps / by_index
    );
}

/// Clauses of 16, so many that they have about so many body places; the last has as many as a file can hold.
fn indexed_growth() {
    println!("{:>12} {:>12} {:>12} {:>12}", "places", "crossed", "ns", "ns a place");
    for places in [1_000, 3_000, 10_000, 30_000] {
        let mut model = bodies(places / 16, 16);
        (model.rules, model.attacks) = (vec![], vec![]);
        let places = second::places(&model.clauses);
        let model = write_model(&model);
        let (state, mut table) = (state(&model), [0; 4_096]);
        let mut index = vec![0; places];
        let mut run = || {
            let closed = cantivorex::close_indexed(&model, &state, &mut table, &mut index);
            closed.expect("closed").crossings as u64
        };
        let crossed = run();
        let [ns] = best([&mut run]);
        println!("{places:12} {crossed:12} {ns:12.0} {:12.2}", ns / places as f64);
    }
}

/// Listing by itself: what the library takes for the same pair without listing is taken off. There is no step.
fn listing(name: &str, model: &[u8]) {
    let (mut one, mut two, trace) = (Own::new(), Own::new(), write_trace(0, &[]));
    let (mut other, mut list) = (Own::new(), [0; 2_048]);
    other.indexed(model, &trace);
    let mut with = || one.rules(black_box(model), &trace);
    let mut without = || two.indexed(black_box(model), &trace).rounds as u64;
    let mut plain =
        || plain::firing(black_box(model), &other.table, &other.names, &mut list) as u64;
    assert_eq!(with(), plain(), "{name}");
    let [with, without, plain] = best([&mut with, &mut without, &mut plain]);
    row(name, with - without, plain);
}

/// The same with judging, index and closing on both sides.
fn whole_listing(name: &str, model: &[u8]) {
    let (state, mut worklist) = (state(model), Worklist::default());
    let (mut table, mut list, mut one) = ([0; 4_096], [0; 2_048], Own::new());
    let (mut names, trace) = ([0; 128], write_trace(0, &[]));
    // The names in use at the start, which only some rows have.
    one.indexed(model, &trace);
    names.copy_from_slice(&one.names);
    let ours = || one.rules(black_box(model), &trace);
    let theirs = || {
        assert_eq!(plain::judge(black_box(model)), 0);
        worklist.build(clauses(model));
        worklist.close(&state, &mut table);
        plain::firing(model, &table, &names, &mut list) as u64
    };
    race(name, ours, theirs);
}

/// Full files of 2,048 rules with six facts in P and five in N, some over clauses that give what they ask for, and of
/// rules with names.
fn listings() -> Vec<(&'static str, Model)> {
    let of = |pos: std::ops::Range<u16>, neg: std::ops::Range<u16>| {
        let rule = Rule { pos: pos.collect(), neg: neg.collect(), ..Rule::default() };
        let initial = (0..100).chain([2_004]).collect();
        Model { rules: vec![rule; 2_048], ..with(4_096, initial, vec![]) }
    };
    let clauses = (0..60).map(|k| Clause { head: 2_000 + k, body: vec![k, k + 1] }).collect();
    let makes = |k: u16| Rule { names: (k % 512..k % 512 + 10).collect(), ..Rule::default() };
    let named = Model { rules: (0..2_048).map(makes).collect(), ..with(40, vec![0], vec![]) };
    vec![
        ("2,048 rules of 11 conditions, all fire", of(10..16, 3_000..3_005)),
        ("2,048 rules of 11 conditions, the last is not met", of(10..16, 2_000..2_005)),
        ("2,048 rules of 11 conditions, the first is not met", of(2_100..2_106, 3_000..3_005)),
        (
            "2,048 rules of 11 derived conditions",
            Model { clauses, ..of(2_010..2_016, 3_000..3_005) },
        ),
        ("2,048 rules of 10 names", as_version(3, named)),
    ]
}

/// A reversed chain of 4,000 clauses, fact f in round f, and facts of it: stored, in round 3, half way, last, absent.
fn chain_and_facts() -> (Vec<u8>, [(&'static str, usize); 5]) {
    let facts = [
        ("a stored fact", 0),
        ("a fact of round 3", 3),
        ("a fact of round 2,000", 2_000),
        ("a fact of the last round", 4_000),
        ("an absent fact", 4_001),
    ];
    (write_model(&chains(4_000, 4_000, true)), facts)
}

/// The least of many short turns of each, one after the other: so that a difference of a microsecond shows, also beside
/// other work.
fn least<const N: usize>(mut runs: [&mut dyn FnMut() -> u64; N]) -> [f64; N] {
    let mut least = [f64::MAX; N];
    for _ in 0..400 {
        for (run, least) in runs.iter_mut().zip(&mut least) {
            *least = least.min(time(4, run));
        }
    }
    least
}

/// Early closings by themselves. An absent fact takes a full closing and all else: judging, building the index, writing
/// the state. So all else is what it takes, less one closing, and that is taken off. One closing is a step's share of
/// 16, since the rule changes nothing; what the step takes besides stays in both columns. The last row is of the rounds
/// by themselves, without filling the table from the state, which a stored fact takes too.
fn early_stops() {
    println!("{:58} {:>13} {:>13} {:>7}", "", "early, ns", "full, ns", "ratio");
    let (model, facts) = chain_and_facts();
    let [none, some] = [0, 16].map(|steps| write_trace(0, &vec![0; steps]));
    let [mut one, mut two] = [0; 2].map(|_| Own::new());
    let mut rest = || one.indexed(black_box(&model), &none).rounds as u64;
    let mut all = || two.indexed(black_box(&model), &some).rounds as u64;
    assert_eq!(all(), 17 * rest());
    let [mut a, mut b, mut c, mut d, mut e] = facts.map(|(name, fact)| {
        let (model, none, mut own) = (&model, &none, Own::new());
        assert_eq!(own.holds(model, none, fact), fact.min(4_000) as u64, "{name}");
        move || own.holds(black_box(model), none, fact)
    });
    let [rest, all, calls @ ..] =
        least([&mut rest, &mut all, &mut a, &mut b, &mut c, &mut d, &mut e]);
    let full = (all - rest) / 16.0;
    let [stored, third, .., absent] = calls;
    for ((name, _), call) in facts.iter().zip(calls) {
        row(&format!("{name}, a chain of 4,000 clauses"), full - (absent - call), full);
    }
    row("the rounds up to 3 alone", third - stored, absent - stored);
    println!("request 8 asks that a fact of round 3 takes under a tenth of a full closing");
}

/// The same as a whole, judging and the index on both sides.
fn whole_stops() {
    let (model, facts) = chain_and_facts();
    let (trace, state) = (write_trace(0, &[]), state(&model));
    for (name, fact) in facts {
        let (mut one, mut list, mut table) = (Own::new(), Worklist::default(), [0; 4_096]);
        let ours = || one.holds(black_box(&model), &trace, fact);
        let theirs = || {
            assert_eq!(plain::judge(black_box(&model)), 0);
            list.build(clauses(&model));
            list.close_until(&state, fact, &mut table).0 as u64
        };
        race(&format!("{name}, a chain of 4,000 clauses"), ours, theirs);
    }
}

fn head() {
    println!("{:58} {:>13} {:>13} {:>7}", "", "library, ns", "rival, ns", "ratio");
}

/// Runs both by turns, and prints the best turn of each. Both must give the same number.
fn race(name: &str, mut ours: impl FnMut() -> u64, mut theirs: impl FnMut() -> u64) {
    assert_eq!(ours(), theirs(), "{name}");
    let once = time(1, &mut ours).max(1.0);
    let times = (3e6 / once).clamp(1.0, 20_000.0) as u32;
    // A short disturbance is long for a quick row.
    let turns = match once {
        ..1e5 => 33,
        ..3e7 => 9,
        _ => 3,
    };
    let (mut a, mut b) = (f64::MAX, f64::MAX);
    for _ in 0..turns {
        a = a.min(time(times, &mut ours));
        b = b.min(time(times, &mut theirs));
    }
    row(name, a, b);
}

fn row(name: &str, ours: f64, theirs: f64) {
    println!("{name:58} {ours:13.0} {theirs:13.0} {:7.2}", ours / theirs);
}

/// Nanoseconds for one call.
fn time(times: u32, mut run: impl FnMut() -> u64) -> f64 {
    let begun = Instant::now();
    for _ in 0..times {
        black_box(run());
    }
    begun.elapsed().as_nanos() as f64 / times as f64
}

/// The buffers of a check.
struct Own {
    state: [u8; 512],
    table: [u16; 4_096],
    names: [u8; 128],
    index: Vec<u16>,
    list: Vec<u16>,
}

impl Own {
    fn new() -> Own {
        let index = vec![0; cantivorex::INDEX_ENTRIES];
        let list = vec![0; cantivorex::LIST_ENTRIES];
        Own { state: [0; 512], table: [0; 4_096], names: [0; 128], index, list }
    }

    /// All but the list, which is lent apart.
    fn parts(&mut self) -> (cantivorex::Lent<'_>, &mut [u16]) {
        let Own { state, table, names, index, list } = self;
        (cantivorex::Lent { state, table, names, index }, list)
    }

    fn indexed(&mut self, model: &[u8], trace: &[u8]) -> cantivorex::Verdict {
        cantivorex::check_indexed(model, trace, &mut self.parts().0)
    }

    /// How many rules fire.
    fn rules(&mut self, model: &[u8], trace: &[u8]) -> u64 {
        let (mut lent, list) = self.parts();
        cantivorex::rules(model, trace, &mut lent, list).expect("listed") as u64
    }

    /// The rounds run for a fact.
    fn holds(&mut self, model: &[u8], trace: &[u8], fact: usize) -> u64 {
        let answer = cantivorex::holds(model, trace, fact, &mut self.parts().0);
        answer.expect("answered").1 as u64
    }

    fn by_size(&mut self, model: &[u8], trace: &[u8]) -> cantivorex::Verdict {
        cantivorex::check_by_size(model, trace, &mut self.parts().0)
    }

    fn library(&mut self, model: &[u8], trace: &[u8]) -> cantivorex::Verdict {
        cantivorex::check(model, trace, &mut self.state, &mut self.table, &mut self.names)
    }

    fn second(&mut self, model: &[u8], trace: &[u8]) -> second::Verdict {
        second::check(model, trace, &mut self.state, &mut self.table, &mut self.names)
    }
}

/// The initial facts as a state.
fn state(model: &[u8]) -> [u8; 512] {
    let mut state = [0; 512];
    for f in second::parse_model(model).expect("a well-formed model").initial {
        state[f as usize / 8] |= 1 << (f % 8);
    }
    state
}

/// A rule without conditions and without effect closes the initial facts anew in each step, so steps cost their
/// closings and little else; a check without steps costs the rest.
fn closing_alone(name: &str, mut model: Model) {
    model.rules = vec![Rule::default()];
    model.attacks = vec![Attack::default()];
    let model = write_model(&model);
    let at = second::clause_place(&model).expect("a well-formed model");
    let (initial, mut theirs) = (state(&model), [0; 4_096]);
    let mut closings = |times: usize| {
        let close = |_| second::bench_close(&model, &at, black_box(&initial), &mut theirs);
        (0..times).map(close).sum::<usize>() as u64
    };
    let once = time(1, || closings(1));
    let steps = (2e7 / once).clamp(4.0, 1_024.0) as usize;
    let mut lent = Own::new();
    let (with, without) = (write_trace(0, &vec![0; steps]), write_trace(0, &[]));
    let mut check = |trace: &[u8]| lent.library(&model, trace).rounds as u64;
    assert_eq!(check(&with), closings(steps + 1), "{name}");
    let (mut all, mut rest, mut rival) = (f64::MAX, f64::MAX, f64::MAX);
    for _ in 0..15 {
        all = all.min(time(1, || check(&with)));
        rest = rest.min(time(1, || check(&without)));
        rival = rival.min(time(1, || closings(steps)));
    }
    let steps = steps as f64;
    row(name, (all - rest) / steps, rival / steps);
}

fn closing(name: &str, model: &[u8]) {
    let state = state(model);
    let (mut ours, mut theirs) = ([0; 4_096], [0; 4_096]);
    let rounds = cantivorex::close(model, &state, &mut ours).expect("closed");
    race(
        &format!("{name}, {rounds} rounds"),
        || cantivorex::close(black_box(model), &state, &mut ours).expect("closed") as u64,
        || {
            let at = second::clause_place(black_box(model)).expect("a well-formed model");
            second::bench_close(model, &at, &state, &mut theirs) as u64
        },
    );
}

fn judging(name: &str, model: &[u8]) {
    // The trace is refused by NAME, so that nothing is run.
    let trace = write_trace(u16::MAX, &[]);
    let mut lent = Own::new();
    race(
        &format!("{name}, by parser"),
        || lent.library(black_box(model), &trace).number as u64,
        || second::parse(black_box(model), &trace).expect_err("refused").number as u64,
    );
    race(
        &format!("{name}, in place"),
        || lent.library(black_box(model), &trace).number as u64,
        || plain::judge(black_box(model)) as u64 + 9,
    );
}

fn check(name: &str, pairs: &[(Vec<u8>, Vec<u8>)]) {
    let [mut one, mut two] = [0; 2].map(|_| Own::new());
    let ours = || pairs.iter().map(|(m, tr)| one.library(m, tr).rounds).sum::<usize>() as u64;
    let theirs = || pairs.iter().map(|(m, tr)| two.second(m, tr).rounds).sum::<usize>() as u64;
    race(name, ours, theirs);
}

fn checks(desk: &Model) {
    let desk = write_model(desk);
    check("desk model, case B", &[(desk.clone(), write_trace(0, &[1, 0]))]);
    let night: Vec<_> = (0..200).map(|i| gen::sound(11, i)).map(|p| (p.model, p.trace)).collect();
    check("a night of 200 typical pairs", &night);
    let full = write_model(&bodies(4_000, 6));
    for steps in [0, 16, 128, 1_024] {
        check(
            &format!("4,000 clauses of 6, {steps} steps"),
            &[(full.clone(), write_trace(0, &vec![0; steps]))],
        );
    }
    // The same closings without lists: judged once, and closed for each state.
    let trace = write_trace(0, &[0; 1_024]);
    let state = state(&full);
    let (mut lent, mut t2) = (Own::new(), [0; 4_096]);
    race(
        "the same, 1,024 steps, against 1,025 of bench_close",
        || lent.library(&full, &trace).rounds as u64,
        || {
            let at = second::clause_place(&full).expect("a well-formed model");
            (0..1_025)
                .map(|_| second::bench_close(&full, &at, black_box(&state), &mut t2) as u64)
                .sum()
        },
    );
}

/// What later versions cost: empty sections and lists against none, all facts against none of them, a name in each step
/// against none, and the longest formula against an attack state.
fn versions(desk: &Model) {
    let night: Vec<_> =
        (0..).map(|i| gen::sound(11, i)).filter(|p| p.model[0] == 1).take(200).collect();
    for version in [2, 3, 4] {
        let newer = as_version(version, desk.clone());
        for (case, trace) in [("A", write_trace(0, &[0])), ("B", write_trace(0, &[1, 0]))] {
            let name = format!("desk model, case {case}, as version {version}");
            against(&name, &newer, desk, &trace);
        }
        let [ours, theirs] = [version, 1].map(|version| {
            let model = |p: &Pair| second::parse_model(&p.model).expect("a sound model");
            let written = |p| write_model(&as_version(version, model(p)));
            let models: Vec<_> = night.iter().map(written).collect();
            let (pairs, mut lent) =
                (models.into_iter().zip(&night).collect::<Vec<_>>(), Own::new());
            move || {
                let rounds =
                    black_box(&pairs).iter().map(|(m, p)| lent.library(m, &p.trace).rounds);
                rounds.sum::<usize>() as u64
            }
        });
        race(&format!("a night of 200 typical pairs, as version {version}"), ours, theirs);
    }
    let each_step = write_trace(0, &(0..1_024).collect::<Vec<u16>>());
    against("1,024 steps of a name each", &minting(1), &minting(0), &each_step);
    check("the same against the second program", &[(write_model(&minting(1)), each_step)]);
    let (all, trace) = (asking(Some((0..4_096).collect())), write_trace(0, &[0; 1_024]));
    against("4,096 persistent, 1,024 steps of 32 in P", &all, &asking(Some(vec![])), &trace);
    against("the same against version 1", &all, &asking(None), &trace);
    check("the same against the second program", &[(write_model(&all), trace)]);
    let model = write_model(&remembering());
    let [formula, state] = [1, 0].map(|goal| {
        let (trace, mut lent) = (write_trace(goal, &[0; 1_024]), Own::new());
        let model = &model;
        move || lent.library(black_box(model), &trace).rounds as u64
    });
    race("1,024 steps, a formula of 255 codes as the goal", formula, state);
}

/// A rule without conditions and effect, an attack state, and a formula of as many codes as there may be.
fn remembering() -> Model {
    let formulas = Some(vec![since(8)]);
    let model = Model { rules: vec![Rule::default()], ..with(40, vec![0], vec![]) };
    Model { formulas, ..as_version(3, model) }
}

/// Since over Since, so many deep: twice as many codes with each level.
fn since(deep: u16) -> Vec<u16> {
    if deep == 1 {
        return vec![0];
    }
    [vec![32_775], since(deep - 1), since(deep - 1)].concat()
}

/// A model of version 1 as one of another, without persistent facts, without names and without formulas.
fn as_version(version: u8, model: Model) -> Model {
    let [persistent, names] = [2, 3].map(|since| (version >= since).then(Vec::new));
    let formulas = (version >= 4).then(Vec::new);
    Model { persistent, names, formulas, ..model }
}

/// The library with two models and one trace.
fn against(name: &str, one: &Model, other: &Model, trace: &[u8]) {
    let [ours, theirs] = [one, other].map(|model| {
        let (model, mut lent) = (write_model(model), Own::new());
        move || lent.library(black_box(&model), trace).rounds as u64
    });
    race(name, ours, theirs);
}

/// A table of one library call each: rounds, clauses and body facts vary by themselves.
fn growth() {
    let line = |what: String, model: Model| {
        let model = write_model(&model);
        let state = state(&model);
        let mut table = [0; 4_096];
        let rounds = cantivorex::close(&model, &state, &mut table).expect("closed");
        let mut run =
            || cantivorex::close(black_box(&model), &state, &mut table).expect("closed") as u64;
        let times = (1e6 / time(1, &mut run).max(1.0)).clamp(1.0, 10_000.0) as u32;
        let best = (0..7).map(|_| time(times, &mut run)).fold(f64::MAX, f64::min);
        println!("{what:58} {rounds:6} rounds {best:13.0}");
    };
    for length in [10, 40, 100, 400, 1_000, 4_000] {
        line(format!("4,000 clauses in chains of {length}, reversed"), chains(4_000, length, true));
    }
    for clauses in [500, 1_000, 2_000, 4_000] {
        line(format!("{clauses} clauses in chains of 10, reversed"), chains(clauses, 10, true));
    }
}

// Models.

fn desk() -> Model {
    let rule = |pos: &[u16], neg: &[u16], add: &[u16]| Rule {
        pos: pos.into(),
        neg: neg.into(),
        add: add.into(),
        names: vec![],
    };
    let clauses = [(2, [0, 1]), (5, [2, 4])].map(|(head, body)| Clause { head, body: body.into() });
    Model {
        facts: 6,
        initial: vec![0, 1, 4],
        clauses: clauses.into(),
        rules: vec![rule(&[5], &[3], &[3]), rule(&[0], &[], &[]), rule(&[1], &[], &[1])],
        attacks: vec![
            Attack { pos: vec![3, 5], neg: vec![] },
            Attack { pos: vec![4], neg: vec![0] },
        ],
        ..Model::default()
    }
}

/// One rule and one attack state without conditions.
fn with(facts: u16, initial: Vec<u16>, clauses: Vec<Clause>) -> Model {
    Model {
        facts,
        initial,
        clauses,
        rules: vec![Rule::default()],
        attacks: vec![Attack::default()],
        ..Model::default()
    }
}

/// Chains of a length, all from the one stored fact.
fn chains(clauses: usize, length: usize, reversed: bool) -> Model {
    let from = |k: usize| if k % length == 0 { 0 } else { k as u16 };
    let clause = |k: usize| Clause { head: k as u16 + 1, body: vec![from(k)] };
    let mut all: Vec<Clause> = (0..clauses).map(clause).collect();
    if reversed {
        all.reverse();
    }
    with(4_096, vec![0], all)
}

/// Random clauses of so many body facts, from 40 stored facts and each from earlier facts, as many as fit.
fn bodies(clauses: usize, size: usize) -> Model {
    let mut rng = Rng::new(5, size as u64);
    let mut order: Vec<Clause> = (0..clauses)
        .map(|k| {
            let below = (40 + k / 2).min(4_000);
            let mut body: Vec<u16> = (0..3 * size).map(|_| rng.below(below) as u16).collect();
            body.sort_unstable();
            body.dedup();
            body.truncate(size);
            Clause { head: (40 + k).min(4_095) as u16, body }
        })
        .collect();
    rng.shuffle(&mut order);
    let mut model = with(4_096, (0..40).collect(), order);
    while write_model(&model).len() > 65_536 {
        model.clauses.pop();
    }
    model
}

fn up(from: u16) -> Vec<u16> {
    (from..from + 32).collect()
}

/// Rules with three lists of 32 over 200 clauses, a nearly full file.
fn many_rules() -> Model {
    let rule = Rule { pos: up(0), neg: up(100), add: up(200), names: vec![] };
    let clauses = (0..200).map(|k| Clause { head: 1_000 + k, body: vec![k] }).collect();
    Model { rules: vec![rule; 315], ..with(4_096, vec![0], clauses) }
}

/// One rule whose P is full, of facts far from each other, and is added again: it fires time after time.
fn asking(persistent: Option<Vec<u16>>) -> Model {
    let pos: Vec<u16> = (0..32).map(|k| 128 * k + 127).collect();
    let rules = vec![Rule { add: pos.clone(), pos: pos.clone(), ..Rule::default() }];
    Model { persistent, rules, ..with(4_096, pos, vec![]) }
}

/// 1,024 rules of so many names, the first of the name that is the rule's number.
fn minting(count: u16) -> Model {
    let rule = |k: u16| Rule { names: (k..k + count).collect(), ..Rule::default() };
    let model = Model { rules: (0..1_024).map(rule).collect(), ..with(40, vec![0], vec![]) };
    as_version(3, model)
}

/// As many clauses as there may be and as many N facts as then fit.
fn heads_and_negated() -> Model {
    let rule = Rule { neg: up(0), ..Rule::default() };
    let clauses = (0..4_096).map(|k| Clause { head: 32 + k % 4_064, body: vec![] }).collect();
    Model { rules: vec![rule; 680], ..with(4_096, vec![0], clauses) }
}

fn closings() -> Vec<(&'static str, Model)> {
    vec![
        ("chain of 4,000 clauses, file order", chains(4_000, 4_000, false)),
        ("chain of 4,000 clauses, reversed", chains(4_000, 4_000, true)),
        ("random clauses of 6 body facts, full file", bodies(4_096, 6)),
        ("random clauses of 16 body facts, full file", bodies(4_096, 16)),
        ("desk model", desk()),
    ]
}

/// Those in which every body place is crossed; as many clauses of six and of sixteen as a file has room for.
fn full_closings() -> Vec<(&'static str, Model)> {
    vec![
        ("chain of 4,000 clauses, file order", chains(4_000, 4_000, false)),
        ("chain of 4,000 clauses, reversed", chains(4_000, 4_000, true)),
        ("4,087 clauses of 6, full file", bodies(4_087, 6)),
        ("1,816 clauses of 16, full file", bodies(1_816, 16)),
        ("desk model", desk()),
    ]
}

fn judgings() -> Vec<(&'static str, Vec<u8>)> {
    vec![
        ("full file of clauses of 1", write_model(&bodies(4_096, 1))),
        ("full file of clauses of 16", write_model(&bodies(4_096, 16))),
        ("full file of rules of 96 facts", write_model(&many_rules())),
        ("4,096 heads and 21,760 N facts", write_model(&heads_and_negated())),
    ]
}

/// Writes the closing as a logic program and has clingo solve it, if it is there.
fn clingo(name: &str, model: &Model) {
    let found = Command::new("clingo").arg("--version").stdout(Stdio::null()).status();
    if !found.is_ok_and(|status| status.success()) {
        println!("{name}: clingo is not installed, skipped");
        return;
    }
    let mut text: String = model.initial.iter().map(|f| format!("f{f}.\n")).collect();
    for Clause { head, body } in &model.clauses {
        let body: Vec<String> = body.iter().map(|f| format!("f{f}")).collect();
        let arrow = if body.is_empty() { "" } else { " :- " };
        text += &format!("f{head}{arrow}{}.\n", body.join(", "));
    }
    let path = std::env::temp_dir().join(format!("bench-{}.lp", std::process::id()));
    std::fs::write(&path, text).expect("a file for clingo");
    let mut run = || {
        // -Wnone: a fact that no clause gives is no mistake here.
        let clingo = ["--quiet=2,2,2", "-Wnone"];
        let done = Command::new("clingo").args(clingo).arg(&path).stdout(Stdio::null()).status();
        done.expect("clingo runs").code().unwrap_or(0) as u64
    };
    let clingo = (0..3).map(|_| time(1, &mut run)).fold(f64::MAX, f64::min);
    let model = write_model(model);
    let (state, mut table, mut index) = (state(&model), [0; 4_096], vec![0; 32_768]);
    let mut ours = || {
        let closed = cantivorex::close_indexed(&model, &state, &mut table, &mut index);
        closed.expect("closed").rounds as u64
    };
    let [ours] = best([&mut ours]);
    println!("{name:58} {clingo:13.0}, {:.0} times the library by an index", clingo / ours);
    std::fs::remove_file(path).expect("clingo's file");
}
