//! `compare SEED COUNT`: random pairs, the proved library against the second program. The last line
//! is 'COUNT passed, 0 failed'. The pairs are compared in a child process, so that the pair is known
//! even if a call crashes.

use both::{watch, Buffers, Form};
use cantivorex::Lent;
use second::gen::{self, Pair, Rng};
use second::{Indexed, Sought, Tally, Verdict, HOLDS};
use std::path::Path;
use std::process::exit;

fn main() {
    let args: Vec<String> = std::env::args().skip(1).collect();
    let number = |at: usize| args.get(at).and_then(|arg| arg.parse::<u64>().ok());
    match (number(0), number(1), args.get(2)) {
        (Some(seed), Some(count), None) => exit(parent(seed, count)),
        (Some(seed), Some(count), Some(place)) => exit(child(seed, count, Path::new(place))),
        _ => {
            eprintln!("usage: compare SEED COUNT");
            exit(2);
        }
    }
}

/// Has a child compare, and tells of the pair at which it died if it did.
fn parent(seed: u64, count: u64) -> i32 {
    match watch::run(&[seed.to_string(), count.to_string()]) {
        watch::End::Exit(status) => status,
        watch::End::Died { how, index } => {
            println!("pair {index} of seed {seed}: the comparison died, {how}");
            failed(&gen::pair(seed, index), index)
        }
    }
}

/// Compares pair after pair; the place is where the parent finds the pair that is being compared.
fn child(seed: u64, count: u64, place: &Path) -> i32 {
    let mut place = watch::Place::open(place);
    let mut tally = Tally::default();
    for index in 0..count {
        place.set(index);
        let pair = gen::pair(seed, index);
        match compare(&pair, seed, index) {
            Ok((verdict, indexed)) => tally.add(&pair, &verdict, &indexed),
            Err(difference) => {
                println!("pair {index} of seed {seed}: {difference}");
                answers(&pair, seed, index);
                return failed(&pair, index);
            }
        }
    }
    tally.print();
    // A few pairs say nothing of the shares.
    if !tally.is_mixed() && count >= 10_000 {
        println!("a verdict or a kind comes up too seldom: the pairs do not try it");
        return 1;
    }
    println!("{count} passed, 0 failed");
    0
}

/// Shows a pair's files and leaves them to be tried again; the answer is the exit status.
fn failed(pair: &Pair, index: u64) -> i32 {
    let folder = Path::new(concat!(env!("CARGO_MANIFEST_DIR"), "/target/failed"));
    let _ = std::fs::create_dir_all(folder);
    for (name, bytes) in [("case.model", &pair.model), ("case.trace", &pair.trace)] {
        hex_file(name, bytes);
        let path = folder.join(name);
        match std::fs::write(&path, bytes) {
            Ok(()) => println!("written to {}", path.display()),
            Err(error) => println!("not written to {}: {error}", path.display()),
        }
    }
    println!("{index} passed, 1 failed");
    1
}

/// One pair: a check with and without room for the verdict, closing by itself, both with an index and
/// without one, the rules that fire, a fact, three places, and what the model has.
fn compare(pair: &Pair, seed: u64, index: u64) -> Result<(Verdict, Indexed), String> {
    let Pair { model, trace, state_len, .. } = pair;
    let mut rng = Rng::new(seed ^ 0xC0FFEE, index);
    let mut buffers = Buffers::of(pair, seed, index);
    let few = rng.below(cantivorex::VALUES);
    for form in [Form::Plain, Form::Indexed] {
        both::check_short(model, trace, &buffers.lent(), form, few)?;
    }
    let mut start = gen::start_for(seed, index, model);
    // Where the pair is to have too short a state, so is this one.
    start.truncate(if *state_len < 512 { *state_len } else { start.len() });
    let (mut table, mut places) = (buffers.table.clone(), buffers.index.clone());
    let (closed, plain) = both::close_forms(model, &start, &mut table, &mut places)?;
    let list = &mut pair.list(seed, index);
    let firing = both::rules(model, trace, &mut buffers.clone().lent(), list)?;
    let mut others = buffers.clone();
    let (with, verdict) = both::check_forms(model, trace, &mut buffers.lent())?;
    let Buffers { table, names, .. } = buffers;
    let fact = Sought::fact(pair, seed, index, &verdict, &table);
    let sought = sought(pair, fact, &mut others)?;
    let indexed = Indexed { number: with.number, closed, plain, firing, sought, table, names };
    for _ in 0..3 {
        let mark = [0, 0, 1, 1, 2, rng.draw() as u8][rng.below(6)];
        let file = if mark == 1 { trace } else { model };
        let (start, size) = (somewhere(&mut rng, file.len()), somewhere(&mut rng, file.len()));
        let room = rng.below(2 + file.len());
        both::part(model, trace, mark, start, size, room)?;
    }
    let _ = both::count(model, rng.below(cantivorex::FIGURES))?;
    Ok((verdict, indexed))
}

/// What is said of a fact, without room for the answer and then with an entry more than it needs.
fn sought(pair: &Pair, fact: usize, buffers: &mut Buffers) -> Result<Sought, String> {
    let Pair { model, trace, .. } = pair;
    for few in 0..HOLDS {
        both::holds(model, trace, fact, &mut buffers.lent(), &mut vec![7; few])?;
    }
    let mut out = [7; HOLDS + 1];
    let number = both::holds(model, trace, fact, &mut buffers.lent(), &mut out)?;
    Ok(Sought { fact, number, out: [out[0], out[1]] })
}

/// A place in a file, at its end, or far beyond.
fn somewhere(rng: &mut Rng, len: usize) -> usize {
    let near = len + rng.below(3);
    [rng.below(len + 1), rng.below(len + 1), near, usize::MAX - rng.below(2)][rng.below(4)]
}

/// Both verdicts, rules, facts and counts, for a look at a pair that differs.
fn answers(pair: &Pair, seed: u64, index: u64) {
    let Pair { model, trace, .. } = pair;
    let (mut state, mut table, mut names) = pair.buffers(seed, index);
    let ours = cantivorex::check(model, trace, &mut state, &mut table, &mut names);
    let theirs = second::check(model, trace, &mut state, &mut table, &mut names);
    println!("library {ours:?}\nsecond  {theirs:?}");
    let fresh = || Buffers::of(pair, seed, index);
    let ours = cantivorex::check_indexed(model, trace, &mut fresh().lent());
    println!("library {ours:?} with an index of {}", pair.index_len);
    let (mut list, mut second_list) = (pair.list(seed, index), pair.list(seed, index));
    let count = cantivorex::rules(model, trace, &mut fresh().lent(), &mut list);
    println!("library {:?}", count.map(|count| &list[..count]));
    let (mut buffers, list) = (fresh(), &mut second_list);
    let Lent { state, table, names, index: places } = buffers.lent();
    let count = second::rules_api(model, trace, state, table, names, places, list);
    println!("second  {:?}", count.map(|count| &list[..count]));
    let mut buffers = fresh();
    let verdict =
        second::check(model, trace, &mut buffers.state, &mut buffers.table, &mut buffers.names);
    let fact = Sought::fact(pair, seed, index, &verdict, &buffers.table);
    println!("library {:?} of {fact}", cantivorex::holds(model, trace, fact, &mut fresh().lent()));
    let (mut buffers, mut out) = (fresh(), [7; HOLDS]);
    let Lent { state, table, names, index: places } = buffers.lent();
    let number = second::holds_api(model, trace, fact, state, table, names, places, &mut out);
    println!("second  {number} {out:?}");
    println!("library {:?}", cantivorex::count(model));
    println!("second  {:?}", second::count_api(model));
}

fn hex_file(name: &str, bytes: &[u8]) {
    println!("{name}, {} bytes:", bytes.len());
    for line in bytes.chunks(32) {
        println!("{}", line.iter().map(|byte| format!("{byte:02x}")).collect::<String>());
    }
}
