//! `shares SEED COUNT`: what comes up how often in the mixed stream.

use second::{check, gen, Indexed, Tally};
use std::time::{Duration, Instant};

fn main() {
    let numbers: Vec<u64> = std::env::args().skip(1).filter_map(|arg| arg.parse().ok()).collect();
    let [seed, count] = numbers[..] else {
        eprintln!("usage: shares SEED COUNT");
        std::process::exit(2);
    };
    let mut tally = Tally::default();
    let (mut making, mut checking) = (Duration::ZERO, Duration::ZERO);
    for index in 0..count {
        let begun = Instant::now();
        let pair = gen::pair(seed, index);
        making += begun.elapsed();
        let (mut state, mut table, mut names) = pair.buffers(seed, index);
        let begun = Instant::now();
        let verdict = check(&pair.model, &pair.trace, &mut state, &mut table, &mut names);
        checking += begun.elapsed();
        tally.add(&pair, &verdict, &Indexed::of(&pair, seed, index));
    }
    tally.print();
    let each = |all: Duration| all.as_secs_f64() * 1e6 / count as f64;
    eprintln!("made in {:.2} us, checked in {:.2} us on average", each(making), each(checking));
}
