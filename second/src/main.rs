//! `second MODEL TRACE [--full]`: the verdict's line, and with `--full` where its bytes lie.

use second::{check, line, MODEL, NAMES_BYTES, STATE_BYTES, TABLE_ENTRIES};

fn main() {
    let (flags, paths): (Vec<String>, Vec<String>) =
        std::env::args().skip(1).partition(|arg| arg == "--full");
    let [model, trace] = &paths[..] else {
        eprintln!("usage: second MODEL TRACE [--full]");
        std::process::exit(2);
    };
    // A file that isn't there counts as an empty one.
    let read = |path: &String| std::fs::read(path).unwrap_or_default();
    let mut state = [0; STATE_BYTES];
    let mut table = [0; TABLE_ENTRIES];
    let mut names = [0; NAMES_BYTES];
    let verdict = check(&read(model), &read(trace), &mut state, &mut table, &mut names);
    println!("{}", line(&verdict));
    if !flags.is_empty() {
        let mark = if verdict.mark == MODEL { "model" } else { "trace" };
        println!("{mark} {} {}", verdict.start, verdict.len);
    }
}
