//! Checks a model and a trace and prints the verdict's line.

fn main() {
    let paths: Vec<String> = std::env::args().skip(1).collect();
    let [model, trace] = [0, 1].map(|i| std::fs::read(&paths[i]).expect("a file"));
    let lent = &mut cantivorex::Lent {
        state: &mut [0; cantivorex::STATE_BYTES],
        table: &mut [0; cantivorex::TABLE_ENTRIES],
        names: &mut [0; cantivorex::NAMES_BYTES],
        index: &mut [0; cantivorex::INDEX_ENTRIES],
    };
    let verdict = cantivorex::check_indexed(&model, &trace, lent);
    println!("{}", verdict.line());
}
