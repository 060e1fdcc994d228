//! The command's lines against those of document 01's program, on many pairs, each run as people run it.

use std::fs;
use std::path::{Path, PathBuf};
use std::process::{Command, Output};

const PAIRS: usize = 400;

/// A folder that goes when the test ends.
struct Folder(PathBuf);

impl Folder {
    fn new() -> Folder {
        let path = std::env::temp_dir().join(format!("cantivorex-lines-{}", std::process::id()));
        fs::create_dir(&path).expect("a folder");
        Folder(path)
    }
}

impl Drop for Folder {
    fn drop(&mut self) {
        // Whatever is left is in the way of nothing.
        let _ = fs::remove_dir_all(&self.0);
    }
}

fn text(output: &Output) -> String {
    String::from_utf8_lossy(&output.stdout).into_owned()
}

fn command(folder: &Path, words: &[&str]) -> Output {
    let mut command = Command::new(env!("CARGO_BIN_EXE_cantivorex"));
    command.current_dir(folder).args(words).output().expect("the command")
}

/// The line of document 01's program for the pair of a number, which every command answers, too.
fn line(folder: &Path, program: &Path, index: usize) -> String {
    let [model, trace] = ["model", "trace"].map(|ending| format!("{index:03}.{ending}"));
    let case = folder.join("case");
    fs::copy(folder.join(&model), case.join("case.model")).expect("a model");
    fs::copy(folder.join(&trace), case.join("case.trace")).expect("a trace");
    let first = Command::new(program).current_dir(&case).output().expect("document 01's program");
    let check = command(folder, &[&model, &trace]);
    assert_eq!(text(&first), text(&check), "pair {index}");
    assert!(check.status.success(), "pair {index}");
    assert!(command(folder, &["count", &model, &trace]).status.success(), "pair {index}");
    assert!(
        matches!(command(folder, &["show", &model]).status.code(), Some(0 | 1)),
        "pair {index}"
    );
    text(&first).strip_suffix('\n').expect("a whole line").to_string()
}

#[test]
fn all_commands_have_the_line_of_document_01s_program() {
    let program = Path::new(env!("CARGO_MANIFEST_DIR")).join("../crates/cantivorex/out/cantivorex");
    assert!(program.exists(), "{} is missing: run `rt run` in crates/cantivorex", program.display());
    let folder = Folder::new();
    fs::create_dir(folder.0.join("case")).expect("a folder");
    for index in 0..PAIRS {
        let pair = second::gen::pair(11, index as u64);
        fs::write(folder.0.join(format!("{index:03}.model")), pair.model).expect("a model");
        fs::write(folder.0.join(format!("{index:03}.trace")), pair.trace).expect("a trace");
    }
    let lines: Vec<String> = (0..PAIRS).map(|index| line(&folder.0, &program, index)).collect();
    let names = lines.iter().filter_map(|line| line.split(' ').next());
    let seen = std::collections::BTreeSet::from_iter(names);
    assert!(seen.len() >= 12, "too few of the verdicts: {seen:?}");
    for limit in [&[][..], &["--limit", "60"]] {
        let night = text(&command(&folder.0, &[&["night", "."], limit].concat()));
        for (index, (shown, line)) in night.lines().zip(&lines).enumerate() {
            assert_eq!(shown, format!("{line:<72}  {index:03}"));
        }
        let count = night.lines().nth(PAIRS).expect("a line that counts");
        assert!(count.starts_with(&format!("{PAIRS} pairs: ATTACK ")), "{count}");
    }
}
