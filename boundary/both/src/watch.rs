//! A program run again as its own child: whatever ends the child, the parent knows which pair it was at.

use std::fs::File;
use std::os::unix::fs::FileExt;
use std::path::Path;
use std::process::Command;

/// How a child ended.
pub enum End {
    /// By itself, with 0 or 1.
    Exit(i32),
    /// In any other way: a signal, an abort, a panic.
    Died { how: String, index: u64 },
}

/// The number of the pair at hand, in a file that outlives the child.
pub struct Place(File);

impl Place {
    pub fn open(path: &Path) -> Place {
        Place(File::options().write(true).open(path).expect("the parent's file"))
    }

    pub fn set(&mut self, index: u64) {
        self.0.write_all_at(&index.to_le_bytes(), 0).expect("room for a number");
    }
}

/// Runs this program with these arguments and the place's path behind them.
pub fn run(args: &[String]) -> End {
    let path = std::env::temp_dir().join(format!("compare-{}", std::process::id()));
    std::fs::write(&path, [0; 8]).expect("a file for the place");
    let program = std::env::current_exe().expect("this program's path");
    let status = Command::new(program).args(args).arg(&path).status().expect("a child");
    let place = std::fs::read(&path).expect("the place");
    std::fs::remove_file(&path).expect("the place's file");
    match status.code() {
        Some(code @ 0..=1) => End::Exit(code),
        _ => {
            let index = place.try_into().map(u64::from_le_bytes).expect("eight bytes");
            End::Died { how: status.to_string(), index }
        }
    }
}
