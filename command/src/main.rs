//! `cantivorex`: the commands for people, over the proved library. Each command is a file; this one finds it and
//! gives help.

mod args;
mod check;
mod count;
mod endings;
mod failure;
mod files;
mod formulas;
mod helper;
mod holds;
mod identity;
mod judge;
mod layout;
mod names;
mod night;
mod output;
mod pairs;
mod places;
mod report;
mod rules;
mod show;

use args::{Args, Known};
use failure::{unusable, Failure};
use output::{quoted, tell, Output};
use std::ffi::{OsStr, OsString};
use std::process::ExitCode;

/// What a command is called, how it is told in help, the options that it knows, and its work, which answers the exit.
pub struct Command {
    pub name: &'static str,
    pub usage: &'static str,
    pub brief: &'static str,
    pub help: &'static str,
    pub known: &'static [Known],
    pub run: fn(&Args) -> Result<u8, Failure>,
}

/// The first is the one that is meant where none is named.
const COMMANDS: [&Command; 6] = [
    &check::COMMAND,
    &count::COMMAND,
    &holds::COMMAND,
    &night::COMMAND,
    &rules::COMMAND,
    &show::COMMAND,
];

const INTRODUCTION: &str = "\
Checks attack traces. A model says what may happen, a trace claims an attack on
it; the answer is ATTACK, or BLOCKED or NOATTACK at the first condition that is
not met, or USED at the first name that is not new, or why the files are
refused. The answers are a proved library's.
";

const OPTIONS: &str = "
  --help      this text; after a command, that command's
  --version   the command's version, and the library's SHA-256

Examples:
  cantivorex samples/desk.model samples/B.trace
  cantivorex night samples --model samples/desk.model
  cantivorex help night";

fn main() -> ExitCode {
    let words: Vec<OsString> = std::env::args_os().skip(1).collect();
    let exit = dispatch(&words).unwrap_or_else(|failure| {
        if !failure.message.is_empty() {
            // Where standard error is lost too, the exit still says so.
            let _ = tell(&failure.message);
        }
        failure.exit
    });
    ExitCode::from(exit)
}

fn dispatch(words: &[OsString]) -> Result<u8, Failure> {
    match words {
        [] => Err(unusable("usage: cantivorex MODEL TRACE, or cantivorex --help")),
        [word] if is_help(word) || word == "help" => print(&overview()),
        [word] if word == "--version" => print(&identity::version()),
        [word, name] if word == "help" => print(&help(find(name).ok_or_else(|| {
            unusable(format!("there is no command {}; see cantivorex --help", quoted(name)))
        })?)),
        [word] if word == helper::WORD => helper::serve(),
        [word, rest @ ..] => match find(word) {
            Some(command) => run(command, rest),
            None => run(COMMANDS[0], words),
        },
    }
}

fn find(name: &OsStr) -> Option<&'static Command> {
    COMMANDS.into_iter().find(|command| name == command.name)
}

fn run(command: &Command, words: &[OsString]) -> Result<u8, Failure> {
    if words.iter().take_while(|word| *word != "--").any(|word| is_help(word)) {
        return print(&help(command));
    }
    (command.run)(&args::parse(words, command.known)?)
}

fn is_help(word: &OsStr) -> bool {
    word == "--help" || word == "-h"
}

fn print(text: &str) -> Result<u8, Failure> {
    let mut output = Output::open()?;
    output.line(text)?;
    output.flush()?;
    Ok(0)
}

fn overview() -> String {
    let rows = COMMANDS
        .map(|command| format!("  cantivorex {}\n      {}\n", command.usage, command.brief));
    format!("{INTRODUCTION}\n{}{OPTIONS}", rows.concat())
}

fn help(command: &Command) -> String {
    format!("cantivorex {}\n{}\n\n{}", command.usage, command.brief, command.help)
}

/// Wrong usage of a command.
pub fn usage(command: &Command) -> Failure {
    unusable(format!(
        "usage: cantivorex {}; more by cantivorex {} --help",
        command.usage, command.name
    ))
}

/// A command's operands, exactly so many.
pub fn operands<'a, const N: usize>(
    args: &'a Args,
    command: &Command,
) -> Result<[&'a OsStr; N], Failure> {
    let all: Vec<&OsStr> = args.operands.iter().map(|word| &**word).collect();
    all.try_into().map_err(|_| usage(command))
}
