//! `check MODEL TRACE`: the verdict's line, and for a refusal a second one that says where and why.

use crate::args::{Args, Known};
use crate::failure::Failure;
use crate::files::Pair;
use crate::judge;
use crate::output::{tell, Output};
use crate::places::refusal;
use crate::{operands, Command};

pub const COMMAND: Command = Command {
    name: "check",
    usage: "[check] MODEL TRACE [--exit-verdict]",
    brief: "the verdict on one trace, as one line",
    help: "\
The line goes to standard output: the verdict's name, the step, the fact, the
rounds, the facts held, and of the condition that isn't met the kind and the
round. For USED the fact is a name. For a refusal a line on standard error says
which file is at fault, which bytes, in which section or record, and what was
expected. How any other trace ends `cantivorex count` says in words.

  --exit-verdict  the exit is the verdict's number: 0 ATTACK, 10 BLOCKED,
                  11 NOATTACK, 13 USED, 9 NAME, 12 BADNAME, 17 FORMULA, and
                  2 to 7 for LONG to ORDER; what is 1 or 2 without this
                  option is then 101 or 102

MODEL or TRACE may be - for standard input. A file whose name starts with a
dash stands after --.

Exit: 0 there is a verdict, whichever it is; 1 something kept it from
answering; 2 wrong usage, or a file can't be read.

Examples:
  cantivorex samples/desk.model samples/B.trace
  cantivorex check --exit-verdict samples/desk.model - < samples/B.trace",
    known: &[Known { name: EXIT_VERDICT, has_value: false }],
    run,
};

const EXIT_VERDICT: &str = "--exit-verdict";

fn run(args: &Args) -> Result<u8, Failure> {
    let is_exit = args.has(EXIT_VERDICT);
    // 1 and 2 are verdicts' numbers too.
    let apart = |failure: Failure| match is_exit {
        true => Failure { exit: failure.exit + 100, ..failure },
        false => failure,
    };
    let number = check(args).map_err(apart)?;
    Ok(if is_exit { number } else { 0 })
}

fn check(args: &Args) -> Result<u8, Failure> {
    let [model, trace] = operands(args, &COMMAND)?;
    let pair = Pair::read(model, trace)?;
    let verdict = judge::check(&pair.model, &pair.trace).verdict;
    let mut output = Output::open()?;
    output.line(&verdict.line())?;
    output.flush()?;
    if judge::is_refusal(&verdict) {
        tell(&refusal(&verdict, &pair))?;
    }
    Ok(verdict.number)
}
