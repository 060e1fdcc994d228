//! The trace checker for Rust: safe functions over the proved library. include/cantivorex.h says what each answers.

/// What the three buffers must at least hold.
pub const STATE_BYTES: usize = 512;
pub const TABLE_ENTRIES: usize = 4_096;
pub const NAMES_BYTES: usize = 128;

/// Enough for the index of every model; it needs an entry for each body place.
pub const INDEX_ENTRIES: usize = 32_768;

/// Enough for the rules of every model; a list of rules needs an entry for each.
pub const LIST_ENTRIES: usize = 2_048;

/// How many values a verdict has.
pub const VALUES: usize = 10;

/// How many figures are counted of a model.
pub const FIGURES: usize = 4;

/// No fact and no round in a verdict, no round in a table.
pub const NONE: usize = 65_535;

/// By number; NEGATED is never given, nor is any without a name.
pub const NAMES: [&str; 18] = [
    "ATTACK", "ROOM", "LONG", "VERSION", "SHAPE", "COUNT", "FACT", "ORDER", "NEGATED", "NAME",
    "BLOCKED", "NOATTACK", "BADNAME", "USED", "", "", "", "FORMULA",
];

/// Which condition is not met: one of P that is not in the closure, or one of N that is.
#[derive(Clone, Copy, Debug, PartialEq, Eq)]
pub enum Kind {
    None,
    Positive,
    Negative,
}

pub const KINDS: [Kind; 3] = [Kind::None, Kind::Positive, Kind::Negative];

impl Kind {
    pub fn name(self) -> &'static str {
        ["none", "positive", "negative"][self as usize]
    }
}

// A slice is lent as its pointer and its length. No function has a precondition of its own.
extern "C" {
    fn cantivorex_check(
        model: *const u8,
        model_len: usize,
        trace: *const u8,
        trace_len: usize,
        state: *mut u8,
        state_len: usize,
        table: *mut u16,
        table_len: usize,
        names: *mut u8,
        names_len: usize,
        out: *mut u64,
        out_len: usize,
    ) -> u8;
    fn cantivorex_close(
        model: *const u8,
        model_len: usize,
        state: *const u8,
        state_len: usize,
        table: *mut u16,
        table_len: usize,
        out: *mut u64,
        out_len: usize,
    ) -> u8;
    fn cantivorex_check_indexed(
        model: *const u8,
        model_len: usize,
        trace: *const u8,
        trace_len: usize,
        state: *mut u8,
        state_len: usize,
        table: *mut u16,
        table_len: usize,
        names: *mut u8,
        names_len: usize,
        index: *mut u16,
        index_len: usize,
        out: *mut u64,
        out_len: usize,
    ) -> u8;
    fn cantivorex_close_indexed(
        model: *const u8,
        model_len: usize,
        state: *const u8,
        state_len: usize,
        table: *mut u16,
        table_len: usize,
        index: *mut u16,
        index_len: usize,
        out: *mut u64,
        out_len: usize,
    ) -> u8;
    fn cantivorex_rules(
        model: *const u8,
        model_len: usize,
        trace: *const u8,
        trace_len: usize,
        state: *mut u8,
        state_len: usize,
        table: *mut u16,
        table_len: usize,
        names: *mut u8,
        names_len: usize,
        index: *mut u16,
        index_len: usize,
        list: *mut u16,
        list_len: usize,
        out: *mut u64,
        out_len: usize,
    ) -> u8;
    fn cantivorex_holds(
        model: *const u8,
        model_len: usize,
        trace: *const u8,
        trace_len: usize,
        fact: usize,
        state: *mut u8,
        state_len: usize,
        table: *mut u16,
        table_len: usize,
        names: *mut u8,
        names_len: usize,
        index: *mut u16,
        index_len: usize,
        out: *mut u64,
        out_len: usize,
    ) -> u8;
    fn cantivorex_count(model: *const u8, model_len: usize, out: *mut u64, out_len: usize) -> u8;
    fn cantivorex_part(
        model: *const u8,
        model_len: usize,
        trace: *const u8,
        trace_len: usize,
        mark: u8,
        start: usize,
        size: usize,
        out: *mut u8,
        out_len: usize,
    ) -> usize;
}

/// One call of the library: first the slices that are read, then a number if it takes one, then those that are written.
macro_rules! call {
    ($function:ident, $($read:expr),* $(; $number:expr)? => $($written:expr),*) => {
        // The slices are live and, where they are written, lent to this call alone.
        unsafe {
            $function(
                $($read.as_ptr(), $read.len(),)*
                $($number,)?
                $($written.as_mut_ptr(), $written.len(),)*
            )
        }
    };
}

/// What is lent to whatever runs a trace by an index. What it holds before says nothing.
pub struct Lent<'a> {
    pub state: &'a mut [u8],
    pub table: &'a mut [u16],
    pub names: &'a mut [u8],
    pub index: &'a mut [u16],
}

#[derive(Clone, Copy, Debug, PartialEq, Eq)]
pub struct Verdict {
    pub number: u8,
    pub step: usize,
    /// The first unmet condition, for USED a name; none where the goal is a formula.
    pub fact: usize,
    pub rounds: usize,
    pub held: usize,
    pub kind: Kind,
    /// Of a negative condition, the round in which its fact arose: 0 if it is stored.
    pub round: usize,
    pub mark: u8,
    pub start: usize,
    pub size: usize,
}

impl Verdict {
    /// From its values, in the order of the fields.
    pub fn of(values: [u64; VALUES]) -> Verdict {
        let [number, step, fact, rounds, held, kind, round, mark, start, size] =
            values.map(|value| value as usize);
        let (number, kind, mark) = (number as u8, KINDS[kind], mark as u8);
        Verdict { number, step, fact, rounds, held, kind, round, mark, start, size }
    }

    pub fn values(&self) -> [u64; VALUES] {
        let Verdict { number, step, fact, rounds, held, kind, round, mark, start, size } = *self;
        let (number, kind, mark) = (number as usize, kind as usize, mark as usize);
        [number, step, fact, rounds, held, kind, round, mark, start, size].map(|n| n as u64)
    }

    /// The program's one line, without the newline.
    pub fn line(&self) -> String {
        let Verdict { step, rounds, held, .. } = self;
        let (name, kind) = (NAMES[self.number as usize], self.kind.name());
        let [fact, round] = [self.fact, self.round].map(|n| match n {
            NONE => "none".to_string(),
            _ => n.to_string(),
        });
        format!(
            "{name} step {step} fact {fact} rounds {rounds} held {held} kind {kind} round {round}"
        )
    }
}

/// The verdict on a model and a trace; the buffers change only for ATTACK, BLOCKED, NOATTACK and USED.
pub fn check(
    model: &[u8],
    trace: &[u8],
    state: &mut [u8],
    table: &mut [u16],
    names: &mut [u8],
) -> Verdict {
    let mut out = [0; VALUES];
    check_into(model, trace, state, table, names, &mut out);
    Verdict::of(out)
}

/// The same as the library has it: the number, and the ten values at the front of `out`; with fewer
/// entries ROOM and no change.
pub fn check_into(
    model: &[u8],
    trace: &[u8],
    state: &mut [u8],
    table: &mut [u16],
    names: &mut [u8],
    out: &mut [u64],
) -> u8 {
    call!(cantivorex_check, model, trace => state, table, names, out)
}

/// Closing by itself: the number of rounds, or the refusal's number with nothing changed.
pub fn close(model: &[u8], state: &[u8], table: &mut [u16]) -> Result<usize, u8> {
    let mut out = [0];
    match close_into(model, state, table, &mut out) {
        0 => Ok(out[0] as usize),
        number => Err(number),
    }
}

/// The same as the library has it: 0 and the rounds in the first entry of `out`, or the refusal's number.
pub fn close_into(model: &[u8], state: &[u8], table: &mut [u16], out: &mut [u64]) -> u8 {
    call!(cantivorex_close, model, state => table, out)
}

/// The verdict as `check` gives it, by an index lent: long chains of clauses take no longer than short ones. ROOM
/// where the index has fewer entries than the model has body places.
pub fn check_indexed(model: &[u8], trace: &[u8], lent: &mut Lent) -> Verdict {
    let mut out = [0; VALUES];
    check_indexed_into(model, trace, lent, &mut out);
    Verdict::of(out)
}

/// A model of fewer bytes is checked sooner without an index: what is saved in closing is less than it takes to build.
pub const SMALL_MODEL: usize = 512;

/// The check in the form that is the sooner done for a model of this size. Both have the same verdict and leave the
/// same in state, table and names; the index stays where it isn't needed.
pub fn check_by_size(model: &[u8], trace: &[u8], lent: &mut Lent) -> Verdict {
    if model.len() < SMALL_MODEL {
        check(model, trace, lent.state, lent.table, lent.names)
    } else {
        check_indexed(model, trace, lent)
    }
}

/// The same as the library has it.
pub fn check_indexed_into(model: &[u8], trace: &[u8], lent: &mut Lent, out: &mut [u64]) -> u8 {
    let Lent { state, table, names, index } = lent;
    call!(cantivorex_check_indexed, model, trace => state, table, names, index, out)
}

/// What closing by an index answers: the number of rounds, and the body places whose fact is in the closure.
#[derive(Clone, Copy, Debug, PartialEq, Eq)]
pub struct Closed {
    pub rounds: usize,
    pub crossings: usize,
}

/// How many values that is.
pub const CLOSED: usize = 2;

/// Closing by an index lent, or the refusal's number with nothing changed.
pub fn close_indexed(
    model: &[u8],
    state: &[u8],
    table: &mut [u16],
    index: &mut [u16],
) -> Result<Closed, u8> {
    let mut out = [0; CLOSED];
    match close_indexed_into(model, state, table, index, &mut out) {
        0 => {
            let [rounds, crossings] = out.map(|n| n as usize);
            Ok(Closed { rounds, crossings })
        }
        number => Err(number),
    }
}

/// The same as the library has it: 0 and both in the first entries of `out`, or the refusal's number.
pub fn close_indexed_into(
    model: &[u8],
    state: &[u8],
    table: &mut [u16],
    index: &mut [u16],
    out: &mut [u64],
) -> u8 {
    call!(cantivorex_close_indexed, model, state => table, index, out)
}

/// How many rules fire in the last state that a trace reaches, their numbers being at the front of the list, or the
/// refusal's number with nothing changed. ROOM where the list has fewer entries than the model has rules.
pub fn rules(model: &[u8], trace: &[u8], lent: &mut Lent, list: &mut [u16]) -> Result<usize, u8> {
    let mut out = [0];
    match rules_into(model, trace, lent, list, &mut out) {
        0 => Ok(out[0] as usize),
        number => Err(number),
    }
}

/// The same as the library has it: 0 and how many they are in the first entry of `out`, or the refusal's number.
pub fn rules_into(
    model: &[u8],
    trace: &[u8],
    lent: &mut Lent,
    list: &mut [u16],
    out: &mut [u64],
) -> u8 {
    let Lent { state, table, names, index } = lent;
    call!(cantivorex_rules, model, trace => state, table, names, index, list, out)
}

/// Whether a fact holds in the last state after all steps.
#[derive(Clone, Copy, Debug, PartialEq, Eq)]
pub enum Holds {
    /// Since this round: 0 if it is stored.
    Held {
        round: usize,
    },
    Absent,
}

/// How many values the answer for a fact has.
pub const HOLDS: usize = 2;

/// Whether a fact holds, and the rounds that were run on the last state to say so: no more than it takes. Or the
/// refusal's number, which for BLOCKED and USED leaves the buffers as the check does and for all others as they were;
/// FACT is also for a fact that the model lacks.
pub fn holds(
    model: &[u8],
    trace: &[u8],
    fact: usize,
    lent: &mut Lent,
) -> Result<(Holds, usize), u8> {
    let mut out = [0; HOLDS];
    match holds_into(model, trace, fact, lent, &mut out) {
        0 => {
            let [round, rounds] = out.map(|n| n as usize);
            Ok((if round == NONE { Holds::Absent } else { Holds::Held { round } }, rounds))
        }
        number => Err(number),
    }
}

/// The same as the library has it: 0 and both values at the front of `out`, or the refusal's number.
pub fn holds_into(model: &[u8], trace: &[u8], fact: usize, lent: &mut Lent, out: &mut [u64]) -> u8 {
    let Lent { state, table, names, index } = lent;
    call!(cantivorex_holds, model, trace; fact => state, table, names, index, out)
}

/// What a model has: how many facts, clauses, rules and goals, its attack states and formulas together.
#[derive(Clone, Copy, Debug, PartialEq, Eq)]
pub struct Counts {
    pub facts: usize,
    pub clauses: usize,
    pub rules: usize,
    pub goals: usize,
}

/// The counts of a model, or the refusal's number.
pub fn count(model: &[u8]) -> Result<Counts, u8> {
    let mut out = [0; FIGURES];
    match count_into(model, &mut out) {
        0 => {
            let [facts, clauses, rules, goals] = out.map(|figure| figure as usize);
            Ok(Counts { facts, clauses, rules, goals })
        }
        number => Err(number),
    }
}

/// The same as the library has it: 0 and the four figures at the front of `out`, or the refusal's number; with fewer
/// entries ROOM and no change.
pub fn count_into(model: &[u8], out: &mut [u64]) -> u8 {
    call!(cantivorex_count, model => out)
}

/// Copies the bytes at a place of the file marked to the front of `out` as far as it has room, and
/// answers how many they are.
pub fn part(
    model: &[u8],
    trace: &[u8],
    mark: u8,
    start: usize,
    size: usize,
    out: &mut [u8],
) -> usize {
    unsafe {
        cantivorex_part(
            model.as_ptr(),
            model.len(),
            trace.as_ptr(),
            trace.len(),
            mark,
            start,
            size,
            out.as_mut_ptr(),
            out.len(),
        )
    }
}
