//! The proved library beside the independent second program: each call is made of both, and all that
//! they answer and leave is compared.

pub mod plain;
pub mod watch;
pub mod worklist;

use cantivorex::{Lent, CLOSED, FIGURES, VALUES};
use second::gen::Pair;
use second::{Closed, Counts, Verdict, ROOM};
use std::fmt::Debug;

/// Entries on both sides of a lent area; a write outside the area shows there.
const GUARD: usize = 64;

fn guarded<T: Copy>(inside: &[T], guard: T) -> Vec<T> {
    let around = [guard; GUARD];
    [&around, inside, &around].concat()
}

fn inside<T>(area: &mut [T]) -> &mut [T] {
    let end = area.len() - GUARD;
    &mut area[GUARD..end]
}

fn same<T: PartialEq + Debug>(what: &str, ours: T, theirs: T) -> Result<(), String> {
    if ours == theirs {
        return Ok(());
    }
    Err(format!("{what}: the library has {ours:?}, the second program {theirs:?}"))
}

/// Two areas with their guards; the first place where they differ is named from the area's start.
fn same_area<T: PartialEq + Debug>(what: &str, ours: &[T], theirs: &[T]) -> Result<(), String> {
    match ours.iter().zip(theirs).position(|(a, b)| a != b) {
        Some(at) => {
            let place = at as isize - GUARD as isize;
            same(&format!("{what} at {place}"), &ours[at], &theirs[at])
        }
        None => same(what, ours.len(), theirs.len()),
    }
}

fn values(v: &Verdict) -> [u64; VALUES] {
    let Verdict { number, step, fact, rounds, held, kind, round, mark, start, len } = *v;
    let [number, kind, mark] = [number, kind, mark].map(usize::from);
    let [fact, round] = [fact, round].map(usize::from);
    [number, step, fact, rounds, held, kind, round, mark, start, len].map(|n| n as u64)
}

/// What a run is lent, to be owned: as it is, or each part between guards.
#[derive(Clone)]
pub struct Buffers {
    pub state: Vec<u8>,
    pub table: Vec<u16>,
    pub names: Vec<u8>,
    pub index: Vec<u16>,
}

impl Buffers {
    /// As long as a pair of a stream has them, full of leftovers.
    pub fn of(pair: &Pair, seed: u64, index: u64) -> Buffers {
        let (state, table, names) = pair.buffers(seed, index);
        Buffers { state, table, names, index: pair.index(seed, index) }
    }

    pub fn lent(&mut self) -> Lent<'_> {
        let Buffers { state, table, names, index } = self;
        Lent { state, table, names, index }
    }

    fn guarded(lent: &Lent) -> Buffers {
        Buffers {
            state: guarded(lent.state, 0xC3),
            table: guarded(lent.table, 0xC3C3),
            names: guarded(lent.names, 0xC3),
            index: guarded(lent.index, 0xC3C3),
        }
    }

    /// What lies between the guards.
    fn within(&mut self) -> Lent<'_> {
        let Buffers { state, table, names, index } = self;
        let (state, names) = (inside(state), inside(names));
        Lent { state, table: inside(table), names, index: inside(index) }
    }

    fn same(&self, when: &str, theirs: &Buffers) -> Result<(), String> {
        same_area(&format!("the state{when}"), &self.state, &theirs.state)?;
        same_area(&format!("the table{when}"), &self.table, &theirs.table)?;
        same_area(&format!("the names{when}"), &self.names, &theirs.names)?;
        same_area(&format!("the index{when}"), &self.index, &theirs.index)
    }
}

/// The two forms of a check.
#[derive(Clone, Copy)]
pub enum Form {
    Plain,
    Indexed,
}

impl Form {
    /// The library's check; without an index the one that is there is not lent.
    fn ask(self, model: &[u8], trace: &[u8], lent: &mut Lent, out: &mut [u64]) -> u8 {
        let Lent { state, table, names, .. } = lent;
        match self {
            Form::Plain => cantivorex::check_into(model, trace, state, table, names, out),
            Form::Indexed => cantivorex::check_indexed_into(model, trace, lent, out),
        }
    }

    /// The library's check against the verdict of the second program, and what that left.
    fn agrees(
        self,
        model: &[u8],
        trace: &[u8],
        mut ours: Buffers,
        verdict: &Verdict,
        left: &Lent,
    ) -> Result<(), String> {
        let mut out = guarded(&[7; VALUES + 1], 9);
        let mut out_2 = out.clone();
        let number = self.ask(model, trace, &mut ours.within(), inside(&mut out));
        inside(&mut out_2)[..VALUES].copy_from_slice(&values(verdict));
        same("the number", number, verdict.number)?;
        same_area("the verdict's values", &out, &out_2)?;
        ours.same("", &Buffers::guarded(left))?;
        part(model, trace, verdict.mark, verdict.start, verdict.len, verdict.len)
    }
}

/// A verdict of both, or what differs. The buffers are left as both leave them, and the index as it is.
pub fn check(model: &[u8], trace: &[u8], lent: &mut Lent) -> Result<Verdict, String> {
    let ours = Buffers::guarded(lent);
    let verdict = second::check(model, trace, lent.state, lent.table, lent.names);
    Form::Plain.agrees(model, trace, ours, &verdict, lent)?;
    Ok(verdict)
}

/// The same with an index lent.
pub fn check_indexed(model: &[u8], trace: &[u8], lent: &mut Lent) -> Result<Verdict, String> {
    let ours = Buffers::guarded(lent);
    let Lent { state, table, names, index } = lent;
    let verdict = second::check_indexed(model, trace, state, table, names, index);
    Form::Indexed.agrees(model, trace, ours, &verdict, lent)?;
    Ok(verdict)
}

/// A check with an index lent and without one: both verdicts, in this order. The pair is run once by the second
/// program, since an index changes nothing but itself unless it is too short.
pub fn check_forms(
    model: &[u8],
    trace: &[u8],
    lent: &mut Lent,
) -> Result<(Verdict, Verdict), String> {
    let mut ours = Buffers::guarded(lent);
    let indexed = check_indexed(model, trace, lent)
        .map_err(|difference| format!("with an index, {difference}"))?;
    if indexed.number == ROOM {
        return Ok((indexed, check(model, trace, lent)?));
    }
    // It is not lent, so that it stays as it is by now.
    inside(&mut ours.index).copy_from_slice(lent.index);
    Form::Plain.agrees(model, trace, ours, &indexed, lent)?;
    Ok((indexed, indexed))
}

/// A check without room for its verdict: 1, and nothing is changed.
pub fn check_short(
    model: &[u8],
    trace: &[u8],
    lent: &Lent,
    form: Form,
    entries: usize,
) -> Result<(), String> {
    let before = Buffers::guarded(lent);
    let (mut ours, mut out) = (before.clone(), vec![7; entries]);
    same("a short out", form.ask(model, trace, &mut ours.within(), &mut out), 1)?;
    ours.same(" under a short out", &before)?;
    same("a short out's entries", out, vec![7; entries])
}

/// Closing by itself of both, or what differs.
pub fn close(model: &[u8], state: &[u8], table: &mut [u16]) -> Result<Result<usize, u8>, String> {
    let before = table.to_vec();
    let answer = second::close_api(model, state, table);
    close_is(model, state, &before, answer, table)?;
    Ok(answer)
}

/// The library's closing, without room for its answer and with it, against the answer and the table of the second
/// program.
fn close_is(
    model: &[u8],
    state: &[u8],
    before: &[u16],
    answer: Result<usize, u8>,
    table: &[u16],
) -> Result<(), String> {
    let (mut our_table, table_2) = (guarded(before, 0xC3C3), guarded(table, 0xC3C3));
    same("no out", cantivorex::close_into(model, state, inside(&mut our_table), &mut []), 1)?;
    same_area("the table without out", &our_table, &guarded(before, 0xC3C3))?;
    let (mut out, mut out_2) = (guarded(&[7; 2], 9), guarded(&[7; 2], 9));
    let number = cantivorex::close_into(model, state, inside(&mut our_table), inside(&mut out));
    if let Ok(rounds) = answer {
        inside(&mut out_2)[0] = rounds as u64;
    }
    same("closing's number", number, answer.err().unwrap_or(0))?;
    same_area("closing's rounds", &out, &out_2)?;
    same_area("closing's table", &our_table, &table_2)
}

/// Closing by itself of both with an index lent, first into an `out` that is too short.
pub fn close_indexed(
    model: &[u8],
    state: &[u8],
    table: &mut [u16],
    index: &mut [u16],
) -> Result<Result<Closed, u8>, String> {
    let (mut our_table, mut our_index) = (guarded(table, 0xC3C3), guarded(index, 0xC3C3));
    for entries in 0..CLOSED {
        let (t, i) = (inside(&mut our_table), inside(&mut our_index));
        let mut short = vec![7; entries];
        same(
            "a short out to close",
            cantivorex::close_indexed_into(model, state, t, i, &mut short),
            1,
        )?;
        same("a short out's rounds", short, vec![7; entries])?;
    }
    same_area("the table under a short out", &our_table, &guarded(table, 0xC3C3))?;
    same_area("the index under a short out", &our_index, &guarded(index, 0xC3C3))?;
    let (mut out, mut out_2) = (guarded(&[7; CLOSED + 1], 9), guarded(&[7; CLOSED + 1], 9));
    let (t, i) = (inside(&mut our_table), inside(&mut our_index));
    let number = cantivorex::close_indexed_into(model, state, t, i, inside(&mut out));
    let answer = second::close_indexed_api(model, state, table, index);
    if let Ok(Closed { rounds, crossings }) = answer {
        let both = [rounds, crossings].map(|n| n as u64);
        inside(&mut out_2)[..CLOSED].copy_from_slice(&both);
    }
    same("closing's number", number, answer.err().unwrap_or(0))?;
    same_area("closing's rounds and crossings", &out, &out_2)?;
    same_area("closing's table", &our_table, &guarded(table, 0xC3C3))?;
    same_area("closing's index", &our_index, &guarded(index, 0xC3C3))?;
    Ok(answer)
}

/// Closing with an index lent and without one: both answers, in this order. The second program closes once.
pub fn close_forms(
    model: &[u8],
    state: &[u8],
    table: &mut [u16],
    index: &mut [u16],
) -> Result<(Result<Closed, u8>, Result<usize, u8>), String> {
    let before = table.to_vec();
    let indexed = close_indexed(model, state, table, index)
        .map_err(|difference| format!("with an index, {difference}"))?;
    if indexed == Err(ROOM) {
        return Ok((indexed, close(model, state, table)?));
    }
    let plain = indexed.map(|closed| closed.rounds);
    close_is(model, state, &before, plain, table)?;
    Ok((indexed, plain))
}

/// Every rule that fires, listed by both, or what differs; first into an `out` of no entries.
pub fn rules(
    model: &[u8],
    trace: &[u8],
    lent: &mut Lent,
    list: &mut [u16],
) -> Result<Result<usize, u8>, String> {
    let (before, before_list) = (Buffers::guarded(lent), guarded(list, 0xC3C3));
    let (mut ours, mut our_list) = (before.clone(), before_list.clone());
    let ask = |ours: &mut Buffers, our_list: &mut [u16], out: &mut [u64]| {
        cantivorex::rules_into(model, trace, &mut ours.within(), inside(our_list), out)
    };
    same("no out for rules", ask(&mut ours, &mut our_list, &mut []), 1)?;
    ours.same(" without out for rules", &before)?;
    same_area("the list without out", &our_list, &before_list)?;
    let (mut out, mut out_2) = (guarded(&[7; 2], 9), guarded(&[7; 2], 9));
    let number = ask(&mut ours, &mut our_list, inside(&mut out));
    let Lent { state, table, names, index } = lent;
    let answer = second::rules_api(model, trace, state, table, names, index, list);
    if let Ok(count) = answer {
        inside(&mut out_2)[0] = count as u64;
    }
    same("the number for rules", number, answer.err().unwrap_or(0))?;
    same_area("how many rules fire", &out, &out_2)?;
    same_area("the list of rules", &our_list, &guarded(list, 0xC3C3))?;
    ours.same(" with rules", &Buffers::guarded(lent))?;
    Ok(answer)
}

/// What is said of a fact by both, or what differs: the number, with what each leaves in an `out` of any length.
pub fn holds(
    model: &[u8],
    trace: &[u8],
    fact: usize,
    lent: &mut Lent,
    out: &mut [u64],
) -> Result<u8, String> {
    let (mut ours, mut our_out) = (Buffers::guarded(lent), guarded(out, 9));
    let number =
        cantivorex::holds_into(model, trace, fact, &mut ours.within(), inside(&mut our_out));
    let Lent { state, table, names, index } = lent;
    let answer = second::holds_api(model, trace, fact, state, table, names, index, out);
    let when = format!(" with fact {fact}");
    same(&format!("the number{when}"), number, answer)?;
    same_area(&format!("the answer{when}"), &our_out, &guarded(out, 9))?;
    ours.same(&when, &Buffers::guarded(lent))?;
    Ok(answer)
}

/// What a model has, counted by both, or what differs; first into a few entries that are too few.
pub fn count(model: &[u8], few: usize) -> Result<Result<Counts, u8>, String> {
    let mut short = vec![7; few];
    same("a short out to count", cantivorex::count_into(model, &mut short), 1)?;
    same("a short out's figures", short, vec![7; few])?;
    let mut out = guarded(&[7; FIGURES + 1], 9);
    let mut out_2 = out.clone();
    let number = cantivorex::count_into(model, inside(&mut out));
    let answer = second::count_api(model);
    if let Ok(Counts { facts, clauses, rules, goals }) = answer {
        let figures = [facts, clauses, rules, goals].map(|n| n as u64);
        inside(&mut out_2)[..FIGURES].copy_from_slice(&figures);
    }
    same("the count's number", number, answer.err().unwrap_or(0))?;
    same_area("the model's figures", &out, &out_2)?;
    Ok(answer)
}

/// The part at a place, into an area of so much room.
pub fn part(
    model: &[u8],
    trace: &[u8],
    mark: u8,
    start: usize,
    size: usize,
    room: usize,
) -> Result<(), String> {
    let mut ours = guarded(&vec![0x3C; room], 0xC3);
    let mut theirs = ours.clone();
    let len = cantivorex::part(model, trace, mark, start, size, inside(&mut ours));
    let bytes = second::fault_part(model, trace, mark, start, size);
    let copied = bytes.len().min(room);
    inside(&mut theirs)[..copied].copy_from_slice(&bytes[..copied]);
    let what = format!("the part of {size} at {start} of {mark}");
    same(&what, len, bytes.len())?;
    same_area(&what, &ours, &theirs)
}
