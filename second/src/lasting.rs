//! Pairs in which persistence decides: the last, the first or another of all facts, one of a few, the
//! last of a full P, a fact that is only derived, one that a step adds. Then the faults of the
//! section itself, which are those of the names in use, too, and other versions.

use crate::board::{rule, Board, Files};
use crate::fresh::names;
use crate::gen::{another_layout, fields, set_number, sorted, version};
use crate::read::PERSISTENT;

/// A step that asks for stored facts; some are to stay and some to go.
fn ask(b: &mut Board, stay: &[u16], go: &[u16]) {
    let all = sorted([stay, go].concat());
    b.store(&all);
    b.step(rule(&all, &[]));
    match b.rng.below(3) {
        0 if !stay.is_empty() => b.aim(&[], stay),
        1 if !go.is_empty() => b.aim(go, &[]),
        _ => b.aim(stay, go),
    }
}

/// All facts are persistent, or all but one: the last, the first, one in the middle, any.
pub(crate) fn one_of_all(b: Board) -> Files {
    let mut b = Board::new(b.rng, b.turn, 4_096);
    let any = b.rng.below(4_096) as u16;
    let fact = [4_095, 0, 2_048, any][b.each(4)];
    let stays = b.each(2) == 0;
    b.free.retain(|f| *f != fact);
    let kept: Vec<u16> = (0..4_096).filter(|f| stays || *f != fact).collect();
    b.keep(&kept);
    let (stay, go): (Vec<u16>, Vec<u16>) = [fact].iter().partition(|_| stays);
    ask(&mut b, &stay, &go);
    b.crowd();
    b.files()
}

/// Few persistent facts or many, and a fact just beside them: it goes, and the first, the last or any of them stays.
pub(crate) fn one_of_some(mut b: Board) -> Files {
    let many = 258 + b.rng.below(1_500);
    let size = [1, 2, 3, 255, 256, 257, 0, many][b.each(8)];
    let mut list = b.take(size + 1);
    let go = list.remove(b.rng.below(size + 1));
    b.keep(&list);
    let any = b.rng.below(size);
    let at = b.rng.of(&[0, size.saturating_sub(1), any]);
    let stay: Vec<u16> = list.get(at).copied().into_iter().collect();
    ask(&mut b, &stay, &[go]);
    b.crowd();
    b.files()
}

/// P is full: the last alone is persistent, all but the last, all for as many steps as there may be, or about half.
pub(crate) fn full_p(mut b: Board) -> Files {
    let way = b.each(4);
    let list = b.take(32);
    let half = b.rng.draw();
    let stays = |at: usize| match way {
        0 => at == 31,
        1 => at < 31,
        2 => true,
        _ => half >> at & 1 == 1,
    };
    let of = |wanted: bool| -> Vec<u16> {
        (0..32).filter(|at| stays(*at) == wanted).map(|at| list[at]).collect()
    };
    b.keep(&of(true));
    ask(&mut b, &of(true), &of(false));
    if way == 2 {
        b.steps = vec![0; 1_024];
    }
    b.files()
}

/// A persistent fact at the end of a chain, asked for by a step: it is neither removed nor stored.
pub(crate) fn derived(mut b: Board) -> Files {
    let way = b.each(5);
    let length = 2 + b.rng.of(&[0, 1, 300]);
    let links = b.loose(length);
    b.chain(&links);
    let (first, last) = (&links[..1], &links[length - 1..]);
    // The heads before it say nothing, persistent or not.
    let heads = b.rng.of(&[1, length - 1]);
    b.keep(if way == 4 { &[] } else { &links[heads..] });
    b.store(if matches!(way, 2 | 4) { last } else { &[] });
    b.step(rule(last, if way == 3 { last } else { &[] }));
    if way != 1 {
        // It goes with what the chain starts from, unless it is stored: from the start or by A.
        b.step(rule(first, &[]));
    }
    b.aim(last, &[]);
    b.files()
}

/// A persistent fact that isn't there at first: it is the last of a full A, and the next step asks for it together with
/// an initial fact, which goes.
pub(crate) fn added(mut b: Board) -> Files {
    let way = b.each(4);
    let (list, initial) = (b.take(32), b.one());
    let last = &list[31..];
    b.store(&[initial]);
    b.keep(if way < 2 { last } else { &list });
    b.step(rule(&[], &list));
    let both = sorted([last, &[initial]].concat());
    match way {
        // In A again, or asked for by nobody.
        1 => b.step(rule(&both, last)),
        3 => b.step(rule(&[initial], &[])),
        _ => b.step(rule(&both, &[])),
    }
    b.aim(if way == 3 { &list } else { last }, &[initial]);
    b.files()
}

/// 300 facts or names for a section, ascending.
fn some_of(b: &mut Board, section: usize) -> Vec<u16> {
    match section {
        PERSISTENT => b.take(300),
        _ => sorted(names(b)[..300].to_vec()),
    }
}

/// The section by its index, and the version that has it.
fn put_section(b: &mut Board, section: usize, list: Vec<u16>) {
    match section {
        PERSISTENT => b.model.persistent = Some(list),
        _ => b.model.names = Some(list),
    }
}

/// The section odd, with a length that doesn't fit, cut off or missing.
pub(crate) fn misshapen(mut b: Board, section: usize) -> Files {
    let way = b.each(6);
    let list = some_of(&mut b, section);
    put_section(&mut b, section, list);
    b.hoard();
    let more = b.rng.of(&[1 << 16, 1 << 24, 1 << 31]);
    let some = 1 + b.rng.below(3);
    let (mut model, trace) = b.files();
    let length = fields(&model, true).swap_remove(section);
    let (start, end) = (length.at + 4, length.at + 4 + 600);
    match way {
        0 => {
            set_number(&mut model, &length, 601);
            model.insert(end, 0);
        }
        1 => {
            set_number(&mut model, &length, 599);
            model.remove(end - 1);
        }
        2 => set_number(&mut model, &length, 600 + more),
        3 => model.truncate(start - 4),
        4 => model.truncate(start - some),
        _ => model.truncate(end - 1),
    }
    (model, trace)
}

/// A number too great, or two in the wrong order, in the last place or the first, of all facts or names or of some.
pub(crate) fn misnumbered(mut b: Board, section: usize) -> Files {
    let way = b.each(6);
    let end = if section == PERSISTENT { b.model.facts } else { 1_024 };
    let mut list: Vec<u16> = (0..end).collect();
    if b.rng.one_in(2) {
        list = some_of(&mut b, section);
    }
    let last = list.len() - 1;
    let beyond = b.rng.of(&[end as usize + 256, 65_535]) as u16;
    match way {
        0 => list[last] = end,
        1 => list.swap(last, last - 1),
        2 => list[last] = list[last - 1],
        // One more than there are, and out of order: a number too great comes before the order.
        3 => {
            list.swap(0, 1);
            list.push(end);
        }
        4 => list.swap(0, 1),
        _ => list[last] = beyond,
    }
    put_section(&mut b, section, list);
    b.crowd();
    b.files()
}

/// A version that there isn't, and one that the rest isn't written in.
pub(crate) fn other_version(mut b: Board) -> Files {
    let way = b.each(6);
    let any = 6 + b.rng.below(249);
    let other = another_layout(b.rng, version(&b.model)) as usize;
    b.crowd();
    let (mut model, mut trace) = b.files();
    match way {
        5 => trace[0] = 2,
        _ => model[0] = [0, 5, 255, other, any][way] as u8,
    }
    (model, trace)
}
