//! The rounds of two tables alike: equal but for one word, each in turn, or for several; and pairs
//! that get the same calls.

use super::*;
use crate::layout::{LIST, R};

/// How two tables are compared.
type Ask = fn(&mut Compare, &mut Random, &Piece<u32>, &Piece<u32>) -> Result;

/// By the library alone, both ways round.
fn lone(compare: &mut Compare, random: &mut Random, a: &Piece<u32>, b: &Piece<u32>) -> Result {
    compare.alike_alone(random, a, b)?;
    compare.alike_alone(random, b, a)
}

/// On both sides too.
fn both(compare: &mut Compare, random: &mut Random, a: &Piece<u32>, b: &Piece<u32>) -> Result {
    compare.alike(a, b)?;
    compare.alike(b, a)?;
    lone(compare, random, a, b)
}

/// A well-formed table, many of its members pending, with room or not; sometimes a record stands
/// after the last.
fn some_table(random: &mut Random) -> Piece<u32> {
    let few = random.range(0, 3);
    let n = random.pick(&[few, 3, 4, 5]);
    let mut raw = make::well_formed(random, Some(n));
    for record in &mut raw.records {
        let any = random.word();
        if random.one_in(2) {
            record.pending = 1;
            record.candidate = random.pick(&[any, any, record.list[0], record.id, 0]);
        }
    }
    if random.one_in(4) {
        raw.count = raw.count.saturating_sub(1);
    }
    make::with_room(random, &raw.words(), raw.width())
}

/// Each word in turn.
fn each_word(compare: &mut Compare, random: &mut Random, ask: Ask) -> Result {
    let t = some_table(random);
    for at in 0..t.len {
        let mut other = t.clone();
        other.all[at] = make::another(random, t.slice(), at);
        ask(compare, random, &t, &other)?;
    }
    Ok(())
}

/// Equal but for one thing or two.
fn several(compare: &mut Compare, random: &mut Random, ask: Ask) -> Result {
    let raw = make::well_formed(random, None);
    let mut other = raw.clone();
    let n = other.records.len();
    let i = random.below(n.max(1));
    match random.below(9) {
        0 => {
            other.r = random.range(1, 8) as u32;
            for m in &mut other.records {
                m.list.resize(other.r as usize, 5);
            }
        }
        1 if n > 0 => {
            let list = &mut other.records[i].list;
            let k = random.below(list.len());
            list.swap(0, k);
        }
        2 if n > 0 => other.records[i].list.rotate_left(1),
        3 if n > 0 => {
            other.records[i].pending = 1;
            other.records[i].candidate = random.word();
        }
        4 if n > 0 => other.records[n - 1].id = u32::MAX,
        5 if n > 0 => {
            other.records.remove(i);
            other.count -= 1;
        }
        6 => other.steps = make::header_steps(random),
        7 => make::count_apart(random, &mut other),
        _ => {}
    }
    let a = make::with_room(random, &raw.words(), 9);
    let b = make::with_room(random, &other.words(), 9);
    ask(compare, random, &a, &b)?;
    // The same damage in both, or another.
    if random.one_in(6) {
        let (mut a, mut b) = (a.clone(), b);
        for t in [&mut a, &mut b] {
            t.all[R] = random.pick(&[0, 9]);
        }
        return ask(compare, random, &a, &b);
    }
    Ok(())
}

/// Alike, in slices of one length and of different ones.
fn equal(compare: &mut Compare, random: &mut Random, ask: Ask) -> Result {
    let raw = make::well_formed(random, None);
    let room = random.below(2 * raw.width());
    for rooms in [[room, room], [room, random.below(2 * raw.width())], [0, raw.width()]] {
        let [a, b] = make::alike(random, &raw, rooms);
        ask(compare, random, &a, &b)?;
    }
    Ok(())
}

/// 256 members: alike, and equal but for a word of the highest or of another.
fn full(compare: &mut Compare, random: &mut Random, ask: Ask) -> Result {
    let r = random.pick(&[1, 2, 8]);
    let mut raw = make::sound(random, r, 256);
    make::count_apart(random, &mut raw);
    let room = random.below(3);
    let [a, _] = make::alike(random, &raw, [room, room]);
    let mut other = raw.clone();
    for record in &mut other.records {
        record.steps ^= 1 << random.below(32);
    }
    ask(compare, random, &a, &Piece::whole(other.words()))?;
    let word = random.below(LIST + r);
    for at in [layout::record_at(r, 255) + word, random.range(HEADER, a.len - 1)] {
        let mut other = a.clone();
        other.all[at] = make::another(random, a.slice(), at);
        ask(compare, random, &a, &other)?;
    }
    Ok(())
}

fn all(compare: &mut Compare, random: &mut Random, ask: Ask) -> Result {
    each_word(compare, random, ask)?;
    for _ in 0..6 {
        several(compare, random, ask)?;
    }
    equal(compare, random, ask)
}

/// Tables of every sort, each with one that is alike, and the same calls on both.
fn some_pairs(compare: &mut Compare, random: &mut Random, alone: bool) -> Result {
    for sort in 0..3 {
        let r = random.range(1, 8);
        let n = r + 1 + random.below(6);
        let raw = match sort {
            0 => make::sound(random, r, n),
            1 => make::well_formed(random, None),
            _ => make::tiny(random).0,
        };
        let width = raw.width();
        let room = random.pick(&[0, width - 1, width, 3 * width + 2, 9 * width]);
        let pair = make::alike(random, &raw, [room, room]);
        let length = random.range(10, 40);
        compare.pair(random, &pair, &[], length, alone)?;
    }
    // Different lengths: with room in one alone, or in both at first.
    let r = random.range(1, 4);
    let n = r + 1 + random.below(4);
    let raw = make::sound(random, r, n);
    let width = raw.width();
    let (less, more) = (random.below(2 * width), random.range(2, 5) * width);
    let rooms = if random.one_in(2) { [less, more] } else { [more, less] };
    let pair = make::alike(random, &raw, rooms);
    compare.pair(random, &pair, &[], 12, alone)
}

/// The same of 256 members.
fn full_pair(compare: &mut Compare, random: &mut Random, alone: bool) -> Result {
    let r = random.pick(&[1, 2, 8]);
    let raw = make::sound(random, r, 256);
    let room = random.below(3);
    let pair = make::alike(random, &raw, [room, room]);
    compare.pair(random, &pair, &[], 6, alone)
}

/// The two pairs that are not alike, and that no call tells apart.
fn untold(compare: &mut Compare, random: &mut Random, alone: bool) -> Result {
    for room in [false, true] {
        let (pair, candidates) = make::untold(random, room);
        let length = random.range(10, 60);
        compare.pair(random, &pair, &candidates, length, alone)?;
    }
    Ok(())
}

pub fn alike(compare: &mut Compare, random: &mut Random) -> Result {
    for _ in 0..5 {
        all(compare, random, both)?;
    }
    if random.one_in(4) {
        full(compare, random, both)?;
    }
    Ok(())
}

pub fn pairs(compare: &mut Compare, random: &mut Random) -> Result {
    for alone in [false, true] {
        for _ in 0..2 {
            some_pairs(compare, random, alone)?;
            untold(compare, random, alone)?;
        }
        if random.one_in(8) {
            full_pair(compare, random, alone)?;
        }
    }
    Ok(())
}

/// Both of the library alone.
pub fn alike_alone(compare: &mut Compare, random: &mut Random, is_full: bool) -> Result {
    if is_full {
        full(compare, random, lone)?;
        return full_pair(compare, random, true);
    }
    all(compare, random, lone)?;
    some_pairs(compare, random, true)?;
    untold(compare, random, true)
}
