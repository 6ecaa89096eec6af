//! The rounds of joins: behind first entries that are dead, after losses and in
//! tables of any shape, small and full, with room for a record and without.

use super::*;
use crate::layout::Record;

/// Slices of a table, with so many words after the last record. Words of no
/// meaning stand after each slice.
fn with_rooms(random: &mut Random, raw: &Raw, rooms: &[usize]) -> Vec<Piece<u32>> {
    let mut all = raw.words();
    let needed = all.len();
    all.extend(make::junk(random, 2 * layout::width(8)));
    rooms.iter().map(|room| Piece::cut(&all, needed + room)).collect()
}

fn any_of(random: &mut Random, slices: &[Piece<u32>]) -> Piece<u32> {
    slices[random.below(slices.len())].clone()
}

/// Identifiers that would join by a member: right after it, anywhere before its
/// first entry, that one and those next to it, and anything.
fn joiners(random: &mut Random, words: &[u32], by: &Record) -> Vec<u32> {
    let first = by.list[0];
    let way = first.wrapping_sub(by.id).wrapping_sub(1).max(1);
    let anywhere = by.id.wrapping_add(1 + random.word() % way);
    let mut joiners = vec![by.id.wrapping_add(1), anywhere, first.wrapping_sub(1), first];
    joiners.extend([by.id, first.wrapping_add(1), random.pick(&by.list)]);
    joiners.extend(make::names(random, words, 2));
    joiners
}

/// Joins by one member on each of some slices of its table, the first one more
/// often, and a join by its first entry.
fn joins_by(
    compare: &mut Compare,
    random: &mut Random,
    slices: &[Piece<u32>],
    by: &Record,
) -> Result {
    let joiners = joiners(random, slices[0].slice(), by);
    for &j in &joiners {
        compare.join(&slices[0], j, by.id)?;
        compare.join(&any_of(random, slices), j, by.id)?;
    }
    compare.join(&slices[0], joiners[0], by.list[0])?;
    Ok(())
}

/// The members whose first entry is live, and those whose first entry is not.
fn parted(raw: &Raw) -> [Vec<&Record>; 2] {
    let is_member = |id: u32| raw.records.binary_search_by_key(&id, |m| m.id).is_ok();
    let (live, dead) = raw.records.iter().partition(|m| is_member(m.list[0]));
    [live, dead]
}

/// Joins by some members of each sort, and after steps of those behind a dead
/// first entry.
fn joins(
    compare: &mut Compare,
    random: &mut Random,
    raw: &Raw,
    rooms: &[usize],
    steps: usize,
) -> Result {
    let slices = with_rooms(random, raw, rooms);
    let [live, dead] = parted(raw);
    for (sort, most) in [(&dead, 3), (&live, 2)] {
        for _ in 0..most.min(sort.len()) {
            let by = sort[random.below(sort.len())];
            joins_by(compare, random, &slices, by)?;
        }
    }
    for _ in 0..steps.min(2 * dead.len()) {
        let by = dead[random.below(dead.len())];
        let t = if random.one_in(2) { slices[0].clone() } else { any_of(random, &slices) };
        let joiners = joiners(random, t.slice(), by);
        compare.join_after_steps(&t, random.pick(&joiners[..3]), by.id)?;
    }
    Ok(())
}

/// Joins on slices of a small table: with room for a record, with one word too
/// few, with none, and others.
fn small_joins(compare: &mut Compare, random: &mut Random, raw: &Raw) -> Result {
    let width = raw.width();
    let fewer = random.range(1, width - 2);
    joins(compare, random, raw, &[width, width - 1, fewer, 0, 2 * width - 1], 6)
}

/// A new table, and losses of neighbours.
fn after_losses(compare: &mut Compare, random: &mut Random) -> Result {
    let r = random.range(1, 8);
    let n = r + 1 + random.below(10);
    let ids = Space::any(random, 2 * n).rising(random, n);
    let words = make::junk(random, layout::size(r, n));
    let mut t =
        Piece::whole(compare.make(&Piece::whole(words), r as u32, &Piece::whole(ids))?.first);
    for _ in 0..random.range(1, 3) {
        let live = members(t.slice());
        if live.len() < 2 {
            break;
        }
        let at = random.below(live.len());
        for k in 0..random.range(1, 1 + r.min(live.len() - 1)) {
            let n = live[(at + k) % live.len()];
            let granted = compare.leave(&t, n)?;
            // A loss that no withdrawal would be granted is a rare one.
            if granted.answer.number == 0 || random.one_in(5) {
                t = Piece::whole(compare.fail(&t, n)?.first);
            }
        }
        // Steps of some, which take over lists and look at candidates.
        for n in make::names(random, t.slice(), 4) {
            t = Piece::whole(compare.stabilize(&t, n)?.first);
        }
    }
    small_joins(compare, random, &Raw::of(t.slice()))
}

/// An identifier that is no member: next to one, an end of the space, or another.
fn dead(random: &mut Random, ids: &[u32]) -> u32 {
    loop {
        let id = random.pick(ids);
        let word = random.word();
        let id = match random.below(6) {
            0 => random.pick(&[0, u32::MAX]),
            1 => word,
            2 | 3 => id.wrapping_add(1),
            _ => id.wrapping_sub(1),
        };
        if ids.binary_search(&id).is_err() {
            return id;
        }
    }
}

/// A table of any shape, in which each list's front, back or all may be dead.
fn of_any_shape(random: &mut Random, n: usize, r: usize) -> Raw {
    let ids = Space::any(random, 2 * n).rising(random, n);
    let mut records = Vec::with_capacity(n);
    for i in 0..n {
        let mut list: Vec<u32> = (1..=r).map(|k| ids[(i + k) % n]).collect();
        let (from, to) = match random.below(8) {
            0 | 1 => (0, 1),
            2 => (0, r),
            3 => (0, random.range(1, r)),
            4 => (1, r),
            5 => (r - 1, r),
            _ => (0, 0),
        };
        for entry in &mut list[from..to] {
            *entry = dead(random, &ids);
        }
        match random.below(12) {
            0 => list[0] = ids[i],
            1 => list[0] = random.pick(&ids),
            2 => list[r - 1] = random.pick(&ids),
            _ => {}
        }
        let pending = random.one_in(4);
        let candidate = match random.below(3) {
            0 => list[0].wrapping_sub(1),
            1 => ids[(i + 1) % n],
            _ => random.pick(&ids),
        };
        let predecessor = if random.one_in(2) { dead(random, &ids) } else { random.pick(&ids) };
        records.push(Record::new(ids[i], predecessor, pending.then_some(candidate), list));
    }
    make::counted(random, r, records)
}

/// Joins before an entry that is the word right after the last record, as one
/// that was lost and became 0 is.
fn before_the_rest(compare: &mut Compare, random: &mut Random, raw: &Raw) -> Result {
    let mut words = raw.words();
    let by = &raw.records[random.below(raw.records.len())];
    words.push(by.list[0]);
    words.extend(make::junk(random, raw.width() - 1));
    compare.join(&Piece::whole(words), by.id.wrapping_add(1), by.id)?;
    Ok(())
}

/// 256 members, some of them behind a dead entry: one was lost and another one
/// joined, or the words say so.
fn full_tables(compare: &mut Compare, random: &mut Random) -> Result {
    let r = if random.one_in(2) { random.pick(&[1, 8]) } else { random.range(1, 8) };
    let n = if random.one_in(6) { 255 } else { 256 };
    let mut raw = of_any_shape(random, n, r);
    if random.one_in(2) {
        let ids: Vec<u32> = raw.records.iter().map(|m| m.id).collect();
        let mut words = make::junk(random, layout::size(r, 256));
        reference::new(&mut words, r as u32, &ids);
        let lost = [ids[0], ids[n - 1], random.pick(&ids)];
        for n in lost.into_iter().take(random.range(1, 3)) {
            reference::fail(&mut words, n);
        }
        for by in &Raw::of(&words).records {
            let j = by.id.wrapping_add(1 + random.below(2) as u32);
            reference::join(&mut words, j, by.id);
        }
        raw = Raw::of(&words);
    }
    let width = layout::width(r);
    joins(compare, random, &raw, &[width, width - 1, 0], 1)
}

pub fn join(compare: &mut Compare, random: &mut Random) -> Result {
    for _ in 0..2 {
        after_losses(compare, random)?;
        let n = if random.one_in(4) { random.range(1, 2) } else { random.range(2, 14) };
        let r = random.range(1, 8);
        let raw = of_any_shape(random, n, r);
        small_joins(compare, random, &raw)?;
        before_the_rest(compare, random, &raw)?;
        compare.alone(random)?;
    }
    if random.one_in(3) {
        full_tables(compare, random)?;
    }
    Ok(())
}
