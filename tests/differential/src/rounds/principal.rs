//! The rounds of the principal test: tables in which a chosen pair is the first
//! that skips a chosen member, the very first and the very last pair too.

use super::*;
use crate::layout::{Record, ID};
use crate::reference::between;

/// What a list entry may be: members, their neighbours, and anything.
fn any_entry(random: &mut Random, ids: &[u32]) -> u32 {
    let id = random.pick(ids);
    match random.below(8) {
        0 => id.wrapping_add(1),
        1 => id.wrapping_sub(1),
        2 => random.word(),
        _ => id,
    }
}

/// A table in which pair number `at`, from 0, is the first that skips x; where
/// there is no such pair, none does. But the first pair of x's own record, which
/// starts at x, never skips it. Lists are settled as far as that allows, or of
/// any entries.
fn skipped_at(random: &mut Random, r: usize, ids: &[u32], x: u32, at: usize) -> Raw {
    let settled = random.one_in(2);
    let n = ids.len();
    let mut records = Vec::with_capacity(n);
    for i in 0..n {
        let mut list: Vec<u32> = Vec::with_capacity(r);
        let mut a = ids[i];
        for k in 0..r {
            let number = i * r + k;
            let next = ids[(i + k + 1) % n];
            // The pair that skips x must not start at x.
            let keeps_off = number + 1 == at && k + 1 < r;
            let fits = |b: u32| {
                number > at || between(a, x, b) == (number == at) && !(keeps_off && b == x)
            };
            let mut b = if settled { next } else { any_entry(random, ids) };
            for _ in 0..8 {
                if fits(b) {
                    break;
                }
                // Anywhere above x, or on the way up to it.
                let (from, to) = if number == at { (x, a) } else { (a, x) };
                let way = to.wrapping_sub(from).wrapping_sub(1);
                b = match random.below(3) {
                    0 => any_entry(random, ids),
                    1 => from.wrapping_add(1),
                    _ => from.wrapping_add(1 + random.word() % way.max(1)),
                };
            }
            if !fits(b) {
                b = if number == at { x.wrapping_add(1) } else { x };
            }
            list.push(b);
            a = b;
        }
        let candidate = random.one_in(6).then(|| any_entry(random, ids));
        records.push(Record::new(ids[i], ids[(i + n - 1) % n], candidate, list));
    }
    make::counted(random, r, records)
}

/// The member asked for: the ends of the table, those near them, or another.
fn any_place(random: &mut Random, n: usize) -> usize {
    match random.below(6) {
        0 => 0,
        1 => n - 1,
        2 => 1 % n,
        3 => (n - 1).saturating_sub(1),
        _ => random.below(n),
    }
}

/// The pair that is to skip it first: the ends, those near the ends of a record,
/// another, or none.
fn any_pair(random: &mut Random, n: usize, r: usize) -> usize {
    let all = n * r;
    match random.below(10) {
        0 | 1 => 0,
        2 | 3 => all - 1,
        4 => all,
        5 => r - 1,
        6 => r.min(all - 1),
        7 => (n - 1) * r,
        _ => random.below(all),
    }
}

/// A table in which pair number `at` is the first that skips a member, and that
/// member.
fn made(random: &mut Random, n: usize, r: usize, at: usize) -> (Piece<u32>, u32) {
    let mut ids = Space::any(random, n).rising(random, n);
    if random.one_in(4) {
        ids[0] = 0;
    }
    if random.one_in(4) {
        ids[n - 1] = u32::MAX;
    }
    let x = ids[any_place(random, n)];
    let raw = skipped_at(random, r, &ids, x, at);
    (make::with_room(random, &raw.words(), raw.width()), x)
}

/// Identifiers that may be members or not, and the ends of the space.
fn others(random: &mut Random, t: &Piece<u32>) -> Vec<u32> {
    let mut names = make::names(random, t.slice(), 2);
    names.extend([0, u32::MAX]);
    names
}

pub fn principal(compare: &mut Compare, random: &mut Random) -> Result {
    for _ in 0..8 {
        let r = random.range(1, 8);
        let n = match random.below(6) {
            0 => 1,
            1 => 2,
            _ => random.range(2, 14),
        };
        let at = any_pair(random, n, r);
        let (t, x) = made(random, n, r, at);
        compare.principal(&t, x)?;
        for n in members(t.slice()).into_iter().chain(others(random, &t)) {
            compare.principal(&t, n)?;
        }
        // Without room after it, and cut short.
        let needed = layout::size(r, n);
        let some = needed - 1 - random.below(layout::width(r));
        for len in [needed, needed - 1, needed - r, some, HEADER, HEADER - 1] {
            compare.principal(&Piece::cut(&t.all, len), x)?;
        }
        // One word changed; the header's words too.
        let mut changed = t.clone();
        let i = if random.one_in(3) { random.below(HEADER) } else { random.below(needed) };
        changed.all[i] = match random.below(3) {
            0 => changed.all[i].wrapping_add(1),
            1 => changed.all[i].wrapping_sub(1),
            _ => random.pick(&[0, 1, 2, 9, 257, x, u32::MAX]),
        };
        compare.principal(&changed, x)?;
        compare.principal(&changed, changed.all[layout::record_at(r, 0) + ID])?;
    }
    // No members, whatever words follow.
    let words = make::junk(random, 40);
    let mut none = Piece::cut(&words, random.range(HEADER, 40));
    let header = Raw::new(random.range(1, 8), Vec::new()).words();
    none.all[..HEADER].copy_from_slice(&header);
    for n in others(random, &none) {
        compare.principal(&none, n)?;
    }
    // A full table, or nearly so: the last pair alone, or another.
    let n = if random.one_in(8) { 255 } else { 256 };
    let r = if random.one_in(8) { random.range(3, 7) } else { random.pick(&[1, 2, 8]) };
    let at = if random.one_in(2) { n * r - 1 } else { any_pair(random, n, r) };
    let (t, x) = made(random, n, r, at);
    compare.principal(&t, x)?;
    let ids = members(t.slice());
    for n in [ids[0], ids[n - 1], random.pick(&ids), random.pick(&ids)] {
        compare.principal(&t, n)?;
    }
    for n in others(random, &t) {
        compare.principal(&t, n)?;
    }
    Ok(())
}
