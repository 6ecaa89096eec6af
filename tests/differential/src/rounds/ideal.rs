//! The rounds of ideal tables: those that are, of every size and with pending steps,
//! and those that one word, two exchanged ones or stale lists keep from it.

use super::*;
use crate::make::Ring;

/// The audit, and sometimes the findings.
fn judge(compare: &mut Compare, random: &mut Random, raw: &Raw) -> Result {
    let t = make::with_room(random, &raw.words(), raw.width());
    compare.audit(&t)?;
    if random.one_in(4) {
        let findings = filler::<Finding>(random, raw.records.len());
        compare.findings(&t, &Piece::whole(findings))?;
    }
    Ok(())
}

/// The lowest member, the highest, one between whose entry k is before the end, and
/// one whose entry k is not.
fn places(random: &mut Random, n: usize, k: usize) -> [usize; 4] {
    let before = random.range(1, (n - 2).saturating_sub(k).max(1));
    let round = random.range((n - 1).saturating_sub(k).max(1), n - 2);
    [0, before, round, n - 1]
}

/// Tables that differ from an ideal one in a single entry after the first: each such
/// entry of the lowest member, of the highest and of others is made dead; some are
/// made another member or the member itself.
fn one_late(compare: &mut Compare, random: &mut Random, r: usize) -> Result {
    let n = if random.one_in(8) { r + 1 } else { r + 2 + random.below(6) };
    let ring = Ring::any(random, n);
    let mut base = ring.table(random, r);
    if random.one_in(3) {
        ring.wait(random, &mut base);
    }
    judge(compare, random, &base)?;
    let mut changed: Vec<(usize, usize)> =
        (1..r).flat_map(|k| places(random, n, k).map(|i| (i, k))).collect();
    // A list that ends at the highest member, and one that goes one past it.
    changed.extend([n - 1 - r, n - r].map(|i| (i, random.range(1, r - 1))));
    for (i, k) in changed {
        let mut raw = base.clone();
        raw.records[i].list[k] = ring.beside(random, i + 1 + k);
        judge(compare, random, &raw)?;
    }
    for _ in 0..4 {
        let (i, k) = (random.below(n), random.range(1, r - 1));
        let mut raw = base.clone();
        let list = &mut raw.records[i].list;
        match random.below(5) {
            0 => list[k] = ring.id(i),
            1 => list[k] = random.pick(&ring.ids),
            2 => list.swap(k, r - 1),
            _ => list[r - 1] = ring.id(i + r + 1 + random.below(n - r)),
        }
        judge(compare, random, &raw)?;
    }
    Ok(())
}

/// Tables that differ from an ideal one in a predecessor, in a first entry, in late
/// entries that pass over one member, as if it had joined just now, or in a candidate.
fn one_other(compare: &mut Compare, random: &mut Random) -> Result {
    let r = random.range(1, 8);
    let n = r + 1 + random.below(8);
    let ring = Ring::any(random, n);
    let mut base = ring.table(random, r);
    judge(compare, random, &base)?;
    for i in [0, random.below(n), n - 1] {
        let mut raw = base.clone();
        let member = random.pick(&ring.ids);
        raw.records[i].predecessor = random.pick(&[member, ring.gaps[i], ring.id(i)]);
        judge(compare, random, &raw)?;
        let mut raw = base.clone();
        raw.records[i].list[0] = ring.beside(random, i + 1);
        judge(compare, random, &raw)?;
    }
    let joined = random.below(n);
    let mut raw = base.clone();
    for back in 2..=r {
        if random.one_in(3) {
            continue;
        }
        let i = joined + n - back;
        let list = &mut raw.records[i % n].list;
        list.remove(back - 1);
        list.push(ring.id(i + r + 1));
    }
    judge(compare, random, &raw)?;
    ring.wait(random, &mut base);
    judge(compare, random, &base)?;
    let i = random.below(n);
    base.records[i].pending = 1;
    base.records[i].candidate = random.pick(&[ring.id(i), ring.id(i + 1), ring.gaps[(i + 1) % n]]);
    judge(compare, random, &base)
}

/// Ideal tables of r or fewer members, whose lists repeat; and one entry changed.
fn few_members(compare: &mut Compare, random: &mut Random, r: usize) -> Result {
    for n in 1..=r {
        let ring = Ring::any(random, n);
        let mut raw = ring.table(random, r);
        if random.one_in(4) {
            ring.wait(random, &mut raw);
        }
        judge(compare, random, &raw)?;
        let (i, k) = (random.below(n), random.below(r));
        let member = random.pick(&ring.ids);
        raw.records[i].list[k] = random.pick(&[member, ring.gaps[i]]);
        judge(compare, random, &raw)?;
    }
    let none = Raw::new(r, Vec::new());
    judge(compare, random, &none)
}

/// 256 members, ideal and not by one late entry, and withdrawals from as many.
pub fn full_ideal(compare: &mut Compare, random: &mut Random) -> Result {
    let r = if random.one_in(4) { random.range(2, 7) } else { 8 };
    let ring = Ring::any(random, 256);
    let mut base = ring.table(random, r);
    if random.one_in(4) {
        ring.wait(random, &mut base);
    }
    judge(compare, random, &base)?;
    for i in [0, random.range(1, 254), 255] {
        let k = if i == 255 { r - 1 } else { random.range(1, r - 1) };
        let mut raw = base.clone();
        raw.records[i].list[k] = ring.beside(random, i + 1 + k);
        judge(compare, random, &raw)?;
    }
    compare.withdrawals(random, true)
}

pub fn ideal(compare: &mut Compare, random: &mut Random) -> Result {
    let first = random.below(7);
    for next in [0, 2, 4] {
        one_late(compare, random, 2 + (first + next) % 7)?;
    }
    one_other(compare, random)?;
    let r = random.range(1, 4);
    few_members(compare, random, r)?;
    few_members(compare, random, r + 4)?;
    for _ in 0..6 {
        compare.withdrawals(random, false)?;
    }
    Ok(())
}
