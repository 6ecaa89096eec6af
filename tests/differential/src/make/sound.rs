//! Sound tables, ideal ones and ones far from it.

use super::{count_to_the_end, counted, Space};
use crate::layout::{Raw, Record};
use crate::random::Random;

/// Members, and for each an identifier after it and before the next member.
pub struct Ring {
    pub ids: Vec<u32>,
    pub gaps: Vec<u32>,
}

impl Ring {
    pub fn any(random: &mut Random, n: usize) -> Ring {
        let all = Space::any(random, 2 * n).rising(random, 2 * n);
        let [mut ids, mut gaps] =
            [0, 1].map(|from| -> Vec<u32> { all.iter().copied().skip(from).step_by(2).collect() });
        if random.one_in(2) {
            std::mem::swap(&mut ids, &mut gaps);
            gaps.rotate_left(1);
        }
        Ring { ids, gaps }
    }

    pub fn id(&self, i: usize) -> u32 {
        self.ids[i % self.ids.len()]
    }

    /// No member, but next to the one at place i.
    pub fn beside(&self, random: &mut Random, i: usize) -> u32 {
        let n = self.gaps.len();
        self.gaps[(i + random.below(2) * (n - 1)) % n]
    }

    /// The ideal table, nothing pending.
    pub fn table(&self, random: &mut Random, r: usize) -> Raw {
        let n = self.ids.len();
        let list = |i: usize| (1..=r).map(|k| self.id(i + k)).collect();
        let record = |i: usize| Record::new(self.id(i), self.id(i + n - 1), None, list(i));
        counted(random, r, (0..n).map(record).collect())
    }

    /// Some members are made pending, with candidates between them and the next one.
    pub fn wait(&self, random: &mut Random, raw: &mut Raw) {
        let among = random.range(1, 3);
        for (record, &gap) in raw.records.iter_mut().zip(&self.gaps) {
            if random.one_in(among) {
                record.pending = 1;
                record.candidate = gap;
            }
        }
    }

    /// An identifier by its slot: a member at the even ones, what lies between it and the
    /// next one at the odd ones, round the end.
    fn slot(&self, at: usize) -> u32 {
        let at = at % (2 * self.ids.len());
        if at % 2 == 0 {
            self.ids[at / 2]
        } else {
            self.gaps[at / 2]
        }
    }
}

/// A list that goes up from a member and skips no principal: entries are members or
/// dead, one of them a member. `principal` tells the members that must not be skipped.
fn some_list(random: &mut Random, r: usize, i: usize, principal: &[bool]) -> Vec<usize> {
    let n = principal.len();
    let style = random.below(4);
    let mut at = 2 * i;
    let mut list = Vec::with_capacity(r);
    for k in 0..r {
        // So many slots up is the next principal.
        let most = (1..=2 * n).find(|d| (at + d) % 2 == 0 && principal[(at + d) / 2 % n]);
        let most = most.unwrap_or(1);
        let dead = k + 1 < r || list.iter().any(|slot| slot % 2 == 0);
        at += match style {
            0 => most,
            1 => 2.min(most),
            _ => match random.below(3) {
                0 => most,
                _ => random.range(1, most),
            },
        };
        // The last entry is a member if no other one is.
        at += (at % 2 == 1 && !dead) as usize;
        list.push(at);
    }
    list
}

/// A sound table with these principals, and perhaps more, if they are r + 1 or more:
/// predecessors are anything, candidates anything between.
fn wild(random: &mut Random, ring: &Ring, r: usize, principal: &[bool]) -> Raw {
    let n = ring.ids.len();
    let among = random.range(1, 4);
    let mut raw = ring.table(random, r);
    for (i, record) in raw.records.iter_mut().enumerate() {
        let slots = some_list(random, r, i, principal);
        record.list = slots.iter().map(|&slot| ring.slot(slot)).collect();
        record.predecessor = match random.below(4) {
            0 => ring.slot(random.below(2 * n)),
            1 => ring.gaps[(i + n - 1) % n],
            2 => ring.id(i + n - 1 - random.below(n.min(4))),
            _ => record.predecessor,
        };
        let way = slots[0] - 2 * i;
        if way > 1 && random.one_in(among) {
            record.pending = 1;
            record.candidate = ring.slot(2 * i + random.range(1, way - 1));
        }
    }
    raw
}

/// A table on which members - 1 rounds are needed, if `first` is 0: from place `first` on
/// stand r members, then one more, by which all the others have joined, and no step was
/// made since.
fn joined_by_one(random: &mut Random, ring: &Ring, r: usize, first: usize) -> Raw {
    let n = ring.ids.len();
    let mut raw = ring.table(random, r);
    let by = first + r;
    for k in 0..n {
        let i = (first + k) % n;
        let record = &mut raw.records[i];
        // The first r + 1 as they were before the joins.
        let ahead = |d: usize| ring.id(first + (k.min(r) + d) % (r + 1));
        record.list = (1..=r).map(ahead).collect();
        record.predecessor = if k > r { ring.id(by) } else { ahead(r) };
    }
    raw
}

/// A new table of which all but n members were lost: as many neighbours as `most` at a
/// time, fewer than r, or always that many.
fn after_losses(random: &mut Random, r: usize, n: usize, most: usize) -> Raw {
    let all_most = random.one_in(2);
    let lost: Vec<usize> =
        (0..n).map(|_| if all_most { most } else { random.below(most + 1) }).collect();
    let all = n + lost.iter().sum::<usize>();
    let ids = Space::any(random, 2 * all).rising(random, all);
    let first = random.below(all);
    let mut places: Vec<usize> = lost
        .iter()
        .scan(first, |at, lost| {
            let place = *at % all;
            *at += 1 + lost;
            Some(place)
        })
        .collect();
    places.sort();
    let list = |i: usize| (1..=r).map(|k| ids[(i + k) % all]).collect();
    let record = |&i: &usize| Record::new(ids[i], ids[(i + all - 1) % all], None, list(i));
    counted(random, r, places.iter().map(record).collect())
}

/// A table on which members - 1 rounds are needed.
pub fn slowest(random: &mut Random, r: usize, n: usize) -> Raw {
    let ring = Ring::any(random, n);
    joined_by_one(random, &ring, r, 0)
}

/// A list of the next members with dead entries before, between and after them, as slots
/// up from its member: a member at each eighth, dead identifiers at the others. One entry
/// is a member, and none is skipped.
fn stale_list(random: &mut Random, r: usize, style: usize) -> Vec<usize> {
    let ahead = random.below(r);
    let mut list: Vec<usize> = Vec::with_capacity(r);
    for k in 0..r {
        let dead = match style {
            0 => k < ahead,
            ALL_BUT_LAST => k + 1 < r,
            2 => k % 2 == 0,
            3 => k % 2 == 1,
            4 => k > ahead,
            _ => random.one_in(2),
        };
        let at = list.last().copied().unwrap_or(0);
        let none = k + 1 == r && !list.iter().any(|slot| slot % 8 == 0);
        list.push(if dead && at % 8 < 7 && !none { at + 1 } else { at - at % 8 + 8 });
    }
    list
}

/// The style of `stale_list` in which all entries but the last are dead.
const ALL_BUT_LAST: usize = 1;

/// A sound table of n members, n > r, all of them principals, with lists of this style, or
/// ideal ones where it says none.
fn stale_by(random: &mut Random, r: usize, n: usize, styles: &[Option<usize>]) -> Raw {
    let all = Space::any(random, 8 * n).rising(random, 8 * n);
    let first = random.below(8);
    let slot = |at: usize| all[(first + at) % (8 * n)];
    let mut records = Vec::with_capacity(n);
    for (i, style) in styles.iter().enumerate() {
        let slots = match style {
            Some(style) => stale_list(random, r, *style),
            None => (1..=r).map(|k| 8 * k).collect(),
        };
        let predecessor = slot(8 * (i + n - 1) + if random.one_in(3) { 7 } else { 0 });
        let list = slots.iter().map(|&at| slot(8 * i + at)).collect();
        records.push(Record::new(slot(8 * i), predecessor, None, list));
    }
    let mut raw = counted(random, r, records);
    if random.one_in(3) {
        await_some(random, &mut raw);
    }
    raw
}

/// Such a table with dead entries in all lists, in some, or in that of one member alone.
pub fn stale(random: &mut Random, r: usize, n: usize) -> Raw {
    let style = random.pick(&[0, ALL_BUT_LAST, ALL_BUT_LAST, 2, 3, 4, 5, 5]);
    let among = random.below(5);
    let any = random.below(n);
    let one = random.pick(&[0, n - 1, any]);
    let some = |i: usize| match among {
        0 => (i == one).then_some(if any % 2 == 0 { ALL_BUT_LAST } else { style }),
        1 => random.one_in(3).then_some(style),
        _ => Some(style),
    };
    let styles: Vec<Option<usize>> = (0..n).map(some).collect();
    stale_by(random, r, n, &styles)
}

/// Such a table on which each member passes r - 1 entries over.
pub fn stalest(random: &mut Random, r: usize, n: usize) -> Raw {
    stale_by(random, r, n, &vec![Some(ALL_BUT_LAST); n])
}

/// One member or more are left without a live entry: their lists are of dead identifiers.
pub fn cut_off(random: &mut Random, raw: &mut Raw) {
    let ids: Vec<u32> = raw.records.iter().map(|m| m.id).collect();
    for _ in 0..random.range(1, 2) {
        let record = &mut raw.records[random.below(ids.len())];
        for entry in &mut record.list {
            while ids.binary_search(entry).is_ok() {
                *entry = entry.wrapping_add(1);
            }
        }
    }
}

/// Some members are made pending, with anything between them and their first entries.
fn await_some(random: &mut Random, raw: &mut Raw) {
    let among = random.range(1, 3);
    for record in &mut raw.records {
        let ahead = record.list[0].wrapping_sub(record.id).wrapping_sub(1);
        if ahead > 0 && record.pending == 0 && random.one_in(among) {
            record.pending = 1;
            record.candidate = record.id.wrapping_add(1 + random.word() % ahead);
        }
    }
}

/// A sound table of n members, n > r: ideal, ideal but for pending steps or a few words,
/// or far from it.
pub fn sound(random: &mut Random, r: usize, n: usize) -> Raw {
    let ring = Ring::any(random, n);
    let mut principal = vec![false; n];
    let mut raw = match random.below(10) {
        0 | 1 => {
            let first = if random.one_in(3) { random.below(n) } else { 0 };
            joined_by_one(random, &ring, r, first)
        }
        2 if r > 1 => {
            let most = if random.one_in(2) { r - 1 } else { random.range(1, r - 1) };
            after_losses(random, r, n, most)
        }
        3 => ring.table(random, r),
        4 => {
            let mut raw = ring.table(random, r);
            for _ in 0..random.range(1, 3) {
                let i = random.below(n);
                raw.records[i].predecessor = ring.slot(random.below(2 * n));
            }
            raw
        }
        5 => stale(random, r, n),
        style => {
            // Neighbours, or any; r + 1, or some more.
            let first = random.below(n);
            let among = random.range(2, 6);
            for (k, is) in principal.iter_mut().enumerate() {
                *is = style > 7 && random.one_in(among) || (k + n - first) % n <= r;
            }
            wild(random, &ring, r, &principal)
        }
    };
    if random.one_in(4) {
        await_some(random, &mut raw);
    }
    if random.one_in(4) {
        count_to_the_end(random, &mut raw, 3 * n);
    }
    raw
}
