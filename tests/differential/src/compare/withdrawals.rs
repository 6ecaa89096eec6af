//! Withdrawals from tables with verdict 2, by the library alone: from new tables, and
//! from those that joins, withdrawals, steps and notices left and that were settled.
//! - On a sound table the verdict is 2 exactly where a new table of the same members
//!   has the same predecessors and lists.
//! - Of m members any r - 1, and any m - r - 1 if these are fewer, withdraw one after
//!   the other in any order; each reply is the member count afterwards.
//! - Beyond that 6 is given where all of the next r of a member left would be gone, 7
//!   where fewer than r + 1 members would be left, and nothing else is refused.
//! - The table stays sound, its other records and words stay, and a refusal writes
//!   nothing.

use super::ideal::same_order;
use super::join::{first_entry, is_member};
use super::lone::Lone;
use super::shapes::Shapes;
use super::{place, watched, Compare, Result};
use crate::layout::{self, records, COUNT, HEADER, ID, PENDING, R};
use crate::make::{self, Space};
use crate::random::Random;

/// What these runs must meet. Neighbours are two or more.
const SHAPES: [&str; 22] = [
    "a new table",
    "verdict 2 by a step",
    "verdict 2 by a notice",
    "verdict 2 by settle",
    "verdict 2 by settle with windows",
    "a pending step",
    "256 members",
    "all promised are granted",
    "r - 1 are granted",
    "7 of r = 8 are granted",
    "r - 1 neighbours are granted",
    "7 neighbours of r = 8 are granted",
    "neighbours round the end are granted",
    "r - 1 neighbours of 256 are granted",
    "m - r - 1 are granted, fewer than r - 1",
    "r are granted",
    "6 for the last of r neighbours",
    "6 with r = 1",
    "6 where 7 applies too",
    "7 after m - r - 1",
    "7 after m - r - 1, fewer than r - 1",
    "7 with r + 1 members",
];

/// The runs so far.
pub struct Withdrawals {
    shapes: Shapes<{ SHAPES.len() }>,
    pub made: u64,
}

impl Withdrawals {
    pub fn new() -> Withdrawals {
        Withdrawals { shapes: Shapes::new(SHAPES), made: 0 }
    }

    pub fn never_met(&self) -> Option<&'static str> {
        self.shapes.never_met()
    }

    pub fn told(&self) -> String {
        self.shapes.told()
    }
}

/// The words of a table without the record of x, as a withdrawal leaves them.
fn without(words: &[u32], x: u32) -> Vec<u32> {
    let mut left = words[..HEADER].to_vec();
    left[COUNT] -= 1;
    records(words).filter(|m| m[ID] != x).for_each(|m| left.extend(m));
    left.extend(vec![0; layout::width(words[R] as usize)]);
    left.extend(layout::rest(words));
    left
}

/// One run.
struct Run<'a> {
    shapes: &'a mut Shapes<{ SHAPES.len() }>,
    table: Lone,
}

impl Run<'_> {
    /// Has a new table of the same members the same predecessors and lists?
    fn is_as_new(&self) -> Result<bool> {
        let words = self.table.words();
        let mut new = vec![0; words.len()];
        let ids = self.table.members();
        let made = watched(place("new"), || (self.table.calls.new)(&mut new, words[R], &ids));
        if made.number != 0 {
            return self.table.wrong("new", format!("of these members is given {made:?}"));
        }
        let all = records(words).zip(records(&new)).all(same_order);
        Ok(all)
    }

    /// The verdict, which is never 0.
    fn verdict(&mut self) -> Result<u32> {
        let [members, .., verdict] = self.table.accepted("audit", &[], |c, t| (c.audit)(t))?;
        let sound = (1..=2).contains(&verdict) && members == self.table.words()[COUNT];
        if !sound || self.is_as_new()? != (verdict == 2) {
            return self.table.wrong("audit", format!("{members} members, verdict {verdict}"));
        }
        Ok(verdict)
    }

    /// A step, a notice, a withdrawal or, if there are to be any, a join; accepted or
    /// not.
    fn some_call(&mut self, random: &mut Random, joins: bool) -> Result<()> {
        let members = self.table.members();
        let n = random.pick(&members);
        match random.below(10) {
            0..=3 if joins => {
                let first = first_entry(self.table.words(), n).map_or(n, |first| first.0);
                let way = first.wrapping_sub(n).wrapping_sub(1).max(1);
                let j = n.wrapping_add(1 + random.word() % way);
                self.table.call("join", &[j, n], |c, t| (c.join)(t, j, n))?;
            }
            0..=6 => {
                self.table.accepted("stabilize", &[n], |c, t| (c.stabilize)(t, n))?;
            }
            7 => {
                let q = random.pick(&members);
                self.table.accepted("rectify", &[n, q], |c, t| (c.rectify)(t, n, q))?;
            }
            _ => {
                self.table.call("leave", &[n], |c, t| (c.leave)(t, n))?;
            }
        }
        Ok(())
    }

    /// One step of a member: the shelf to be notified, if it says done, and the
    /// verdict.
    fn step(&mut self, n: u32) -> Result<(Option<u32>, u32)> {
        let said = self.table.accepted("stabilize", &[n], |c, t| (c.stabilize)(t, n))?;
        let verdict = self.verdict()?;
        if verdict == 2 {
            self.shapes.meet("verdict 2 by a step");
        }
        Ok(((said[0] == 2).then_some(said[1]), verdict))
    }

    /// A notice to h from n, which is lost if h is no member; the verdict.
    fn notice(&mut self, h: u32, n: u32) -> Result<u32> {
        if !is_member(self.table.words(), h) {
            return self.verdict();
        }
        self.table.accepted("rectify", &[h, n], |c, t| (c.rectify)(t, h, n))?;
        let verdict = self.verdict()?;
        if verdict == 2 {
            self.shapes.meet("verdict 2 by a notice");
        }
        Ok(verdict)
    }

    /// Passes from the highest member to the lowest, each with a few steps, and the
    /// notices after each pass in any order; up to verdict 2, which need not come.
    fn settle_late(&mut self, random: &mut Random) -> Result<u32> {
        let most = self.table.words()[R] as usize + 2;
        for _ in 0..random.below(6) {
            let mut notices = Vec::new();
            for &n in self.table.members().iter().rev() {
                for _ in 0..random.range(1, most) {
                    let (done, verdict) = self.step(n)?;
                    if verdict == 2 {
                        return Ok(2);
                    }
                    notices.extend(done.map(|h| (h, n)));
                }
            }
            while !notices.is_empty() {
                let (h, n) = notices.swap_remove(random.below(notices.len()));
                if self.notice(h, n)? == 2 {
                    return Ok(2);
                }
            }
        }
        Ok(1)
    }

    /// Settle, with the rounds that are enough, members - principals + r; or with as many open
    /// minutes.
    fn settle(&mut self, random: &mut Random) -> Result<()> {
        let ideal = self.verdict()? == 2;
        let [members, principals, ..] = self.table.accepted("audit", &[], |c, t| (c.audit)(t))?;
        let enough = members - principals + self.table.words()[R];
        let windows = make::good_windows(random);
        let list = make::minutes_of(random, windows.slice(), enough as usize, 3);
        let minutes = make::lent_minutes(random, list);
        let by_hours = windows.len > 0 && random.one_in(2);
        let name = if by_hours { "settle_at" } else { "settle" };
        let told = self.table.accepted(name, &[enough], |c, t| match by_hours {
            true => (c.settle_at)(t, windows.slice(), minutes.slice()),
            false => (c.settle)(t, enough),
        })?;
        if (told[0] == 0) != ideal || told[1] != 2 || self.verdict()? != 2 {
            return self.table.wrong(name, format!("{enough} rounds are given {told:?}"));
        }
        self.shapes.meet_each(&[
            (!ideal && !by_hours, "verdict 2 by settle"),
            (!ideal && by_hours, "verdict 2 by settle with windows"),
        ]);
        Ok(())
    }

    /// Withdrawals from a table with verdict 2, in this order. Gives how many were tried.
    fn withdraw(&mut self, order: &[u32]) -> Result<u64> {
        let ring = self.table.members();
        let (r, m) = (self.table.words()[R] as usize, ring.len());
        let promised = (r - 1).min(m - r - 1);
        let mut gone = vec![false; m];
        let mut granted = 0;
        for &x in order {
            let at = ring.iter().position(|&id| id == x).expect("a member");
            let before = self.table.clone();
            let given = self.table.call("leave", &[x], |c, t| (c.leave)(t, x))?;
            let told =
                format!("{x} after {granted} of {m}, {promised} promised, is given {given:?}");
            if granted < promised && given.number != 0 {
                return before.wrong("leave", told);
            }
            gone[at] = true;
            let cut_off = (0..m).any(|p| !gone[p] && (1..=r).all(|k| gone[(p + k) % m]));
            let few = m - granted - 1 < r + 1;
            let number = if cut_off { 6 } else { 7 * few as u32 };
            if number != 0 {
                let refused = (given.number, given.count, given.values) == (number, 0, [0; 4]);
                if !refused || !self.table.equals(&before) {
                    let what = format!("{told}, not {number}, or a word is written");
                    return before.wrong("leave", what);
                }
                gone[at] = false;
                self.refused(number, few, granted, m);
                continue;
            }
            granted += 1;
            let left = [(m - granted) as u32, 0, 0, 0];
            if (given.number, given.count, given.values) != (0, 1, left) {
                return before.wrong("leave", format!("{told}, and {} are left", left[0]));
            }
            if self.table.words() != without(before.words(), x) {
                return before.wrong("leave", format!("{told}, and other words are left"));
            }
            self.verdict()?;
            self.granted(&gone, granted, promised);
        }
        Ok(order.len() as u64)
    }

    fn refused(&mut self, number: u32, few: bool, granted: usize, m: usize) {
        let r = self.table.words()[R] as usize;
        let (six, seven) = (number == 6, number == 7);
        let last = seven && granted > 0;
        for (hold, name) in [
            (six && r > 1 && granted == r - 1, "6 for the last of r neighbours"),
            (six && r == 1, "6 with r = 1"),
            (six && few, "6 where 7 applies too"),
            (last, "7 after m - r - 1"),
            (last && m - r - 1 < r - 1, "7 after m - r - 1, fewer than r - 1"),
            (seven && granted == 0, "7 with r + 1 members"),
        ] {
            if hold {
                self.shapes.meet(name);
            }
        }
    }

    fn granted(&mut self, gone: &[bool], granted: usize, promised: usize) {
        let (r, m) = (self.table.words()[R] as usize, gone.len());
        // All that went, from the place after one that did not.
        let neighbours =
            granted > 1 && (0..m).any(|p| !gone[p] && (1..=granted).all(|k| gone[(p + k) % m]));
        let all = granted == r - 1;
        for (hold, name) in [
            (granted == promised, "all promised are granted"),
            (all, "r - 1 are granted"),
            (all && r == 8, "7 of r = 8 are granted"),
            (all && neighbours, "r - 1 neighbours are granted"),
            (all && neighbours && r == 8, "7 neighbours of r = 8 are granted"),
            (neighbours && gone[0] && gone[m - 1], "neighbours round the end are granted"),
            (all && neighbours && m == 256, "r - 1 neighbours of 256 are granted"),
            (granted == promised && promised < r - 1, "m - r - 1 are granted, fewer than r - 1"),
            (granted == r, "r are granted"),
        ] {
            if hold {
                self.shapes.meet(name);
            }
        }
    }
}

/// Members in the order in which they are to withdraw, past what is promised:
/// neighbours upwards or downwards; or neighbours before others in any order; or any.
fn some_order(random: &mut Random, ids: &[u32], r: usize, ways: usize) -> Vec<u32> {
    let mut order = ids.to_vec();
    order.rotate_left(random.below(ids.len()));
    let mixed = match random.below(ways) {
        0 => 0,
        1 => {
            order.reverse();
            0
        }
        2 | 3 => r,
        _ => ids.len(),
    };
    for i in 1..mixed {
        order.swap(i, random.below(i + 1));
    }
    order.truncate(r + 1 + random.below(4));
    order
}

impl Compare {
    /// One run, from a new table or a settled one; or, if it is to be full, from a new
    /// table of 256 members, of neighbours.
    pub fn withdrawals(&mut self, random: &mut Random, full: bool) -> Result<()> {
        let least = if full { 3 } else { 1 };
        let r = if random.one_in(6) { 8 } else { random.range(least, 8) };
        let n = match random.below(3) {
            _ if full => 256,
            0 => r + 1 + random.below(r),
            _ => r + 1 + random.below(16),
        };
        let ids = Space::any(random, 3 * n).rising(random, n);
        let room = if full { 0 } else { random.below(6) * layout::width(r) + random.below(3) };
        let words = make::junk(random, layout::size(r, n) + room);
        let table = Lone::new(self, random, words);
        let guards = table.outside();
        let mut run = Run { shapes: &mut self.withdrawals.shapes, table };
        run.table.accepted("new", &[r as u32], |c, t| (c.new)(t, r as u32, &ids))?;
        if run.verdict()? != 2 {
            return run.table.wrong("audit", "a new table is not ideal".to_string());
        }
        if full || random.one_in(3) {
            run.shapes.meet("a new table");
        } else {
            let joins = random.one_in(2);
            for _ in 0..random.range(1, 24) {
                run.some_call(random, joins)?;
            }
            if run.settle_late(random)? != 2 {
                run.settle(random)?;
            }
        }
        if full {
            run.shapes.meet("256 members");
        }
        if records(run.table.words()).any(|m| m[PENDING] == 1) {
            run.shapes.meet("a pending step");
        }
        let ways = if full { 2 } else { 5 };
        let order = some_order(random, &run.table.members(), r, ways);
        let made = run.withdraw(&order)?;
        if run.table.outside() != guards {
            let what = "a word outside is written".to_string();
            return run.table.wrong("one of these calls", what);
        }
        self.withdrawals.made += made;
        Ok(())
    }
}
