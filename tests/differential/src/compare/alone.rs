//! Runs of the library alone, from a new table. Losses are only those that a
//! withdrawal is granted. From one loss to the next, while only joins, stabilize and
//! rectify steps and rounds at open minutes are made:
//! - a member whose first entry was live never says again, so a new one never does;
//! - another says again fewer than r times;
//! - 13 declines a join behind a dead first entry, and no other;
//! - r steps of p are enough to make its first entry a member, and then 13 no
//!   longer declines a join by p;
//! - a round leaves each first entry live.

use super::join::{first_entry, is_member, joined};
use super::lone::Lone;
use super::shapes::Shapes;
use super::{Compare, Result};
use crate::calls::Calls;
use crate::layout::{self, record, records, CANDIDATE, COUNT, ID, LIST, PENDING, R};
use crate::make::{self, Space};
use crate::random::Random;
use std::collections::{BTreeMap, BTreeSet};

/// What these runs must meet.
const SHAPES: [&str; 9] = [
    "joins",
    "steps of a new member",
    "agains of a member with a dead first entry",
    "candidates that are no member",
    "losses",
    "rounds at open minutes",
    "13",
    "13, again, accepted",
    "13, a pending step and again, accepted",
];

/// The runs so far.
pub struct Alone {
    shapes: Shapes<{ SHAPES.len() }>,
    pub runs: u64,
}

impl Alone {
    pub fn new() -> Alone {
        Alone { shapes: Shapes::new(SHAPES), runs: 0 }
    }

    pub fn never_met(&self) -> Option<&'static str> {
        self.shapes.never_met()
    }

    pub fn told(&self) -> String {
        self.shapes.told()
    }
}

/// One run.
struct Run<'a> {
    shapes: &'a mut Shapes<{ SHAPES.len() }>,
    table: Lone,
    /// Since the last loss: members whose first entry was live, those that
    /// joined, and how often a member said again.
    settled: BTreeSet<u32>,
    joined: BTreeSet<u32>,
    agains: BTreeMap<u32, u32>,
}

impl Run<'_> {
    /// One step of a member.
    fn step(&mut self, n: u32) -> Result<()> {
        if first_entry(self.table.words(), n).is_some_and(|(_, live)| live) {
            self.settled.insert(n);
        }
        let words = self.table.words();
        let r = words[R];
        let unseen =
            record(words, n).is_some_and(|m| m[PENDING] == 1 && !is_member(words, m[CANDIDATE]));
        let said = self.table.accepted("stabilize", &[n], |c, t| (c.stabilize)(t, n))?[0];
        if said == 0 && self.settled.contains(&n) {
            let new = if self.joined.contains(&n) { "new " } else { "" };
            return self.table.wrong("stabilize", format!("the {new}member {n} says again"));
        }
        if self.joined.contains(&n) {
            self.shapes.meet("steps of a new member");
        }
        if unseen {
            self.shapes.meet("candidates that are no member");
        }
        if said == 0 {
            self.shapes.meet("agains of a member with a dead first entry");
            let agains = self.agains.entry(n).or_default();
            *agains += 1;
            if *agains >= r {
                return self.table.wrong("stabilize", format!("{n} says again {r} times"));
            }
        }
        Ok(())
    }

    /// A join of j by the member p, where j lies between p and p's first entry.
    /// Gives its number.
    fn join(&mut self, j: u32, p: u32) -> Result<u32> {
        let before = self.table.clone();
        let known = is_member(self.table.words(), j);
        let live = first_entry(self.table.words(), p).is_some_and(|(_, live)| live);
        let number = self.table.call("join", &[j, p], |c, t| (c.join)(t, j, p))?.number;
        let told = format!("{j} by {p} is given {number}");
        if number != 0 && !before.equals(&self.table) {
            return self.table.wrong("join", format!("{told}, and a word is written"));
        }
        if !known && (number == 13) == live {
            return self.table.wrong("join", told);
        }
        if number == 13 {
            self.shapes.meet("13");
        }
        if number == 0 {
            if let Err(what) = joined(self.table.words(), j, p) {
                return self.table.wrong("join", what);
            }
            self.settled.insert(j);
            self.joined.insert(j);
            self.shapes.meet("joins");
        }
        Ok(number)
    }

    /// A join of an identifier after the member p and before its first entry; if
    /// 13 declines it, more often than not steps of p until its first entry is a
    /// member, and the join once more.
    fn some_join(&mut self, random: &mut Random, p: u32) -> Result<()> {
        let (first, _) = first_entry(self.table.words(), p).expect("p is a member");
        let way = first.wrapping_sub(p).wrapping_sub(1);
        if way == 0 {
            return Ok(());
        }
        let anywhere = random.below(way as usize) as u32;
        let ahead = random.pick(&[anywhere, anywhere, 0, way - 1]);
        let j = p.wrapping_add(1 + ahead);
        if self.join(j, p)? != 13 || random.one_in(4) {
            return Ok(());
        }
        let pending = record(self.table.words(), p).is_some_and(|m| m[PENDING] == 1);
        // r steps are enough: a pending one, and fewer agains than the list has
        // entries.
        for _ in 0..self.table.words()[R] {
            if first_entry(self.table.words(), p).is_some_and(|(_, live)| live) {
                break;
            }
            self.step(p)?;
        }
        let Some((first, true)) = first_entry(self.table.words(), p) else {
            return self.table.wrong("stabilize", format!("{p} keeps a dead first entry"));
        };
        // A candidate that was adopted may stand before j.
        let way = first.wrapping_sub(p).wrapping_sub(1);
        if ahead < way && self.join(j, p)? == 0 {
            self.shapes.meet(match pending {
                false => "13, again, accepted",
                true => "13, a pending step and again, accepted",
            });
        }
        Ok(())
    }

    /// The loss of a member, if its withdrawal would be granted.
    fn some_loss(&mut self, n: u32) -> Result<()> {
        let before = self.table.clone();
        let granted = self.table.call("leave", &[n], |c, t| (c.leave)(t, n))?.number == 0;
        self.table = before;
        if granted {
            self.table.accepted("fail", &[n], |c, t| (c.fail)(t, n))?;
            self.shapes.meet("losses");
        }
        Ok(())
    }

    /// Settle with windows and an open minute or two. Its rounds are steps and notices, and leave
    /// each first entry live.
    fn some_rounds(&mut self, random: &mut Random) -> Result<()> {
        let windows = make::good_windows(random);
        let open = random.range(1, 2);
        let list = make::minutes_of(random, windows.slice(), open, 1);
        let minutes = make::lent_minutes(random, list);
        let call = |c: &Calls, t: &mut [u32]| (c.settle_at)(t, windows.slice(), minutes.slice());
        if self.table.accepted("settle_at", &[], call)?[0] == 0 {
            return Ok(());
        }
        let words = self.table.words();
        if let Some(own) = records(words).find(|m| !is_member(words, m[LIST])) {
            let what = format!("{} keeps a dead first entry", own[ID]);
            return self.table.wrong("settle_at", what);
        }
        self.settled.extend(self.table.members());
        self.shapes.meet("rounds at open minutes");
        Ok(())
    }

    /// The table must be sound.
    fn sound(&mut self) -> Result<()> {
        let verdict = self.table.accepted("audit", &[], |c, t| (c.audit)(t))?[3];
        if verdict == 0 || self.table.words()[COUNT] == 0 {
            return self.table.wrong("audit", "not sound".to_string());
        }
        Ok(())
    }

    /// From here on no member is lost.
    fn no_more_losses(&mut self) {
        self.joined.clear();
        self.agains.clear();
        let words = self.table.words();
        self.settled =
            records(words).filter(|m| is_member(words, m[LIST])).map(|m| m[ID]).collect();
    }

    fn some_call(&mut self, random: &mut Random, space: Space) -> Result<()> {
        let members = self.table.members();
        let n = random.pick(&members);
        match random.below(10) {
            0..=2 => {
                // Those behind a dead first entry more often than the others.
                let words = self.table.words();
                let behind = records(words).filter(|m| !is_member(words, m[LIST])).map(|m| m[ID]);
                let behind: Vec<u32> = behind.collect();
                let p = match behind.is_empty() || random.one_in(2) {
                    true => n,
                    false => random.pick(&behind),
                };
                self.some_join(random, p)
            }
            3..=7 => {
                // New members more often than the others.
                let new: Vec<u32> = self.joined.iter().copied().collect();
                let n = if new.is_empty() || random.one_in(2) { n } else { random.pick(&new) };
                self.step(n)
            }
            8 if random.one_in(12) => self.some_rounds(random),
            _ => {
                // A notice from a member or from anybody.
                let q = if random.one_in(3) { space.pick(random) } else { random.pick(&members) };
                self.table.accepted("rectify", &[n, q], |c, t| (c.rectify)(t, n, q)).map(|_| ())
            }
        }
    }
}

impl Compare {
    pub fn alone(&mut self, random: &mut Random) -> Result<()> {
        let r = random.range(1, 8);
        let n = r + 2 + random.below(10);
        let space = Space::any(random, 3 * n);
        let ids = space.rising(random, n);
        let most = n + random.range(1, 12);
        let words = make::junk(random, layout::size(r, most));
        let table = Lone::new(self, random, words);
        let guards = table.outside();
        let mut run = Run {
            shapes: &mut self.alone.shapes,
            table,
            settled: BTreeSet::new(),
            joined: BTreeSet::new(),
            agains: BTreeMap::new(),
        };
        run.table.accepted("new", &[r as u32], |c, t| (c.new)(t, r as u32, &ids))?;
        for _ in 0..random.range(2, 6) {
            // Neighbours, so that lists lose their fronts; sometimes those that a
            // member with a pending step stands before.
            let members = run.table.members();
            let waiting = records(run.table.words()).filter(|m| m[PENDING] == 1).map(|m| m[LIST]);
            let ahead = waiting.filter_map(|id| members.iter().position(|&known| known == id));
            let ahead: Vec<usize> = ahead.collect();
            let at = match ahead.is_empty() || random.one_in(2) {
                true => random.below(members.len()),
                false => random.pick(&ahead),
            };
            for k in 0..random.below(r + 2) {
                run.some_loss(members[(at + k) % members.len()])?;
            }
            run.sound()?;
            run.no_more_losses();
            for _ in 0..random.range(5, 40) {
                run.some_call(random, space)?;
            }
            run.sound()?;
        }
        if run.table.outside() != guards {
            let what = "a word outside is written".to_string();
            return run.table.wrong("one of these calls", what);
        }
        self.alone.runs += 1;
        Ok(())
    }
}
