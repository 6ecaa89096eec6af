//! Joins: one call on both sides, what a run must meet of them, and what holds of
//! a table after an accepted one. What the shapes say is read off the words here.

use super::shapes::Shapes;
use super::{nothing, Compare, Outcome, Piece, Result};
use crate::layout::{self, list, record, records, CANDIDATE, COUNT, ID, LIST, PENDING, R};
use crate::reference::{self, Answer};

/// Each call counts for those that hold of its table and its answer. An entry is
/// the first entry of p, and too few are the words after the last record.
const SHAPES: [&str; 36] = [
    "13 on a sound table",
    "13 on a table not sound",
    "13 with r = 1",
    "13 with r = 8",
    "13 with one member",
    "13 with 256 members",
    "13 with too few words",
    "13 with 256 members and too few words",
    "13 with 256 members of r = 8 and too few words",
    "13 with a live entry after it",
    "13 with no live entry",
    "13 while a live candidate is pending",
    "13 with the entry right after the last record",
    "13 round the end",
    "13 with the entry next to a member",
    "13 with the entry above all members",
    "13 with the entry below all members",
    "13 with the entry 0",
    "13 with the entry 4294967295",
    "4 with a dead entry",
    "4 with a dead entry and 256 members",
    "4 with a dead entry and too few words",
    "2 with a dead entry",
    "2 with p no member",
    "3 with p the dead first entry of a member",
    "5 with 256 members",
    "5 with too few words",
    "5 with 256 members and too few words",
    "accepted with a later entry dead",
    "accepted round the end, j above p",
    "accepted round the end, j below p",
    "accepted with p its own first entry",
    "accepted with the entry not the next member",
    "accepted with the entry the lowest member",
    "accepted with the entry the highest member",
    "accepted as member 256",
];

/// How the same join ended after one declined by 13 and steps of p.
const LATER: [&str; 4] =
    ["13, again, accepted", "13, again, 4", "13, again, 5", "13, a pending step, 13"];

/// Of tables with more members than this is not asked whether they are sound.
const MANY: usize = 40;

/// The joins so far.
pub struct Joins {
    shapes: Shapes<{ SHAPES.len() }>,
    later: Shapes<{ LATER.len() }>,
}

pub fn is_member(words: &[u32], id: u32) -> bool {
    record(words, id).is_some()
}

/// The member p's first entry, and whether it is a member.
pub fn first_entry(words: &[u32], p: u32) -> Option<(u32, bool)> {
    record(words, p).map(|record| (record[LIST], is_member(words, record[LIST])))
}

/// What holds after an accepted join: the new member's first entry is p's, and is
/// a member.
pub fn joined(words: &[u32], j: u32, p: u32) -> std::result::Result<(), String> {
    match (first_entry(words, j), first_entry(words, p)) {
        (Some((own, true)), Some((first, _))) if own == first => Ok(()),
        (own, first) => {
            Err(format!("{j} joined by {p} before {own:?}, and {p} is before {first:?}"))
        }
    }
}

impl Joins {
    pub fn new() -> Joins {
        Joins { shapes: Shapes::new(SHAPES), later: Shapes::new(LATER) }
    }

    pub fn never_met(&self) -> Option<&'static str> {
        self.shapes.never_met().or(self.later.never_met())
    }

    pub fn told(&self) -> String {
        format!("{}; later: {}", self.shapes.told(), self.later.told())
    }

    fn count(&mut self, table: &Piece<u32>, j: u32, p: u32, answer: &Answer) {
        let words = table.slice();
        let number = answer.number;
        if number == 1 {
            return;
        }
        let by = record(words, p);
        let (r, members) = (words[R] as usize, words[COUNT] as usize);
        let after = layout::rest(words);
        let (full, short) = (members == 256, after.len() < layout::width(r));
        let (lowest, highest) = (records(words).next(), records(words).last());
        let (lowest, highest) = (lowest.map_or(0, |m| m[ID]), highest.map_or(0, |m| m[ID]));

        let entry = by.map_or(0, |by| by[LIST]);
        let live = is_member(words, entry);
        let later = by.map_or(&[][..], |by| &list(by)[1..]);
        let dead = by.is_some() && !live;
        let (accepted, thirteen) = (number == 0, number == 13);
        let (four, five) = (number == 4 && dead, number == 5);
        let beside = [entry.wrapping_add(1), entry.wrapping_sub(1)];
        let known = thirteen && members <= MANY;
        let sound = known && reference::is_sound(words);
        let next = records(words).map(|m| m[ID]).find(|&id| id > p).unwrap_or(lowest);
        self.shapes.count([
            known && sound,
            known && !sound,
            thirteen && r == 1,
            thirteen && r == 8,
            thirteen && members == 1,
            thirteen && full && !short,
            thirteen && !full && short,
            thirteen && full && short,
            thirteen && full && short && r == 8,
            thirteen && later.iter().any(|&e| is_member(words, e)),
            thirteen && !later.iter().any(|&e| is_member(words, e)),
            thirteen && by.is_some_and(|by| by[PENDING] == 1 && is_member(words, by[CANDIDATE])),
            thirteen && after.first() == Some(&entry),
            thirteen && entry <= p,
            thirteen && beside.iter().any(|&id| is_member(words, id)),
            thirteen && entry > highest,
            thirteen && entry < lowest,
            thirteen && entry == 0,
            thirteen && entry == u32::MAX,
            four,
            four && full,
            four && short,
            number == 2 && dead,
            number == 2 && by.is_none(),
            number == 3 && records(words).any(|m| m[LIST] == p),
            five && full && !short,
            five && !full && short,
            five && full && short,
            accepted && later.iter().any(|&e| !is_member(words, e)),
            accepted && entry < p && j > p,
            accepted && entry < p && j < p,
            accepted && entry == p,
            accepted && entry != next,
            accepted && entry == lowest,
            accepted && entry == highest,
            accepted && members == 255,
        ]);
    }
}

impl Compare {
    pub fn join(&mut self, table: &Piece<u32>, j: u32, p: u32) -> Result<Outcome<u32, u32>> {
        let arguments = [j as u64, p as u64];
        let outcome =
            self.on_table("join", &arguments, table, &nothing(), |c, t, _| (c.join)(t, j, p))?;
        self.joins.count(table, j, p, &outcome.answer);
        if outcome.answer.number == 0 {
            let words = &outcome.first;
            joined(words, j, p)
                .map_err(|what| format!("DIFFERENCE in join, {what}\n  table {words:?}\n"))?;
        }
        Ok(outcome)
    }

    /// The steps of p up to the first that does not say again, which may never come: what they
    /// leave, and how often p said again.
    pub fn steps_of(&mut self, table: &Piece<u32>, p: u32) -> Result<(Piece<u32>, usize)> {
        let mut t = table.clone();
        let mut agains = 0;
        // One more than the list has entries; those appended may be dead too.
        for _ in 0..=t.all[R] {
            let step = self.stabilize(&t, p)?;
            t.all[..t.len].copy_from_slice(&step.first);
            if step.answer.values[0] != 0 {
                break;
            }
            agains += 1;
        }
        Ok((t, agains))
    }

    /// A join; if 13 declines it, the steps of p, and the same join once more.
    pub fn join_after_steps(&mut self, table: &Piece<u32>, j: u32, p: u32) -> Result<()> {
        if self.join(table, j, p)?.answer.number != 13 {
            return Ok(());
        }
        let pending = record(table.slice(), p).is_some_and(|by| by[PENDING] == 1);
        let (t, agains) = self.steps_of(table, p)?;
        let number = self.join(&t, j, p)?.answer.number;
        if !matches!(number, 0 | 4 | 5 | 13) {
            return Err(format!("DIFFERENCE in join, {number} after steps of {p}\n  {t:?}\n"));
        }
        self.joins.later.count([
            agains > 0 && number == 0,
            agains > 0 && number == 4,
            agains > 0 && number == 5,
            pending && agains == 0 && number == 13,
        ]);
        Ok(())
    }
}
