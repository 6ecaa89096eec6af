//! Rounds and settle: one call on both sides, and what a run must meet of them, read off
//! the words.

use super::find::first_live;
use super::ideal::same_order;
use super::join::is_member;
use super::shapes::Shapes;
use super::{nothing, Compare, Outcome, Piece, Result};
use crate::layout::{list, records, CANDIDATE, COUNT, ID, LIST, PENDING, R};
use crate::reference::{self, Answer};

/// Each call counts for those that hold of its table, its limit and its answer. What
/// stands with 14 alone is all that the table lacks.
const SHAPES: [&str; 29] = [
    "1 with limit 0",
    "14 with limit 0",
    "14 with no members",
    "14 with 256 members",
    "14 on a table that is ideal but for its candidates",
    "14, a list without a live entry alone",
    "14, r principals alone",
    "14, a candidate alone",
    "a round on an ideal table",
    "a round on an ideal table clears a dead candidate",
    "a round leaves verdict 1",
    "a round brings verdict 2",
    "a round of 256 members",
    "settle of an ideal table",
    "settle of an ideal table with a pending step",
    "limit 0 with verdict 1",
    "limit 0 with verdict 2",
    "the limit reached with verdict 1",
    "the limit reached with verdict 2",
    "fewer rounds than the limit",
    "rounds run with limit 256",
    "rounds run with limit 65536",
    "rounds run with limit 4294967295",
    "members - 1 rounds",
    "members - 1 rounds of r = 1",
    "members - 1 rounds of r = 8",
    "members - principals + r rounds, fewer than members - 1",
    "256 members",
    "255 rounds",
];

/// What a settle must meet of the dead entries that its members pass over as it begins.
const PASSED: [&str; 16] = [
    "limit 0, some",
    "limit 0 with verdict 1, none",
    "verdict 2, none",
    "rounds run, some",
    "rounds run, none, dead entries after live ones",
    "rounds run, some, dead entries after live ones too",
    "the limit reached with verdict 1, some",
    "the lowest member's alone",
    "the highest member's alone",
    "one member's alone, r - 1 of r = 8",
    "each member's",
    "each member's, r - 1",
    "a pending member's",
    "those of a member that is no one's first live entry",
    "more than 255",
    "1792",
];

/// Of tables with more members than this is not asked what they lack.
const MANY: usize = 40;

/// The calls so far.
pub struct Settles {
    shapes: Shapes<{ SHAPES.len() }>,
    passed: Shapes<{ PASSED.len() }>,
}

/// What a table lacks to be sound: live entries, principals, candidates inside.
fn lacks(words: &[u32]) -> [bool; 3] {
    let live = records(words).all(|m| list(m).iter().any(|&e| is_member(words, e)));
    let principals = reference::audit(words).values[1];
    let inside = |m: &[u32]| m[PENDING] == 0 || reference::between(m[ID], m[CANDIDATE], m[LIST]);
    [!live, principals <= words[R], !records(words).all(inside)]
}

impl Settles {
    pub fn new() -> Settles {
        Settles { shapes: Shapes::new(SHAPES), passed: Shapes::new(PASSED) }
    }

    pub fn never_met(&self) -> Option<&'static str> {
        self.shapes.never_met().or(self.passed.never_met())
    }

    pub fn told(&self) -> String {
        format!("{}; passed: {}", self.shapes.told(), self.passed.told())
    }

    /// Counts an accepted settle by what its members pass over.
    fn count_passed(&mut self, table: &[u32], limit: u32, [ran, verdict, ..]: [u32; 4]) {
        let firsts: Vec<(&[u32], usize)> =
            records(table).map(|m| (m, first_live(table, list(m)).unwrap_or(0))).collect();
        let each = || firsts.iter().map(|first| first.1);
        let (n, r) = (firsts.len(), table[R] as usize);
        let sum: usize = each().sum();
        let passing = each().filter(|&count| count > 0).count();
        let some = sum > 0;
        let late = |&(m, first): &(&[u32], usize)| {
            list(m)[first..].iter().any(|&entry| !is_member(table, entry))
        };
        let late = ran > 0 && n <= MANY && firsts.iter().any(late);
        let named = |id: u32| firsts.iter().any(|&(m, first)| list(m)[first] == id);
        let pending = firsts.iter().any(|&(m, first)| first > 0 && m[PENDING] == 1);
        let unnamed = firsts.iter().any(|&(m, first)| first > 0 && !named(m[ID]));
        self.passed.count([
            limit == 0 && some,
            limit == 0 && verdict == 1 && !some,
            ran == 0 && verdict == 2 && !some,
            ran > 0 && some,
            late && !some,
            late && some,
            limit > 0 && ran == limit && verdict == 1 && some,
            passing == 1 && firsts[0].1 > 0,
            passing == 1 && firsts[n - 1].1 > 0,
            passing == 1 && sum == 7,
            passing == n,
            r > 1 && each().all(|count| count == r - 1),
            pending,
            unnamed,
            sum > 255,
            sum == 1792,
        ]);
    }

    /// Counts a round, which has no limit, or a settle.
    fn count(&mut self, table: &[u32], limit: Option<u32>, answer: &Answer) {
        let number = answer.number;
        let none = limit == Some(0);
        if number == 1 {
            if none {
                self.shapes.meet("1 with limit 0");
            }
            return;
        }
        let (r, members) = (table[R], table[COUNT]);
        let full = members == 256;
        let fourteen = number == 14;
        let known = fourteen && (1..=MANY as u32).contains(&members);
        let lacks = if known { lacks(table) } else { [false; 3] };
        let as_new = known && {
            let mut new = table.to_vec();
            let ids: Vec<u32> = records(table).map(|m| m[ID]).collect();
            let made = reference::new(&mut new, r, &ids).number == 0;
            made && records(table).zip(records(&new)).all(same_order)
        };
        let pending = records(table).any(|m| m[PENDING] == 1);
        let round = number == 0 && limit.is_none();
        let settle = number == 0 && limit.is_some();
        let given = limit.unwrap_or(0);
        let ran = if settle { answer.values[0] } else { 0 };
        let verdict = answer.values[settle as usize];
        let ideal =
            if round { reference::is_sound_and_ideal(table) } else { ran == 0 && verdict == 2 };
        // Fewer rounds than this need no look at the principals.
        let enough = match settle && verdict == 2 && ran >= r {
            true => members - reference::audit(table).values[1] + r,
            false => 0,
        };
        let exact = enough > 0 && ran == enough;
        let most = exact && ran == members - 1;
        self.shapes.count([
            false,
            fourteen && none,
            fourteen && members == 0,
            fourteen && full,
            as_new && lacks == [false, false, true],
            lacks == [true, false, false],
            lacks == [false, true, false],
            lacks == [false, false, true],
            round && ideal && !pending,
            round && ideal && pending,
            round && !ideal && verdict == 1,
            round && !ideal && verdict == 2,
            round && full,
            settle && ideal && given > 0,
            settle && ideal && given > 0 && pending,
            settle && none && verdict == 1,
            settle && none && verdict == 2,
            settle && given > 0 && ran == given && verdict == 1,
            settle && given > 0 && ran == given && verdict == 2,
            settle && ran > 0 && ran < given,
            ran > 0 && given == 256,
            ran > 0 && given == 65536,
            ran > 0 && given == u32::MAX,
            most,
            most && r == 1,
            most && r == 8,
            exact && !most,
            settle && full && ran > 0,
            full && ran == 255,
        ]);
    }
}

impl Compare {
    pub fn round(&mut self, table: &Piece<u32>) -> Result<Outcome<u32, u32>> {
        let outcome = self.on_table("round", &[], table, &nothing(), |c, t, _| (c.round)(t))?;
        self.settles.count(table.slice(), None, &outcome.answer);
        Ok(outcome)
    }

    pub fn settle(&mut self, table: &Piece<u32>, limit: u32) -> Result<Outcome<u32, u32>> {
        let outcome = self.on_table("settle", &[limit as u64], table, &nothing(), |c, t, _| {
            (c.settle)(t, limit)
        })?;
        self.settles.count(table.slice(), Some(limit), &outcome.answer);
        if outcome.answer.number == 0 {
            self.settles.count_passed(table.slice(), limit, outcome.answer.values);
        }
        Ok(outcome)
    }
}
