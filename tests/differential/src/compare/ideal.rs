//! Audits and findings: one call on both sides, the verdict held to the words, and
//! what a run must meet of it: ideal tables, and those that one word keeps from that.
//! A late entry is one after the first.

use super::join::is_member;
use super::shapes::Shapes;
use super::{nothing, Compare, Outcome, Piece, Result};
use crate::layout::{list, record_at, records, COUNT, ID, LIST, PENDING, PREDECESSOR, R};
use crate::reference::{Answer, Finding};

/// Each call counts for those that hold of its table and its verdict. Alone is what
/// differs from the ideal where all else does not.
const SHAPES: [&str; 34] = [
    "no members",
    "ideal, a single member",
    "ideal, 2 to r - 1 members",
    "ideal, r members",
    "ideal, r or fewer members, pending",
    "ideal, more members, not sound",
    "2 with r = 1",
    "2 with r = 8",
    "2 with r + 1 members",
    "2 with 256 members",
    "2 with 256 members of r = 8",
    "2 with a member pending",
    "2 with the highest member pending",
    "2 with all members pending",
    "1, a dead late entry alone",
    "1, another member as last entry alone",
    "1, a late entry alone, its member pending",
    "1, a late entry alone, another member pending",
    "1, a late entry alone, of a list up to the highest member",
    "1, a late entry alone, of a list one past the highest member",
    "1, a late entry alone, 256 members, the lowest's",
    "1, a late entry alone, 256 members, the highest's",
    "1, a late entry alone, 256 members, another's",
    "1, the last entry of the highest of 256 members of r = 8 alone",
    "1, late entries alone, all members",
    "1, a first entry alone",
    "1, the lowest member's predecessor alone",
    "1, the highest member's predecessor alone",
    "1, another's predecessor alone",
    "0, a dead late entry alone",
    "0, another member as late entry alone",
    "0, the member itself as late entry alone",
    "0, a late entry alone, r or fewer members",
    "0, two late entries exchanged",
];

/// Of tables with more members than this is not asked whether all entries are live.
const MANY: usize = 40;

/// The members that a late entry is looked for at.
const PLACES: [&str; 4] = [
    "the lowest member's",
    "a member's between, before the end,",
    "a member's between, round the end,",
    "the highest member's",
];

/// The audits so far. By r, entry and place: those with verdict 1 that a late entry
/// alone kept from 2. By r and members: ideal tables of r or fewer.
pub struct Ideals {
    shapes: Shapes<{ SHAPES.len() }>,
    late: [[[u64; PLACES.len()]; 8]; 9],
    few: [[u64; 9]; 9],
}

/// Where a table differs from the ideal one of its members.
#[derive(Default)]
struct Off {
    predecessors: usize,
    firsts: usize,
    lates: usize,
    /// The member that differs last, and the first two late entries that do, as
    /// member and place in its list.
    member: usize,
    late: [(usize, usize); 2],
}

/// Have two records the same identifier, predecessor and list?
pub fn same_order((a, b): (&[u32], &[u32])) -> bool {
    [ID, PREDECESSOR].iter().all(|&word| a[word] == b[word]) && list(a) == list(b)
}

impl Off {
    /// Nothing if two predecessors or first entries differ, or one of each.
    fn of(words: &[u32]) -> Option<Off> {
        let mut off = Off::default();
        let mut below = records(words).last().map_or(0, |m| m[ID]);
        let mut above = records(words);
        for (i, m) in records(words).enumerate() {
            above.next();
            if m[PREDECESSOR] != below {
                off.predecessors += 1;
                off.member = i;
            }
            below = m[ID];
            let ahead = above.clone().chain(records(words).cycle());
            for (k, (&entry, due)) in list(m).iter().zip(ahead).enumerate() {
                if entry == due[ID] {
                    continue;
                }
                off.member = i;
                if k == 0 {
                    off.firsts += 1;
                } else {
                    if off.lates < 2 {
                        off.late[off.lates] = (i, k);
                    }
                    off.lates += 1;
                }
            }
            if off.predecessors + off.firsts > 1 {
                return None;
            }
        }
        Some(off)
    }

    /// The counts of each sort.
    fn all(&self) -> [usize; 3] {
        [self.predecessors, self.firsts, self.lates]
    }
}

impl Ideals {
    pub fn new() -> Ideals {
        Ideals { shapes: Shapes::new(SHAPES), late: [[[0; PLACES.len()]; 8]; 9], few: [[0; 9]; 9] }
    }

    pub fn never_met(&self) -> Option<&'static str> {
        self.shapes.never_met()
    }

    /// Each late entry of each r and place with how often it came up, and each ideal
    /// table of r or fewer members.
    fn kinds(&self) -> Vec<(u64, String)> {
        let mut kinds = Vec::new();
        for r in 1..=8 {
            for entry in 1..r {
                for (place, name) in PLACES.iter().enumerate() {
                    let what = format!("1, {name} entry {} of {r} alone", entry + 1);
                    kinds.push((self.late[r][entry][place], what));
                }
            }
            for n in 1..=r {
                kinds.push((self.few[r][n], format!("ideal, r = {r} and {n} members")));
            }
        }
        kinds
    }

    pub fn kinds_never_met(&self) -> Option<String> {
        self.kinds().into_iter().find(|kind| kind.0 == 0).map(|kind| format!("ideal: {}", kind.1))
    }

    pub fn told(&self) -> String {
        let kinds = self.kinds();
        let least = kinds.iter().map(|kind| kind.0).min().unwrap_or(0);
        let told = self.shapes.told();
        format!("{told}; {} late entries and small tables, each {least} times or more", kinds.len())
    }

    /// Counts a table by its verdict, which must be 2 where it is sound and nothing
    /// differs, and nowhere else.
    fn count(&mut self, words: &[u32], verdict: u32) -> std::result::Result<(), String> {
        let (r, n) = (words[R] as usize, words[COUNT] as usize);
        let off = Off::of(words);
        let ideal = off.as_ref().is_some_and(|off| off.all() == [0, 0, 0]);
        if verdict > 0 && ideal != (verdict == 2) {
            let so = if ideal { "are" } else { "are not all" };
            return Err(format!("verdict {verdict}, and lists and predecessors {so} ideal"));
        }
        let Some(off) = off else {
            return Ok(());
        };
        let [zero, one, two] = [0, 1, 2].map(|of| verdict == of);
        let word = |i: usize, at: usize| words[record_at(r, i) + at];
        let pending = |i: usize| word(i, PENDING) == 1;
        let waiting = (0..n).filter(|&i| pending(i)).count();
        let few = n > 0 && n <= r;

        let (lowest, highest) = (off.member == 0, off.member + 1 == n);
        let full = n == 256;
        let alone = off.all() == [0, 0, 1];
        let (i, k) = off.late[0];
        let entry = |i: usize, k: usize| word(i, LIST + k);
        let own = alone && entry(i, k) == word(i, ID);
        let dead = alone && !is_member(words, entry(i, k));
        let other = alone && !own && !dead;
        let last = k + 1 == r;
        let exchanged = off.all() == [0, 0, 2] && {
            let (j, l) = off.late[1];
            let due = |k: usize| word((i + 1 + k) % n, ID);
            i == j && entry(i, k) == due(l) && entry(i, l) == due(k)
        };
        let stale = one && off.all() == [0, 0, off.lates] && off.lates > 1 && n <= MANY;
        let predecessor = one && off.all() == [1, 0, 0];
        self.shapes.count([
            n == 0,
            ideal && n == 1,
            ideal && few && n > 1 && n < r,
            ideal && few && n > 1 && n == r,
            ideal && few && waiting > 0,
            ideal && n > r && zero,
            two && r == 1,
            two && r == 8,
            two && n == r + 1,
            two && full,
            two && full && r == 8,
            two && waiting > 0,
            two && pending(n - 1),
            two && waiting == n,
            one && dead,
            one && other && last,
            one && alone && pending(i),
            one && alone && !pending(i) && waiting > 0,
            one && alone && i + r + 1 == n,
            one && alone && i + r == n,
            one && alone && full && lowest,
            one && alone && full && highest,
            one && alone && full && !lowest && !highest,
            one && alone && full && highest && last && r == 8,
            stale && records(words).all(|m| list(m).iter().all(|&e| is_member(words, e))),
            one && off.all() == [0, 1, 0],
            predecessor && lowest,
            predecessor && highest,
            predecessor && !lowest && !highest,
            zero && dead,
            zero && other,
            zero && own,
            zero && alone && few,
            zero && exchanged,
        ]);
        if one && alone {
            let place = match (lowest, highest) {
                (true, _) => 0,
                (_, true) => 3,
                _ => 1 + (i + 1 + k >= n) as usize,
            };
            self.late[r][k][place] += 1;
        }
        if ideal && few {
            self.few[r][n] += 1;
        }
        Ok(())
    }
}

impl Compare {
    /// Holds the verdict of an audit to the words of its table.
    fn judged(&mut self, name: &str, words: &[u32], answer: &Answer) -> Result<()> {
        if answer.number != 0 {
            return Ok(());
        }
        self.ideals
            .count(words, answer.values[3])
            .map_err(|what| format!("REFERENCE gives {name} {what}\n  table {words:?}\n"))
    }

    pub fn audit(&mut self, table: &Piece<u32>) -> Result<Outcome<u32, u32>> {
        let outcome = self.on_table("audit", &[], table, &nothing(), |c, t, _| (c.audit)(t))?;
        self.judged("audit", table.slice(), &outcome.answer)?;
        Ok(outcome)
    }

    pub fn findings(
        &mut self,
        table: &Piece<u32>,
        findings: &Piece<Finding>,
    ) -> Result<Outcome<u32, Finding>> {
        let outcome =
            self.on_table("findings", &[], table, findings, |c, t, f| (c.findings)(t, f))?;
        self.judged("findings", table.slice(), &outcome.answer)?;
        Ok(outcome)
    }
}
