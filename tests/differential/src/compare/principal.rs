//! The principal test: one call on both sides, what a run must meet of it, and
//! what the members of one table must answer together, as many principals as the
//! audit counts.

use super::shapes::Shapes;
use super::{nothing, place, watched, Compare, Lent, Outcome, Piece, Result};
use crate::layout::{self, COUNT, R};
use crate::reference::Answer;

/// Each call counts for those that hold of its table and its answer.
const SHAPES: [&str; 19] = [
    "no pair skips it",
    "first pair skips it",
    "a pair between skips it",
    "only the last pair skips it",
    "one member, principal",
    "one member, skipped",
    "no members",
    "256 members of r = 1, principal",
    "256 members of r = 2, principal",
    "256 members of r = 8, principal",
    "256 members of r = 1, only the last pair",
    "256 members of r = 2, only the last pair",
    "256 members of r = 8, only the last pair",
    "words after the table",
    "words missing",
    "member 0",
    "member 4294967295",
    "0 no member",
    "4294967295 no member",
];

/// What tables must have been asked about all their members.
const TABLES: [&str; 6] = [
    "one member",
    "256 members",
    "256 members of r = 8",
    "all principals",
    "some principals",
    "no principals",
];

/// Of tables with more members than this only some are asked about all of them.
const MANY: usize = 40;

/// The calls and tables so far.
pub struct Principals {
    shapes: Shapes<{ SHAPES.len() }>,
    asked: Shapes<{ TABLES.len() }>,
    pub tables: u64,
}

impl Principals {
    pub fn new() -> Principals {
        Principals { shapes: Shapes::new(SHAPES), asked: Shapes::new(TABLES), tables: 0 }
    }

    pub fn never_met(&self) -> Option<&'static str> {
        self.shapes.never_met().or(self.asked.never_met())
    }

    /// How often each shape came up, of calls and of tables.
    pub fn told(&self) -> String {
        format!("{}; tables: {}", self.shapes.told(), self.asked.told())
    }

    fn count(&mut self, table: &Piece<u32>, n: u32, answer: &Answer) {
        let words = table.slice();
        let (Some(&r), Some(&members)) = (words.get(R), words.get(COUNT)) else {
            return;
        };
        let (accepted, refused) = (answer.number == 0, answer.number == 3);
        let [said, taken, ..] = answer.values;
        let (principal, skipped) = (accepted && said == 1, accepted && said == 0);
        // Every pair was taken, and yet it is none.
        let last = skipped && taken == members * r;
        let full = |of: u32| members == 256 && r == of;
        let cut = answer.number == 1 && r <= 8 && members <= 256;
        let known = accepted || cut;
        let needed = if known { layout::size(r as usize, members as usize) } else { 0 };
        self.shapes.count([
            principal,
            skipped && taken == 1,
            skipped && taken > 1 && !last,
            last,
            principal && members == 1,
            skipped && members == 1,
            refused && members == 0,
            principal && full(1),
            principal && full(2),
            principal && full(8),
            last && full(1),
            last && full(2),
            last && full(8),
            accepted && words.len() > needed,
            words.len() < needed && needed <= table.all.len(),
            accepted && n == 0,
            accepted && n == u32::MAX,
            refused && n == 0,
            refused && n == u32::MAX,
        ]);
    }
}

impl Compare {
    pub fn principal(&mut self, table: &Piece<u32>, n: u32) -> Result<Outcome<u32, u32>> {
        let outcome = self
            .on_table("principal", &[n as u64], table, &nothing(), |c, t, _| (c.principal)(t, n))?;
        self.principals.count(table, n, &outcome.answer);
        Ok(outcome)
    }

    /// Asks all members of a table whether they are principals, and the audit for
    /// their number. `turn` chooses among the large tables.
    pub(super) fn ask_principals(
        &mut self,
        table: &mut Lent<u32>,
        ids: &[u32],
        turn: u64,
    ) -> Result<()> {
        if ids.len() > MANY && turn & 3 != 0 {
            return Ok(());
        }
        let words = table.slice();
        let (r, members) = (words[R], words[COUNT]);
        let wrong = |words: &[u32], what: String| {
            format!("DIFFERENCE in principal, {what}\n  table {words:?}\n")
        };
        if self.trace {
            eprint!("principal, of each member\n  table {words:?}\n");
        }
        let mut principals = 0;
        for &n in ids {
            let given =
                watched(place("principal"), || (self.under_test.principal)(table.slice(), n));
            let [said, taken, ..] = given.values;
            let fits = match said {
                0 => (1..=members * r).contains(&taken),
                _ => said == 1 && taken == members * r,
            };
            if given.number != 0 || !fits {
                return Err(wrong(table.slice(), format!("member {n} is given {given:?}")));
            }
            principals += said;
        }
        let audit = watched(place("audit"), || (self.under_test.audit)(table.slice()));
        if audit.number != 0 || audit.values[1] != principals {
            let what = format!("{principals} are, and the audit is given {audit:?}");
            return Err(wrong(table.slice(), what));
        }
        self.principals.tables += 1;
        self.principals.asked.count([
            members == 1,
            members == 256,
            members == 256 && r == 8,
            principals == members,
            principals > 0 && principals < members,
            principals == 0,
        ]);
        Ok(())
    }
}
