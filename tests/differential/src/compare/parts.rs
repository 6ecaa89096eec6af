//! What the members of one table must answer together: their runs part every
//! rising list of keys, each key lies in a run of its holder, and where the
//! verdict is 2, find gives the holder as owner from every start and passes over
//! nothing; as many are principals as the audit counts. The answers are the library's;
//! who holds a key is told by the paper's sentence.

use super::shapes::Shapes;
use super::{place, watched, Compare, Lent, Piece, Result};
use crate::keys;
use crate::random::Random;
use crate::reference;
use std::collections::HashSet;

/// What tables and lists of keys a run must meet.
const SHAPES: [&str; 8] = [
    "one member",
    "256 members",
    "no key",
    "one key",
    "100 keys",
    "key 0",
    "key 4294967295",
    "verdict 2",
];

/// The tables asked so far.
pub struct Parts {
    marks: HashSet<u64>,
    tables: u64,
    finds: u64,
    shapes: Shapes<{ SHAPES.len() }>,
}

impl Parts {
    pub fn new() -> Parts {
        Parts { marks: HashSet::new(), tables: 0, finds: 0, shapes: Shapes::new(SHAPES) }
    }

    pub fn never_met(&self) -> Option<&'static str> {
        self.shapes.never_met()
    }

    pub fn told(&self) -> String {
        self.shapes.told()
    }

    fn count(&mut self, ids: &[u32], keys: &[u32], verdict_2: bool) {
        self.tables += 1;
        self.shapes.count([
            ids.len() == 1,
            ids.len() == 256,
            keys.is_empty(),
            keys.len() == 1,
            keys.len() >= 100,
            keys.first() == Some(&0),
            keys.last() == Some(&u32::MAX),
            verdict_2,
        ]);
    }
}

/// A number for the words of a slice, so that each table is asked once.
fn mark(words: &[u32]) -> u64 {
    words.iter().fold(words.len() as u64, |mark, &word| {
        (mark ^ word as u64).wrapping_mul(0x9e37_79b9_7f4a_7c15).rotate_left(29)
    })
}

impl Compare {
    /// What was done beside the comparisons, for the report.
    pub fn parts(&self) -> String {
        format!(
            "keys parted on {} tables, {} owners found; principals counted on {} tables; \
             {} runs of the library alone; {} withdrawals from verdict 2; {} rounds held to \
             their turns, {} settlings to their rounds, {} with windows to rounds at their open \
             minutes; {} weeks asked for minute by minute, {} minutes of the library alone; \
             {} finds held to the searches of their members; {} times alike asked of the library \
             alone, {} pairs of tables with {} calls on each",
            self.parts.tables,
            self.parts.finds,
            self.principals.tables,
            self.alone.runs,
            self.withdrawals.made,
            self.turns.rounds,
            self.turns.settlings,
            self.weeks.settlings,
            self.hours.weeks,
            self.weeks.asked,
            self.passed.finds,
            self.alikes.asked,
            self.pairs.made,
            self.pairs.calls
        )
    }

    /// Asks all members of a well-formed table for their runs of one list of
    /// keys, which follows from the words, and whether they are principals. Each
    /// table is asked once.
    pub(super) fn ask_parts(&mut self, words: &[u32]) -> Result<()> {
        let seed = mark(words);
        if !self.parts.marks.insert(seed) {
            return Ok(());
        }
        let Some(ids) = reference::members(words).filter(|ids| !ids.is_empty()) else {
            return Ok(());
        };
        let mut random = Random::new(seed);
        let keys = keys::rising(&mut random, words);
        let mut table = Lent::new(&Piece::whole(words.to_vec()), seed);
        let mut list = Lent::new(&Piece::whole(keys.clone()), seed >> 8);
        let before = (table.clone(), list.clone());
        let wrong = |name: &str, what: String| {
            format!("DIFFERENCE in {name}, {what}\n  table {words:?}\n  keys {keys:?}\n")
        };
        if self.trace {
            eprint!("held, by each member\n  table {words:?}\n  keys {keys:?}\n");
        }

        let mut held_by = vec![None; keys.len()];
        for &n in &ids {
            let given =
                watched(place("held"), || (self.under_test.held)(table.slice(), n, list.slice()));
            if given.number != 0 || !(1..=2).contains(&given.runs) {
                return Err(wrong("held", format!("member {n} is given {given:?}")));
            }
            for i in 0..given.runs as usize {
                let (start, end) = (given.start[i], given.end[i]);
                if start > end || end > keys.len() {
                    return Err(wrong("held", format!("member {n} has a run {start} to {end}")));
                }
                for at in start..end {
                    if let Some(other) = held_by[at].replace(n) {
                        return Err(wrong("held", format!("{other} and {n} hold position {at}")));
                    }
                }
            }
        }
        let holders: Vec<u32> = keys.iter().map(|&key| reference::holder(&ids, key)).collect();
        for (at, (&given, &holder)) in held_by.iter().zip(&holders).enumerate() {
            if given != Some(holder) {
                let what = format!("position {at} belongs to {holder} and is held by {given:?}");
                return Err(wrong("held", what));
            }
        }

        let verdict_2 = reference::is_sound_and_ideal(words);
        if verdict_2 {
            // Every start on small tables, some on large ones.
            let starts = match ids.len() {
                0..=8 => ids.clone(),
                _ => (0..4).map(|_| random.pick(&ids)).collect(),
            };
            for (&key, &holder) in keys.iter().zip(&holders) {
                for &start in &starts {
                    let found = watched(place("lookup"), || {
                        (self.under_test.lookup)(table.slice(), start, key)
                    });
                    let passed = found.values[3];
                    if (found.number, found.count, found.values[0], passed) != (0, 4, holder, 0) {
                        let what = format!(
                            "{holder} holds {key}, and from {start} is found {:?}",
                            found.values
                        );
                        return Err(wrong("lookup", what));
                    }
                    self.parts.finds += 1;
                }
            }
        }
        self.ask_principals(&mut table, &ids, seed)?;
        for (before, after) in [(&before.0, &table), (&before.1, &list)] {
            let lines = before.differences(after);
            if !lines.is_empty() {
                let what = format!("a slice is written\n{}", lines.join("\n"));
                return Err(wrong("held, lookup, principal or audit", what));
            }
        }
        self.parts.count(&ids, &keys, verdict_2);
        Ok(())
    }
}
