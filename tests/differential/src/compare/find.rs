//! Finds: one call on both sides, and what a run must meet of the dead entries that they
//! pass over, read off the words.

use super::join::is_member;
use super::shapes::Shapes;
use super::{nothing, Compare, Outcome, Piece, Result};
use crate::layout::{list, record, COUNT};
use crate::reference::{self, Answer};
use std::collections::BTreeSet;

/// Each find counts for those that hold of its walk: the first member that it stands at,
/// the last one, and those between. Passed are the dead entries before a first live one.
const SHAPES: [&str; 34] = [
    "nothing passed, no move",
    "nothing passed, several moves",
    "passed, no move",
    "passed at the first of two alone",
    "passed at the last of two alone",
    "passed at both of two",
    "passed at the first of several alone",
    "passed at the last of several alone",
    "passed between alone",
    "passed at the first and last of several alone",
    "passed all but at the last of several",
    "passed at the first, between and at the last",
    "passed at all of several, not as many each time",
    "passed by the owner, who is not stood at",
    "nothing passed but by the owner, who is not stood at",
    "one dead entry passed by two members",
    "one dead entry passed twice in a list",
    "the key passed",
    "the start passed over itself as the owner",
    "passed round the end",
    "0 passed",
    "4294967295 passed",
    "passed on a sound table",
    "passed on a table not sound",
    "dead entries after live ones alone",
    "verdict 2",
    "256 members stood at, the last passes",
    "more than 255 passed",
    "1792 passed",
    "8 at the start",
    "8 after moves, nothing passed",
    "8 after one member passed entries",
    "8 after several members passed entries",
    "8 after more than 255 passed",
];

/// How dead entries stand in a list to the live ones, and the least r that has it.
const PATTERNS: [(&str, usize); 6] = [
    ("after the live ones", 2),
    ("between live ones", 3),
    ("before and after live ones", 3),
    ("before and between live ones", 4),
    ("between and after live ones", 4),
    ("before, between and after live ones", 5),
];

/// Of tables with more members than this is not asked whether they are sound.
const MANY: usize = 12;

/// The finds so far. By r: the lists stood at by how many entries of them were passed, and
/// by their pattern.
pub struct Finds {
    shapes: Shapes<{ SHAPES.len() }>,
    passed: [[u64; 8]; 9],
    patterns: [[u64; PATTERNS.len()]; 9],
}

/// A member that a find stood at: its list, and how many of its entries were passed;
/// nothing where none is live.
struct Stood<'a> {
    list: &'a [u32],
    passed: Option<usize>,
}

/// How many entries stand before the first that is a member.
pub fn first_live(words: &[u32], list: &[u32]) -> Option<usize> {
    list.iter().position(|&entry| is_member(words, entry))
}

/// The members that stand one after the other on the way from n, so many or up to the
/// first without a live entry.
fn walk(words: &[u32], n: u32, most: usize) -> Vec<Stood<'_>> {
    let mut walk = Vec::new();
    let mut at = record(words, n);
    while let Some(member) = at.filter(|_| walk.len() < most) {
        let list = list(member);
        let passed = first_live(words, list);
        walk.push(Stood { list, passed });
        at = passed.and_then(|k| record(words, list[k]));
    }
    walk
}

impl Finds {
    pub fn new() -> Finds {
        let (passed, patterns) = ([[0; 8]; 9], [[0; PATTERNS.len()]; 9]);
        Finds { shapes: Shapes::new(SHAPES), passed, patterns }
    }

    pub fn never_met(&self) -> Option<&'static str> {
        self.shapes.never_met()
    }

    /// Each number of entries passed and each pattern, of each r, with how often it came up.
    fn kinds(&self) -> Vec<(u64, String)> {
        let mut kinds = Vec::new();
        for r in 1..=8 {
            for passed in 0..r {
                kinds.push((self.passed[r][passed], format!("{passed} of {r} entries passed")));
            }
            for (i, &(name, least)) in PATTERNS.iter().enumerate() {
                if r >= least {
                    kinds.push((self.patterns[r][i], format!("r = {r}, dead entries {name}")));
                }
            }
        }
        kinds
    }

    pub fn kinds_never_met(&self) -> Option<String> {
        self.kinds().into_iter().find(|kind| kind.0 == 0).map(|kind| format!("find: {}", kind.1))
    }

    pub fn told(&self) -> String {
        let kinds = self.kinds();
        let least = kinds.iter().map(|kind| kind.0).min().unwrap_or(0);
        let told = self.shapes.told();
        format!("{told}; {} kinds of lists by r, each {least} times or more", kinds.len())
    }

    /// Counts a list that a find stood at.
    fn count_list(&mut self, words: &[u32], stood: &Stood) {
        let Some(passed) = stood.passed else {
            return;
        };
        let live: Vec<bool> = stood.list.iter().map(|&entry| is_member(words, entry)).collect();
        let (r, last) = (live.len(), live.iter().rposition(|&live| live).unwrap_or(passed));
        let before = passed > 0;
        let between = live[passed..last].contains(&false);
        let after = last + 1 < r;
        self.passed[r][passed] += 1;
        let pattern = [
            (false, false, true),
            (false, true, false),
            (true, false, true),
            (true, true, false),
            (false, true, true),
            (true, true, true),
        ];
        if let Some(i) = pattern.iter().position(|&p| p == (before, between, after)) {
            self.patterns[r][i] += 1;
        }
    }

    fn count(&mut self, words: &[u32], n: u32, k: u32, answer: &Answer) {
        if !matches!(answer.number, 0 | 8) {
            return;
        }
        let found = answer.number == 0;
        let most = if found { answer.values[2] as usize + 1 } else { words[COUNT] as usize };
        let walk = walk(words, n, most);
        for stood in &walk {
            self.count_list(words, stood);
        }
        let stood = &walk[..walk.len() - !found as usize];
        let each: Vec<usize> = stood.iter().map(|stood| stood.passed.unwrap_or(0)).collect();
        let sum: usize = each.iter().sum();
        let passing = each.iter().filter(|&&count| count > 0).count();
        let entries = || stood.iter().zip(&each).map(|(stood, &count)| &stood.list[..count]);
        let distinct = entries().flatten().collect::<BTreeSet<_>>().len();
        let twice = |list: &[u32]| list.iter().collect::<BTreeSet<_>>().len() < list.len();

        let some = found && sum > 0;
        let (one, two, several) =
            (each.len() == 1, found && each.len() == 2, found && each.len() > 2);
        let (first, last) = match (each.first(), each.last()) {
            (Some(&first), Some(&last)) if found => (first > 0, last > 0),
            _ => (false, false),
        };
        let ends = first as usize + last as usize;
        let between = several && passing > ends;
        let owner = found
            && record(words, answer.values[0])
                .is_some_and(|owner| first_live(words, list(owner)) != Some(0));
        let small = some && words[COUNT] as usize <= MANY;
        let sound = small && reference::is_sound(words);
        let late =
            found && sum == 0 && stood.iter().any(|s| !s.list.iter().all(|&e| is_member(words, e)));
        let ideal = one && sum == 0 && words[COUNT] as usize <= MANY;
        self.shapes.count([
            found && sum == 0 && one,
            found && sum == 0 && several,
            some && one,
            two && first && !last,
            two && !first && last,
            two && first && last,
            several && passing == 1 && first,
            several && passing == 1 && last,
            several && passing > 0 && ends == 0,
            several && passing == 2 && ends == 2,
            several && passing + 1 == each.len() && !last,
            between && ends == 2,
            several && passing == each.len() && each.iter().any(|&count| count != each[0]),
            some && owner,
            found && sum == 0 && owner,
            some && distinct < sum && !entries().any(twice),
            some && entries().any(twice),
            some && entries().any(|list| list.contains(&k)),
            some && answer.values[0] == n,
            some && answer.values[0] < answer.values[1] && last,
            some && entries().any(|list| list.contains(&0)),
            some && entries().any(|list| list.contains(&u32::MAX)),
            sound,
            small && !sound,
            late,
            ideal && reference::is_sound_and_ideal(words),
            found && each.len() == 256 && last,
            found && sum > 255,
            found && sum == 1792,
            !found && each.is_empty(),
            !found && !each.is_empty() && sum == 0,
            !found && passing == 1,
            !found && passing > 1,
            !found && sum > 255,
        ]);
    }
}

impl Compare {
    pub fn lookup(&mut self, table: &Piece<u32>, n: u32, k: u32) -> Result<Outcome<u32, u32>> {
        let arguments = [n as u64, k as u64];
        let outcome =
            self.on_table("lookup", &arguments, table, &nothing(), |c, t, _| (c.lookup)(t, n, k))?;
        self.finds.count(table.slice(), n, k, &outcome.answer);
        Ok(outcome)
    }
}
