//! What finds and settle pass over, by the library alone, on tables of every sort.
//! - A find from a member for the identifier after it stands there alone, and so does one
//!   for its first live entry: no move is made, and passed over are the entries before that
//!   one, which are dead. Where no entry is live, 8 tells the member and nothing else.
//! - Any other find goes by what these gave: it replies the sum over the members from its
//!   start to the one at which the key is found, both included, or 8 and the member that
//!   has no live entry, and nothing else.
//! - Settle's third number is the sum over all members, whatever its limit; after a round
//!   it is 0.
//! - Where the audit's verdict is 2, all of these are 0.

use super::find::first_live;
use super::lone::Lone;
use super::shapes::Shapes;
use super::{Compare, Result};
use crate::layout::{self, record, Raw, R};
use crate::make;
use crate::random::Random;
use crate::reference::Answer;
use std::collections::BTreeMap;

/// What the tables, finds and settlings must meet.
const SHAPES: [&str; 22] = [
    "r = 1",
    "r = 8, a member passes 7",
    "a find from one member",
    "a find from several members, some pass entries",
    "a find from several members, all pass entries",
    "a find once round, all pass entries",
    "a find once round 256 members",
    "a find that passes 1792",
    "8 at the start",
    "8 after entries passed",
    "verdict 2",
    "verdict 1, nothing passed",
    "settle with limit 0, entries passed",
    "settle with limit 0, nothing passed",
    "settle with rounds run, entries passed",
    "settle with the limit reached, entries passed",
    "settle with one member passing, the lowest",
    "settle with one member passing, the highest",
    "settle of more than 255",
    "settle of 1792",
    "1",
    "3",
];

/// The runs so far.
pub struct Passed {
    shapes: Shapes<{ SHAPES.len() }>,
    pub finds: u64,
}

/// What a search gives: the first live entry, and how many entries stand before it.
pub type Search = Option<(u32, u32)>;

/// The answer of a find that ends at a member without a live entry.
fn eight(at: u32) -> Answer {
    Answer { number: 8, values: [at, 0, 0, 0], count: 1 }
}

/// A find that must give this answer.
fn find(table: &mut Lone, n: u32, k: u32, due: Answer) -> Result<()> {
    let given = table.call("lookup", &[n, k], |c, t| (c.lookup)(t, n, k))?;
    if given != due {
        return table.wrong("lookup", format!("{k} from {n} is given {given:?}, not {due:?}"));
    }
    Ok(())
}

/// The search of each member, by finds that stand at it alone.
pub fn searches(table: &mut Lone) -> Result<BTreeMap<u32, Search>> {
    let mut all = BTreeMap::new();
    for n in table.members() {
        let list = record(table.words(), n).map_or(vec![], |own| layout::list(own).to_vec());
        let search = first_live(table.words(), &list).map(|k| (list[k], k as u32));
        let due = match search {
            Some((b, passed)) => Answer { number: 0, values: [b, n, 0, passed], count: 4 },
            None => eight(n),
        };
        find(table, n, n.wrapping_add(1), due)?;
        find(table, n, search.map_or(n, |search| search.0), due)?;
        all.insert(n, search);
    }
    Ok(all)
}

/// What all members pass over, where each has a live entry.
pub fn sum(searches: &BTreeMap<u32, Search>) -> u32 {
    searches.values().flatten().map(|search| search.1).sum()
}

/// What each member that a find stands at passes over, by the searches, and its answer.
fn walked(searches: &BTreeMap<u32, Search>, n: u32, k: u32) -> (Vec<u32>, Answer) {
    let mut each = Vec::new();
    let mut q = n;
    loop {
        let Some((b, passed)) = searches[&q] else {
            return (each, eight(q));
        };
        let moves = each.len() as u32;
        each.push(passed);
        // The key lies after q, and not after b.
        let after = |id: u32| id.wrapping_sub(q).wrapping_sub(1);
        if after(k) <= after(b) {
            let values = [b, q, moves, each.iter().sum()];
            return (each, Answer { number: 0, values, count: 4 });
        }
        q = b;
    }
}

impl Passed {
    pub fn new() -> Passed {
        Passed { shapes: Shapes::new(SHAPES), finds: 0 }
    }

    pub fn never_met(&self) -> Option<&'static str> {
        self.shapes.never_met()
    }

    pub fn told(&self) -> String {
        self.shapes.told()
    }

    /// Finds from some members for some keys.
    fn finds(
        &mut self,
        random: &mut Random,
        table: &mut Lone,
        searches: &BTreeMap<u32, Search>,
    ) -> Result<()> {
        let members: Vec<u32> = searches.keys().copied().collect();
        for _ in 0..12 {
            let n = random.pick(&members);
            let named = make::names(random, table.words(), 1)[0];
            let (other, any) = (random.pick(&members), random.word());
            let k = random.pick(&[n, named, other, any]);
            let (each, due) = walked(searches, n, k);
            find(table, n, k, due)?;
            self.finds += 1;
            let found = due.number == 0;
            let all = found && each.iter().all(|&passed| passed > 0);
            let some = each.iter().any(|&passed| passed > 0);
            let round = found && each.len() == members.len();
            self.shapes.meet_each(&[
                (found && each.len() == 1, "a find from one member"),
                (each.len() > 1 && some && !all, "a find from several members, some pass entries"),
                (each.len() > 1 && all, "a find from several members, all pass entries"),
                (each.len() > 1 && all && round, "a find once round, all pass entries"),
                (round && members.len() == 256, "a find once round 256 members"),
                (found && due.values[3] == 1792, "a find that passes 1792"),
                (!found && each.is_empty(), "8 at the start"),
                (!found && some, "8 after entries passed"),
            ]);
        }
        Ok(())
    }

    /// Settle with some limits on a sound table.
    fn settlings(
        &mut self,
        random: &mut Random,
        start: &Lone,
        searches: &BTreeMap<u32, Search>,
    ) -> Result<()> {
        let due = sum(searches);
        let full = searches.len() > 40;
        let some = random.word();
        for limit in [0, 1, random.pick(&[2, 3, some, u32::MAX])] {
            let mut table = start.clone();
            let given = table.call("settle", &[limit], |c, t| (c.settle)(t, limit))?;
            let [ran, verdict, passed, rest] = given.values;
            if (given.number, given.count, passed, rest) != (0, 3, due, 0) {
                let what = format!("{limit} is given {given:?}, and {due} are passed over");
                return start.wrong("settle", what);
            }
            // A round leaves no dead entry in front.
            let left = if ran > 0 { 0 } else { due };
            let again = table.call("settle", &[0], |c, t| (c.settle)(t, 0))?;
            if (again.count, again.values) != (3, [0, verdict, left, 0]) {
                let what = format!("0 after {limit} is given {again:?}, not {left}");
                return start.wrong("settle", what);
            }
            if ran > 0 && !full && sum(&self::searches(&mut table)?) != 0 {
                return start.wrong("lookup", "entries passed over after a round".to_string());
            }
            self.shapes.meet_each(&[
                (limit == 0 && due > 0, "settle with limit 0, entries passed"),
                (limit == 0 && due == 0, "settle with limit 0, nothing passed"),
                (ran > 0 && due > 0, "settle with rounds run, entries passed"),
                (
                    limit > 0 && ran == limit && verdict == 1 && due > 0,
                    "settle with the limit reached, entries passed",
                ),
                (due > 255, "settle of more than 255"),
                (due == 1792, "settle of 1792"),
            ]);
        }
        let passes = |id: &u32| searches[id].is_some_and(|search| search.1 > 0);
        let passing: Vec<u32> = searches.keys().copied().filter(passes).collect();
        let only = |id: Option<&u32>| passing.len() == 1 && passing.first() == id;
        self.shapes.meet_each(&[
            (only(searches.keys().next()), "settle with one member passing, the lowest"),
            (only(searches.keys().last()), "settle with one member passing, the highest"),
        ]);
        Ok(())
    }

    /// All that must hold of a table.
    fn table(&mut self, random: &mut Random, mut table: Lone) -> Result<()> {
        let before = table.clone();
        let audit = table.call("audit", &[], |c, t| (c.audit)(t))?;
        let name = make::names(random, table.words(), 1)[0];
        if audit.number != 0 {
            find(&mut table, name, name, Answer { number: 1, values: [0; 4], count: 0 })?;
            self.shapes.meet("1");
            return Ok(());
        }
        let searches = searches(&mut table)?;
        if !searches.contains_key(&name) {
            find(&mut table, name, name, Answer { number: 3, values: [0; 4], count: 0 })?;
            self.shapes.meet("3");
        }
        if searches.is_empty() {
            return Ok(());
        }
        self.finds(random, &mut table, &searches)?;
        if !table.equals(&before) {
            return before.wrong("lookup or audit", "a word is written".to_string());
        }
        let (r, verdict, due) = (table.words()[R], audit.values[3], sum(&searches));
        if verdict == 2 && due > 0 {
            return before.wrong("lookup", format!("verdict 2, and {due} are passed over"));
        }
        let seven = searches.values().flatten().any(|search| search.1 == 7);
        self.shapes.meet_each(&[
            (r == 1, "r = 1"),
            (r == 8 && seven, "r = 8, a member passes 7"),
            (verdict == 2, "verdict 2"),
            (verdict == 1 && due == 0, "verdict 1, nothing passed"),
        ]);
        match verdict {
            0 => Ok(()),
            _ => self.settlings(random, &before, &searches),
        }
    }
}

/// A new table, and losses of some members, which need not be granted.
fn lost(random: &mut Random, r: usize, n: usize) -> Raw {
    let mut raw = make::Ring::any(random, n + 1).table(random, r);
    let among = random.range(2, 5);
    let kept = raw.records[random.below(n + 1)].clone();
    raw.records.retain(|_| !random.one_in(among));
    if raw.records.is_empty() {
        raw.records.push(kept);
    }
    raw.count = raw.records.len() as u32;
    raw
}

impl Compare {
    /// Some tables, or, if it is to be full, two stale ones of 256 members, the first the
    /// stalest that there is.
    pub fn passed(&mut self, random: &mut Random, full: bool) -> Result<()> {
        for number in 0..if full { 2 } else { 5 } {
            let r = if full || random.one_in(4) { 8 } else { random.range(1, 8) };
            let n = if full { 256 } else { r + 1 + random.below(12) };
            let mut raw = match number {
                0 if full => make::stalest(random, r, n),
                0 | 1 | 4 => make::stale(random, r, n),
                2 => lost(random, r, n),
                _ => match random.below(4) {
                    0 => make::well_formed(random, None),
                    1 => make::tiny(random).0,
                    _ => make::sound(random, r, n),
                },
            };
            if number == 4 {
                make::cut_off(random, &mut raw);
            }
            if random.one_in(40) {
                raw.steps = make::header_steps(random);
            }
            let piece = make::with_room(random, &raw.words(), raw.width());
            let words = match random.one_in(40) {
                true => piece.all[..raw.words().len() - 1].to_vec(),
                false => piece.all,
            };
            let table = Lone::new(self, random, words);
            self.passed.table(random, table)?;
        }
        Ok(())
    }
}
