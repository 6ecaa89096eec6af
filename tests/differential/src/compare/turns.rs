//! Rounds and settle by the library alone, from sound tables of s members, of which P are
//! principals by its audit.
//! - A round is the turns of the members by stabilize and rectify calls, by rising
//!   identifier, and replies the verdict that the audit then gives.
//! - Settle with a limit is as many single rounds, with the verdict looked at before each;
//!   its third number is what all members pass over before the first, as finds tell it.
//! - The limit s - 1 brings verdict 2, in at most s - P + r rounds.
//! - After s - P + r rounds the verdict is 2, nothing is pending, and a round more changes
//!   the step counts only, by one step a member.
//! - Where the audit is declined by 1 both are, where its verdict is 0 both are declined by
//!   14; that writes nothing.

use super::join::is_member;
use super::lone::Lone;
use super::shapes::Shapes;
use super::{passed, Compare, Result};
use crate::layout::{
    record, records, steps, steps_at, CANDIDATE, COUNT, LIST, PENDING, PREDECESSOR, R,
};
use crate::make;
use crate::random::Random;
use crate::reference::Answer;

/// What the turns, rounds and settlings must meet. A pending step is one that a turn
/// finishes first, its notice the one that follows it.
const SHAPES: [&str; 24] = [
    "a pending step, its candidate live",
    "a pending step, its candidate dead",
    "a pending step, its candidate and first entry dead, its notice lost",
    "a pending step, its notice is new",
    "a pending step, then again",
    "a pending step, then look",
    "a last notice is new",
    "a last notice is new, as the predecessor is dead",
    "again",
    "r - 1 agains, r = 8",
    "again, then look",
    "look, its candidate live",
    "look, its candidate dead",
    "r + 1 steps",
    "r + 2 steps",
    "s - 1 rounds",
    "s - P + r rounds, fewer than s - 1",
    "no round",
    "no round, a step pending",
    "256 members",
    "255 rounds of 256 members",
    "a step count that stops",
    "1",
    "14",
];

/// The runs so far.
pub struct Turns {
    shapes: Shapes<{ SHAPES.len() }>,
    pub rounds: u64,
    pub settlings: u64,
    full: u64,
}

impl Turns {
    pub fn new() -> Turns {
        Turns { shapes: Shapes::new(SHAPES), rounds: 0, settlings: 0, full: 0 }
    }

    pub fn never_met(&self) -> Option<&'static str> {
        self.shapes.never_met()
    }

    pub fn told(&self) -> String {
        self.shapes.told()
    }

    /// The turn of a member.
    fn turn(&mut self, table: &mut Lone, n: u32) -> Result<()> {
        let own = record(table.words(), n).expect("a member").to_vec();
        let live = |table: &Lone, id: u32| is_member(table.words(), id);
        let pending = own[PENDING] == 1;
        let mut first_new = false;
        if pending {
            let candidate = live(table, own[CANDIDATE]);
            let lost = !candidate && !live(table, own[LIST]);
            let said = table.accepted("stabilize", &[n], |c, t| (c.stabilize)(t, n))?;
            if said[0] != 2 {
                return table.wrong("stabilize", format!("{n} finishes a step by {said:?}"));
            }
            first_new = notice(table, said[1], n)?;
            self.shapes.meet_each(&[
                (candidate, "a pending step, its candidate live"),
                (!candidate, "a pending step, its candidate dead"),
                (lost, "a pending step, its candidate and first entry dead, its notice lost"),
                (first_new, "a pending step, its notice is new"),
            ]);
        }
        let r = table.words()[R];
        let (mut agains, mut look) = (0, None);
        for step in 1..=r + 1 {
            let said = table.accepted("stabilize", &[n], |c, t| (c.stabilize)(t, n))?;
            match said[0] {
                0 => agains += 1,
                1 => look = Some(live(table, said[1])),
                _ => {
                    let h = record(table.words(), said[1]).map_or(0, |h| h[PREDECESSOR]);
                    let dead = !live(table, h);
                    let new = notice(table, said[1], n)?;
                    // The first notice that is new leaves nothing for the last.
                    if first_new && new {
                        return table.wrong("rectify", format!("both notices of {n} are new"));
                    }
                    self.shapes.meet_each(&[
                        (pending && agains > 0, "a pending step, then again"),
                        (pending && agains == 0 && look.is_some(), "a pending step, then look"),
                        (new, "a last notice is new"),
                        (new && dead, "a last notice is new, as the predecessor is dead"),
                        (agains > 0, "again"),
                        (agains == 7, "r - 1 agains, r = 8"),
                        (agains > 0 && look.is_some(), "again, then look"),
                        (look == Some(true), "look, its candidate live"),
                        (look == Some(false), "look, its candidate dead"),
                        (r > 1 && step == r + 1, "r + 1 steps"),
                        (r > 1 && step == r + 1 && pending, "r + 2 steps"),
                    ]);
                    return Ok(());
                }
            }
        }
        table.wrong("stabilize", format!("{n} is not done after r + 1 steps"))
    }

    /// The rounds of a sound table: what stands after each of them, the table first, up to
    /// one more than are enough; and the verdicts.
    fn all_rounds(
        &mut self,
        random: &mut Random,
        start: &Lone,
        enough: u32,
    ) -> Result<Vec<(Lone, u32)>> {
        let mut table = start.clone();
        let (members, full) = (table.members(), table.words()[COUNT] > 40);
        let mut states = vec![(start.clone(), verdict(&mut table)?)];
        for number in 0..=enough {
            let before = table.clone();
            let said = table.call("round", &[], |c, t| (c.round)(t))?;
            let after = verdict(&mut table)?;
            if (said.number, said.count, said.values) != (0, 1, [after, 0, 0, 0]) {
                return before.wrong("round", format!("is given {said:?}, verdict {after}"));
            }
            // On full tables some rounds alone are held to their turns.
            if !full || number == 0 || number + 1 == enough || random.one_in(100) {
                let mut turns = before.clone();
                for &n in &members {
                    self.turn(&mut turns, n)?;
                }
                if !turns.equals(&table) {
                    let lines = turns.differences(&table);
                    return before.wrong("round", format!("other words than its turns\n{lines}"));
                }
                self.rounds += 1;
            }
            let [old, new] = [&before, &table].map(|t| records(t.words()).map(steps));
            let stops = old.zip(new).any(|(old, new)| old < u32::MAX && new == u32::MAX);
            self.shapes.meet_each(&[(stops, "a step count that stops")]);
            if number == enough {
                let mut due = before.words().to_vec();
                for i in 0..members.len() {
                    let count = &mut due[steps_at(start.words()[R] as usize, i)];
                    *count = count.saturating_add(1);
                }
                if table.words() != due || records(&due).any(|m| m[PENDING] == 1) {
                    let what = format!("round {} changes more than the counts", enough + 1);
                    return before.wrong("round", what);
                }
            }
            states.push((table.clone(), after));
        }
        Ok(states)
    }

    /// Settle with a limit: the rounds run, the verdict and what was passed over; the table
    /// must be the one that stands after as many.
    fn settling(
        &mut self,
        start: &Lone,
        limit: u32,
        states: &[(Lone, u32)],
        passed: u32,
    ) -> Result<u32> {
        let mut table = start.clone();
        let said = table.call("settle", &[limit], |c, t| (c.settle)(t, limit))?;
        let ideal = states.iter().position(|state| state.1 == 2).unwrap_or(states.len() - 1);
        let ran = ideal.min(limit as usize);
        let due = [ran as u32, states[ran].1, passed, 0];
        if (said.number, said.count, said.values) != (0, 3, due) {
            return start.wrong("settle", format!("{limit} is given {said:?}, not {due:?}"));
        }
        if !table.equals(&states[ran].0) {
            let lines = states[ran].0.differences(&table);
            return start
                .wrong("settle", format!("{limit}, other words than {ran} rounds\n{lines}"));
        }
        self.settlings += 1;
        Ok(said.values[0])
    }

    /// All that must hold of a sound table.
    fn sound(&mut self, random: &mut Random, start: Lone, audit: [u32; 4]) -> Result<()> {
        let [s, principals, _, verdict] = audit;
        let r = start.words()[R];
        let enough = s - principals + r;
        if enough > s - 1 {
            return start.wrong("audit", format!("{audit:?}, and r is {r}"));
        }
        let mut settled = start.clone();
        let said = settled.call("settle", &[s - 1], |c, t| (c.settle)(t, s - 1))?;
        let [ran, reached, ..] = said.values;
        if said.number != 0 || reached != 2 || ran > enough || (ran == 0) != (verdict == 2) {
            let what = format!("{} is given {said:?}, {enough} are enough", s - 1);
            return start.wrong("settle", what);
        }
        let states = self.all_rounds(random, &start, enough)?;
        // Verdict 2 comes with the rounds that settle ran, and stays.
        let ideal = |i: usize| states[i].1 == 2;
        if !(0..states.len()).all(|i| ideal(i) == (i >= ran as usize)) {
            return start.wrong("settle", format!("runs {ran} rounds, and 2 comes elsewhere"));
        }
        let some = random.word();
        let mut limits = vec![s - 1, ran, 0, 1, ran.saturating_sub(1), ran + 1, enough, s];
        limits.extend([256, 65536, 1 << 31, u32::MAX, some, some % (ran + 2)]);
        if s > 40 {
            let other = random.pick(&limits[2..]);
            limits = vec![s - 1, other, 256];
        }
        let passed = passed::sum(&passed::searches(&mut start.clone())?);
        for limit in limits {
            self.settling(&start, limit, &states, passed)?;
        }
        let pending = records(start.words()).any(|m| m[PENDING] == 1);
        self.shapes.meet_each(&[
            (ran == s - 1, "s - 1 rounds"),
            (ran == enough && ran < s - 1, "s - P + r rounds, fewer than s - 1"),
            (ran == 0, "no round"),
            (ran == 0 && pending, "no round, a step pending"),
            (s == 256, "256 members"),
            (s == 256 && ran == 255, "255 rounds of 256 members"),
        ]);
        Ok(())
    }
}

/// A notice of n to the shelf h, which is lost if h is no member. Says whether it is new.
fn notice(table: &mut Lone, h: u32, n: u32) -> Result<bool> {
    if !is_member(table.words(), h) {
        return Ok(false);
    }
    Ok(table.accepted("rectify", &[h, n], |c, t| (c.rectify)(t, h, n))?[0] == 1)
}

/// The verdict, which is never 0.
fn verdict(table: &mut Lone) -> Result<u32> {
    match table.accepted("audit", &[], |c, t| (c.audit)(t))?[3] {
        verdict @ 1..=2 => Ok(verdict),
        verdict => table.wrong("audit", format!("verdict {verdict}")),
    }
}

impl Compare {
    /// A table that the library alone is called on: settled and its rounds held to their
    /// turns where its audit says that it is sound, refused where not.
    pub fn turns_of(&mut self, random: &mut Random, words: Vec<u32>) -> Result<()> {
        let mut table = Lone::new(self, random, words);
        let before = table.clone();
        let audit = table.call("audit", &[], |c, t| (c.audit)(t))?;
        let number = match audit {
            Answer { number: 0, values, .. } if values[3] > 0 => {
                return self.turns.sound(random, table, values);
            }
            Answer { number: 0, .. } => 14,
            _ => 1,
        };
        let some = random.word();
        let limit = random.pick(&[0, 1, some, u32::MAX]);
        for (name, limits) in [("round", vec![]), ("settle", vec![limit]), ("settle", vec![0])] {
            let given = table.call(name, &limits, |c, t| match limits.first() {
                None => (c.round)(t),
                Some(&limit) => (c.settle)(t, limit),
            })?;
            let refused = (given.number, given.count, given.values) == (number, 0, [0; 4]);
            if !refused || !table.equals(&before) {
                let what = format!("{limits:?} is given {given:?}, not {number}, or writes");
                return before.wrong(name, what);
            }
        }
        self.turns.shapes.meet(if number == 1 { "1" } else { "14" });
        Ok(())
    }

    /// One table that is sound, and one that may not be; or, if it is to be full, a sound
    /// one of 256 members, every second time the slowest.
    pub fn turns(&mut self, random: &mut Random, full: bool) -> Result<()> {
        let r = if random.one_in(6) { 8 } else { random.range(1, 8) };
        let n = match random.below(4) {
            _ if full => 256,
            0 => r + 1,
            _ => r + 1 + random.below(16),
        };
        self.turns.full += full as u64;
        let mut raw = match self.turns.full % 2 == 1 && full {
            true => make::slowest(random, r, n),
            false if !full && random.one_in(8) => make::stalest(random, r, n),
            false => make::sound(random, r, n),
        };
        let table = make::with_room(random, &raw.words(), raw.width());
        self.turns_of(random, table.all)?;
        if full {
            return Ok(());
        }
        // One word changed, or another table.
        let record = &mut raw.records[random.below(n)];
        match random.below(7) {
            0 => record.list[random.below(r)] = random.word(),
            1 => record.list.fill(record.id.wrapping_add(1)),
            2 => record.candidate = record.list[0],
            3 => raw.count -= 1,
            4 => raw = make::well_formed(random, None),
            5 => raw.steps = make::header_steps(random),
            _ => raw = make::tiny(random).0,
        }
        let table = make::with_room(random, &raw.words(), raw.width());
        self.turns_of(random, table.all)
    }
}
