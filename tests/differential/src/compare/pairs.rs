//! Pairs of tables that get the same calls, on both sides and by the library alone.
//! - Of tables that are alike, in slices of one length, each call gives the same reply, findings
//!   too, and after it they are alike again.
//! - In slices of different lengths one reply may differ: a join is accepted in the longer one
//!   and declined by 5 in the shorter.
//! - Two pairs are not alike, by the candidate of one member, and yet each call gives the same
//!   reply: before that member's next step nobody joins as either candidate, and by that step
//!   they become alike.

use super::alike::{asked, is_alike};
use super::deeds::{Deed, Told};
use super::lone::Lone;
use super::shapes::Shapes;
use super::{place, Compare, Piece, Result, CALLS, NAMES, POSSIBLE};
use crate::layout::{self, records, rest, steps, COUNT, R};
use crate::random::Random;

/// What the pairs must meet. Untold are those that are not alike at first.
const SHAPES: [&str; 15] = [
    "sound tables, room",
    "sound tables, no room",
    "tables that are not sound, room",
    "tables that are not sound, no room",
    "256 members",
    "a step count stops in one table alone",
    "a join over words that differ",
    "different lengths, all replies equal",
    "different lengths, a join accepted and declined by 5",
    "untold, room, a join as a candidate declined by 13",
    "untold, no room, a join as a candidate declined by 5",
    "untold, room, alike after a step",
    "untold, no room, alike after a step",
    "untold, alike after a round or settle",
    "untold, alike after a loss or withdrawal",
];

/// The calls that no pair gets: they make a table, or take none, or two.
const OTHERS: [&str; 7] =
    ["new", "is_open", "next_open", "alike", "take_over", "image_read", "image_field"];

/// What was met, with the reference or without it, each call by its number and reply, and how many
/// calls found the pair not alike.
struct Met {
    shapes: Shapes<{ SHAPES.len() }>,
    numbers: [[u64; 22]; CALLS],
    untold: u64,
}

/// The pairs so far.
pub struct Pairs {
    compared: Met,
    alone: Met,
    pub made: u64,
    pub calls: u64,
}

impl Met {
    fn new() -> Met {
        Met { shapes: Shapes::new(SHAPES), numbers: [[0; 22]; CALLS], untold: 0 }
    }

    /// A call with a number that well-formed tables can be given, and never were.
    fn call_never_met(&self) -> Option<String> {
        for (i, &name) in NAMES.iter().enumerate().filter(|(_, name)| !OTHERS.contains(name)) {
            let never = |&&kind: &&usize| kind != 1 && self.numbers[i][kind] == 0;
            if let Some(kind) = POSSIBLE[i].iter().find(never) {
                return Some(format!("{name} with {kind}"));
            }
        }
        None
    }
}

impl Pairs {
    pub fn new() -> Pairs {
        Pairs { compared: Met::new(), alone: Met::new(), made: 0, calls: 0 }
    }

    pub fn never_met(&self) -> Option<&'static str> {
        self.compared.shapes.never_met().or(self.alone.shapes.never_met())
    }

    pub fn kinds_never_met(&self) -> Option<String> {
        let call = self.compared.call_never_met().or(self.alone.call_never_met());
        call.map(|call| format!("pairs: {call}"))
    }

    pub fn told(&self) -> String {
        let told = |met: &Met| format!("{}, untold calls: {}", met.shapes.told(), met.untold);
        format!("{}; of the library alone: {}", told(&self.compared), told(&self.alone))
    }
}

/// The two tables, of both sides or of the library alone.
trait Tables {
    fn words(&self, of: usize) -> &[u32];

    fn make(&mut self, of: usize, deed: &Deed) -> Result<Told>;

    /// Does alike say yes, and the same both ways round?
    fn alike(&mut self) -> Result<bool>;

    /// Who is at fault where the tables are told apart.
    fn fault(&self) -> &'static str;
}

struct Compared<'a> {
    compare: &'a mut Compare,
    tables: [Piece<u32>; 2],
}

impl Tables for Compared<'_> {
    fn words(&self, of: usize) -> &[u32] {
        self.tables[of].slice()
    }

    fn make(&mut self, of: usize, deed: &Deed) -> Result<Told> {
        let (c, t, name) = (&mut *self.compare, &self.tables[of], deed.name);
        let [x, y] = deed.numbers;
        let outcome = match name {
            "held" => {
                let outcome = c.held(t, x, &Piece::whole(deed.keys.clone()))?;
                return Ok(Told::of_runs(name, outcome.answer));
            }
            "findings" => {
                let outcome = c.findings(t, &Piece::whole(deed.findings()))?;
                return Ok(Told::of(name, outcome.answer, outcome.second));
            }
            "image_write" => {
                let outcome = c.image_write(t, &Piece::whole(vec![0; deed.room]))?;
                return Ok(Told::of(name, outcome.answer, vec![]).with_image(outcome.second));
            }
            "join" => c.join(t, x, y)?,
            "stabilize" => c.stabilize(t, x)?,
            "rectify" => c.rectify(t, x, y)?,
            "leave" => c.leave(t, x)?,
            "fail" => c.fail(t, x)?,
            "lookup" => c.lookup(t, x, y)?,
            "principal" => c.principal(t, x)?,
            "round" => c.round(t)?,
            "settle" => c.settle(t, x)?,
            "settle_at" => c.settle_at(t, &deed.hours[0], &deed.hours[1])?,
            _ => c.audit(t)?,
        };
        self.tables[of] = Piece::whole(outcome.first);
        Ok(Told::of(name, outcome.answer, vec![]))
    }

    fn alike(&mut self) -> Result<bool> {
        let [a, b] = &self.tables;
        let yes = self.compare.alike(a, b)?.answer.values[0] == 1;
        self.compare.alike(b, a)?;
        Ok(yes)
    }

    fn fault(&self) -> &'static str {
        "REFERENCE"
    }
}

struct Alone([Lone; 2]);

impl Tables for Alone {
    fn words(&self, of: usize) -> &[u32] {
        self.0[of].words()
    }

    fn make(&mut self, of: usize, deed: &Deed) -> Result<Told> {
        let (table, name) = (&mut self.0[of], deed.name);
        let [x, y] = deed.numbers;
        if name == "held" {
            let runs = table.call(name, &[x], |c, t| (c.held)(t, x, &deed.keys))?;
            return Ok(Told::of_runs(name, runs));
        }
        let (mut findings, mut image) = (vec![], vec![0; deed.room]);
        if name == "findings" {
            findings = deed.findings();
        }
        let [windows, minutes] = deed.hours.each_ref().map(Piece::slice);
        let answer = table.call(name, &deed.numbers, |c, t| match name {
            "findings" => (c.findings)(t, &mut findings),
            "image_write" => (c.image_write)(t, &mut image),
            "join" => (c.join)(t, x, y),
            "stabilize" => (c.stabilize)(t, x),
            "rectify" => (c.rectify)(t, x, y),
            "leave" => (c.leave)(t, x),
            "fail" => (c.fail)(t, x),
            "lookup" => (c.lookup)(t, x, y),
            "principal" => (c.principal)(t, x),
            "round" => (c.round)(t),
            "settle" => (c.settle)(t, x),
            "settle_at" => (c.settle_at)(t, windows, minutes),
            _ => (c.audit)(t),
        })?;
        let told = Told::of(name, answer, findings);
        Ok(if name == "image_write" { told.with_image(image) } else { told })
    }

    fn alike(&mut self) -> Result<bool> {
        let [a, b] = &mut self.0;
        let yes = asked(a, b, true)?.values[0] == 1;
        asked(b, a, true)?;
        Ok(yes)
    }

    fn fault(&self) -> &'static str {
        "DIFFERENCE"
    }
}

/// Has a step count of one table alone come to the largest word?
fn stops(before: &[Vec<u32>; 2], after: &[Vec<u32>; 2]) -> bool {
    let ends =
        |words: &Vec<u32>| -> Vec<bool> { records(words).map(|m| steps(m) == u32::MAX).collect() };
    let [old, new] = [before, after].map(|tables| tables.each_ref().map(ends));
    old[0].len() == new[0].len() && old[0] == old[1] && new[0] != new[1]
}

fn has_room(words: &[u32]) -> bool {
    rest(words).len() >= layout::width(words[R] as usize)
}

/// Two tables under way: whether they are alike, and the candidates by which they are not.
struct Run<'a, T> {
    tables: T,
    alike: bool,
    candidates: &'a [u32],
    room: bool,
    met: &'a mut Met,
}

impl<T: Tables> Run<'_, T> {
    fn words(&self) -> [Vec<u32>; 2] {
        [0, 1].map(|of| self.tables.words(of).to_vec())
    }

    fn wrong<V>(&self, [a, b]: &[Vec<u32>; 2], what: String) -> Result<V> {
        let fault = self.tables.fault();
        Err(format!("{fault} in a pair of tables, {what}\n  first {a:?}\n  second {b:?}\n"))
    }

    /// Some call; while the pair is not alike, mostly one that leaves it so.
    fn some_deed(&self, random: &mut Random) -> Deed {
        let words = self.tables.words(random.below(2));
        loop {
            let deed = Deed::any(random, words, self.candidates);
            if self.alike || !deed.steps(words) || random.one_in(8) {
                return deed;
            }
        }
    }

    /// One call on both. Says whether a join found room in the longer slice alone.
    fn make(&mut self, deed: &Deed) -> Result<bool> {
        let before = self.words();
        let mut told = [self.tables.make(0, deed)?, self.tables.make(1, deed)?];
        if !self.alike {
            // Images have the candidates.
            told.iter_mut().for_each(|one| one.image.clear());
        }
        let numbers = [told[0].number, told[1].number];
        let lengths = [before[0].len(), before[1].len()];
        let parted = match numbers {
            [0, 5] => lengths[0] > lengths[1],
            [5, 0] => lengths[0] < lengths[1],
            _ => false,
        };
        if parted && deed.name == "join" {
            self.met.shapes.meet("different lengths, a join accepted and declined by 5");
            return Ok(true);
        }
        let what = format!("{deed:?} gives {:?} and {:?}", told[0], told[1]);
        let tried =
            !self.alike && deed.name == "join" && self.candidates.contains(&deed.numbers[0]);
        if told[0] != told[1] || (tried && numbers[0] == 0) {
            return self.wrong(&before, what);
        }
        let alike = self.tables.alike()?;
        let after = self.words();
        if alike != is_alike(&after[0], &after[1]) || (self.alike && !alike) {
            return self.wrong(&before, format!("{what}, and then alike: {alike}"));
        }
        self.met.untold += !self.alike as u64;
        if let Some(met) = self.met.numbers[place(deed.name)].get_mut(told[0].kind) {
            *met += 1;
        }
        let joined = deed.name == "join" && numbers[0] == 0;
        let over = joined && rest(&before[0])[0] != rest(&before[1])[0];
        let declined = |by: u32| tried && numbers[0] == by;
        let by = |names: &[&str]| !self.alike && alike && names.contains(&deed.name);
        let (step, room) = (by(&["stabilize"]), self.room);
        self.met.shapes.meet_each(&[
            (stops(&before, &after), "a step count stops in one table alone"),
            (over, "a join over words that differ"),
            (room && declined(13), "untold, room, a join as a candidate declined by 13"),
            (!room && declined(5), "untold, no room, a join as a candidate declined by 5"),
            (room && step, "untold, room, alike after a step"),
            (!room && step, "untold, no room, alike after a step"),
            (by(&["round", "settle", "settle_at"]), "untold, alike after a round or settle"),
            (by(&["leave", "fail"]), "untold, alike after a loss or withdrawal"),
        ]);
        self.alike = alike;
        Ok(false)
    }
}

/// Some calls on two tables, which are alike or, where there are candidates, not. Tells how many.
fn drive(
    tables: impl Tables,
    random: &mut Random,
    length: u64,
    candidates: &[u32],
    met: &mut Met,
) -> Result<u64> {
    let room = has_room(tables.words(0));
    let mut run = Run { tables, alike: candidates.is_empty(), candidates, room, met };
    if run.tables.alike()? != run.alike {
        return run.wrong(&run.words(), "not as it was made".to_string());
    }
    for number in 1..=length {
        let deed = run.some_deed(random);
        if run.make(&deed)? {
            return Ok(number);
        }
    }
    let apart = run.tables.words(0).len() != run.tables.words(1).len();
    run.met.shapes.meet_each(&[(apart, "different lengths, all replies equal")]);
    Ok(length)
}

impl Compare {
    /// Some calls on a pair of tables, which is alike or, where there are candidates, not; on
    /// both sides, or of the library alone.
    pub fn pair(
        &mut self,
        random: &mut Random,
        pair: &[Piece<u32>; 2],
        candidates: &[u32],
        length: usize,
        alone: bool,
    ) -> Result<()> {
        let mut lone = pair.each_ref().map(|t| Lone::new(self, random, t.slice().to_vec()));
        let sound = lone[0].call("audit", &[], |c, t| (c.audit)(t))?.values[3] > 0;
        let room = has_room(lone[0].words());
        let own = if alone { &mut self.pairs.alone } else { &mut self.pairs.compared };
        let mut met = std::mem::replace(own, Met::new());
        met.shapes.meet_each(&[
            (sound && room, "sound tables, room"),
            (sound && !room, "sound tables, no room"),
            (!sound && room, "tables that are not sound, room"),
            (!sound && !room, "tables that are not sound, no room"),
            (lone[0].words()[COUNT] == 256, "256 members"),
        ]);
        let length = length as u64;
        let made = match alone {
            true => drive(Alone(lone), random, length, candidates, &mut met),
            false => {
                let tables = Compared { compare: self, tables: pair.clone() };
                drive(tables, random, length, candidates, &mut met)
            }
        };
        *(if alone { &mut self.pairs.alone } else { &mut self.pairs.compared }) = met;
        self.pairs.made += 1;
        self.pairs.calls += made?;
        Ok(())
    }
}
