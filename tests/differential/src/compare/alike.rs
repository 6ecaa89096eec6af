//! What alike must say, read off the words: of two well-formed tables yes where r, the member
//! count and each record up to its step count are equal, and else no; 1 where one of them is not
//! well-formed. And what a run must meet of it, on both sides and of the library alone: each word
//! of a table the only one that differs.

use super::lent::nothing;
use super::lone::Lone;
use super::shapes::Shapes;
use super::{Compare, Outcome, Piece, Result};
use crate::layout::{
    self, list, place_of, records, rest, steps, uncounted, CANDIDATE, COUNT, HEADER, ID, LIST,
    PENDING, R, STEPS,
};
use crate::random::Random;
use crate::reference::{self, Answer};

/// What alike must meet; "alone" is the only word that differs.
const SHAPES: [&str; 20] = [
    "r alone, no member",
    "r alone, members",
    "r alone, 1",
    "the member count alone",
    "the member count alone, 1",
    "the header's step count alone, 1",
    "an identifier alone, 1",
    "pending alone, 1",
    "a candidate alone, 1",
    "a word after the last record alone",
    "all words after the last record",
    "all step counts",
    "4294967295 against another step count",
    "slices of different lengths",
    "slices of different lengths, room for a record in one",
    "r, members and first entries equal, no",
    "two entries of a list exchanged",
    "256 members, a word of the highest alone",
    "256 members, all step counts",
    "two tables that are not well-formed",
];

/// Where a record stands among three or more.
const PLACES: [&str; 3] = ["lowest", "between", "highest"];

/// How many words the widest record has.
const WIDEST: usize = layout::width(8);

/// What was met, with the reference or without it. `words`: by r, by word of a record and by
/// where that stands, how often this one alone differed, both tables well-formed.
struct Met {
    shapes: Shapes<{ SHAPES.len() }>,
    words: [[[u64; PLACES.len()]; WIDEST]; 8],
}

/// The calls so far.
pub struct Alikes {
    compared: Met,
    alone: Met,
    pub asked: u64,
}

/// Are two well-formed tables equal but for step counts and what stands after the last record?
pub fn is_alike(a: &[u32], b: &[u32]) -> bool {
    a[R] == b[R] && a[COUNT] == b[COUNT] && records(a).map(uncounted).eq(records(b).map(uncounted))
}

/// What is due to two tables, both of them well-formed or not.
fn due(formed: bool, a: &[u32], b: &[u32]) -> Answer {
    match formed {
        false => Answer { number: 1, values: [0; 4], count: 0 },
        true => Answer { number: 0, values: [is_alike(a, b) as u32, 0, 0, 0], count: 1 },
    }
}

/// Have two lists the same entries in another order?
fn are_exchanged(a: &[u32], b: &[u32]) -> bool {
    let sorted = |list: &[u32]| {
        let mut list = list.to_vec();
        list.sort();
        list
    };
    a != b && sorted(a) == sorted(b)
}

impl Met {
    fn new() -> Met {
        Met { shapes: Shapes::new(SHAPES), words: [[[0; 3]; WIDEST]; 8] }
    }

    /// A word of a record, of some r, that never was the only one to differ.
    fn word_never_met(&self) -> Option<String> {
        for r in 1..=8 {
            for (word, met) in self.words[r - 1].iter().enumerate().take(layout::width(r)) {
                if let Some(place) = met.iter().position(|&met| met == 0) {
                    let place = PLACES[place];
                    return Some(format!("word {word} of the {place} record alone, r = {r}"));
                }
            }
        }
        None
    }

    fn told(&self) -> String {
        let met = |r: usize| self.words[r].iter().take(layout::width(r + 1)).flatten();
        let least = (0..8).flat_map(met).min().unwrap_or(&0);
        format!("{}; each word of a record alone {least} times or more", self.shapes.told())
    }

    /// Counts a call by the words that differ.
    fn count(&mut self, a: &[u32], b: &[u32], given: Answer) {
        let differ: Vec<usize> = (0..a.len().min(b.len())).filter(|&at| a[at] != b[at]).collect();
        let one = (a.len() == b.len() && differ.len() == 1).then(|| differ[0]);
        if given.number == 0 {
            self.count_formed(a, b, given.values[0] == 1, &differ);
            return one.into_iter().for_each(|at| self.count_word(a, at));
        }
        match [a, b].into_iter().find(|t| reference::members(t).is_some()) {
            Some(formed) => one.into_iter().for_each(|at| self.count_damage(formed, at)),
            None => self.shapes.meet("two tables that are not well-formed"),
        }
    }

    /// One word differs, and one of the tables is not well-formed by it.
    fn count_damage(&mut self, formed: &[u32], at: usize) {
        let word = place_of(formed, at).map(|place| place.1);
        self.shapes.meet_each(&[
            (at == R, "r alone, 1"),
            (at == COUNT, "the member count alone, 1"),
            (at == STEPS, "the header's step count alone, 1"),
            (word == Some(ID), "an identifier alone, 1"),
            (word == Some(PENDING), "pending alone, 1"),
            (word == Some(CANDIDATE), "a candidate alone, 1"),
        ]);
    }

    /// One word differs, and both are well-formed.
    fn count_word(&mut self, a: &[u32], at: usize) {
        let (r, n) = (a[R] as usize, a[COUNT] as usize);
        if let Some((place, word)) = place_of(a, at).filter(|_| n > 2) {
            let kind = [place == 0, place + 1 < n, true].iter().position(|&is| is).unwrap_or(0);
            self.words[r - 1][word][kind] += 1;
            let full = n == 256 && kind == 2 && word < LIST + r;
            self.shapes.meet_each(&[(full, "256 members, a word of the highest alone")]);
        }
        self.shapes.meet_each(&[
            (at == R && n == 0, "r alone, no member"),
            (at == R && n > 0, "r alone, members"),
            (at == COUNT, "the member count alone"),
            (at >= HEADER && at >= layout::size(r, n), "a word after the last record alone"),
        ]);
    }

    /// Both are well-formed.
    fn count_formed(&mut self, a: &[u32], b: &[u32], yes: bool, differ: &[usize]) {
        let same = a[R] == b[R] && a[COUNT] == b[COUNT];
        let (n, width) = (a[COUNT], layout::width(a[R] as usize));
        let both = || records(a).zip(records(b));
        if !yes {
            let heads = same && both().all(|(a, b)| a[ID] == b[ID] && a[LIST] == b[LIST]);
            let exchanged =
                same && differ.len() == 2 && both().any(|(a, b)| are_exchanged(list(a), list(b)));
            return self.shapes.meet_each(&[
                (heads, "r, members and first entries equal, no"),
                (exchanged, "two entries of a list exchanged"),
            ]);
        }
        let counts = || both().map(|(a, b)| (steps(a), steps(b)));
        let all = n > 1 && counts().all(|(a, b)| a != b);
        let one = counts().any(|(a, b)| a != b && a.max(b) == u32::MAX);
        let (after, behind) = (rest(a), rest(b));
        let rests = after.len() > 1 && after.iter().zip(behind).all(|(a, b)| a != b);
        let room = (after.len() < width) != (behind.len() < width);
        self.shapes.meet_each(&[
            (rests && after.len() == behind.len(), "all words after the last record"),
            (all, "all step counts"),
            (one, "4294967295 against another step count"),
            (after.len() != behind.len(), "slices of different lengths"),
            (room, "slices of different lengths, room for a record in one"),
            (all && n == 256, "256 members, all step counts"),
        ]);
    }
}

impl Alikes {
    pub fn new() -> Alikes {
        Alikes { compared: Met::new(), alone: Met::new(), asked: 0 }
    }

    pub fn never_met(&self) -> Option<&'static str> {
        self.compared.shapes.never_met().or(self.alone.shapes.never_met())
    }

    pub fn kinds_never_met(&self) -> Option<String> {
        let word = self.compared.word_never_met().or(self.alone.word_never_met());
        word.map(|word| format!("alike: {word}"))
    }

    pub fn told(&self) -> String {
        format!("{}; of the library alone: {}", self.compared.told(), self.alone.told())
    }
}

/// What the library alone says of two tables, which must be what is due to them.
pub fn asked(a: &mut Lone, b: &Lone, formed: bool) -> Result<Answer> {
    let before = a.clone();
    let due = due(formed, a.words(), b.words());
    let given = a.call("alike", &[], |c, t| (c.alike)(t, b.words()))?;
    if given != due || !a.equals(&before) {
        let what = format!("is given {given:?}, not {due:?}, or writes\n  second {:?}", b.words());
        return before.wrong("alike", what);
    }
    Ok(given)
}

impl Compare {
    pub fn alike(&mut self, a: &Piece<u32>, b: &Piece<u32>) -> Result<Outcome<u32, u32>> {
        self.ask_parts(b.slice())?;
        let outcome = self.on_table("alike", &[], a, b, |c, a, b| (c.alike)(a, b))?;
        let answer = outcome.answer;
        self.count_second(a, b, answer)?;
        let (a, b) = (a.slice(), b.slice());
        if answer.number == 0 && answer != due(true, a, b) {
            return Err(format!("REFERENCE gives {answer:?} to {a:?}\n  and {b:?}\n"));
        }
        self.alikes.compared.count(a, b, answer);
        Ok(outcome)
    }

    /// Both slices are the same one.
    pub fn alike_itself(&mut self, table: &Piece<u32>) -> Result<Outcome<u32, u32>> {
        self.on_table("alike", &[], table, &nothing(), |c, t, _| (c.alike)(t, t))
    }

    /// The library alone: 1 where its own audit of a table is declined by 1, and else what the
    /// words say.
    pub fn alike_alone(
        &mut self,
        random: &mut Random,
        a: &Piece<u32>,
        b: &Piece<u32>,
    ) -> Result<()> {
        let [mut a, mut b] = [a, b].map(|t| Lone::new(self, random, t.slice().to_vec()));
        let mut formed = true;
        for t in [&mut a, &mut b] {
            formed &= t.call("audit", &[], |c, t| (c.audit)(t))?.number != 1;
        }
        let given = asked(&mut a, &b, formed)?;
        self.alikes.alone.count(a.words(), b.words(), given);
        self.alikes.asked += 1;
        Ok(())
    }
}
