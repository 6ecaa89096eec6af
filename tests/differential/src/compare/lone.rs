//! A table between guards that the library alone is called on. The reference makes
//! no call; what must hold is read off the words that the library left.

use super::{place, watched, Compare, Lent, Made, Piece, Reply, Result};
use crate::calls::Calls;
use crate::layout::{records, ID};
use crate::random::Random;
use crate::reference::Answer;

#[derive(Clone)]
pub struct Lone {
    pub calls: &'static Calls,
    trace: bool,
    lent: Lent<u32>,
}

impl Lone {
    /// A slice of these words, which need not be a table yet.
    pub fn new(compare: &Compare, random: &mut Random, words: Vec<u32>) -> Lone {
        let lent = Lent::new(&Piece::whole(words), random.next());
        Lone { calls: compare.under_test, trace: compare.trace, lent }
    }

    pub fn words(&self) -> &[u32] {
        &self.lent.all[self.lent.start..self.lent.start + self.lent.len]
    }

    /// The guards.
    pub fn outside(&self) -> Vec<u32> {
        let (start, end) = (self.lent.start, self.lent.start + self.lent.len);
        [&self.lent.all[..start], &self.lent.all[end..]].concat()
    }

    /// Are slice and guards the same as those of another?
    pub fn equals(&self, other: &Lone) -> bool {
        self.lent.all == other.lent.all
    }

    /// Where another one's words are not these, at most twenty.
    pub fn differences(&self, other: &Lone) -> String {
        let both = self.words().iter().zip(other.words()).enumerate();
        let differ = both.filter(|(_, (a, b))| a != b).take(20);
        let lines: Vec<String> =
            differ.map(|(i, (a, b))| format!("    at {i}: due {a}, given {b}")).collect();
        lines.join("\n")
    }

    pub fn members(&self) -> Vec<u32> {
        records(self.words()).map(|m| m[ID]).collect()
    }

    pub fn wrong<T>(&self, name: &str, what: String) -> Result<T> {
        Err(format!("DIFFERENCE in {name}, {what}\n  table {:?}\n", self.words()))
    }

    /// A call, after which the step counts are held to their rule.
    pub fn call<R: Reply>(
        &mut self,
        name: &str,
        arguments: &[u32],
        call: impl FnOnce(&Calls, &mut [u32]) -> R,
    ) -> Result<R> {
        if self.trace {
            eprintln!("{name} {arguments:?}\n  table {:?}", self.words());
        }
        let before = self.words().to_vec();
        let (calls, slice) = (self.calls, self.lent.slice());
        let given = watched(place(name), || call(calls, slice));
        let first = arguments.first().copied().unwrap_or(0);
        let made = Made { name, first, number: given.number(), values: given.values() };
        match made.rule(&before, self.words()) {
            Ok(()) => Ok(given),
            Err(what) => {
                let what = format!("{arguments:?}, {what}\n  before {before:?}");
                self.wrong(name, what)
            }
        }
    }

    /// A call that must be accepted.
    pub fn accepted(
        &mut self,
        name: &str,
        arguments: &[u32],
        call: impl FnOnce(&Calls, &mut [u32]) -> Answer,
    ) -> Result<[u32; 4]> {
        match self.call(name, arguments, call)? {
            Answer { number: 0, values, .. } => Ok(values),
            given => self.wrong(name, format!("{arguments:?} is given {given:?}")),
        }
    }
}
