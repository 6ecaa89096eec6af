//! One call on both sides, with the same buffers between the same guards.
//! Answers and whole buffers, guards too, must be equal afterwards.

mod alike;
mod alone;
mod counts;
mod deeds;
mod find;
mod hours;
mod ideal;
mod join;
mod lent;
mod lone;
mod pairs;
mod parts;
mod passed;
mod principal;
mod settle;
mod settle_at;
mod shapes;
mod turns;
mod weeks;
mod withdrawals;

use crate::calls::{Calls, REFERENCE};
use crate::random::mix;
use crate::reference::{Answer, Runs};
use alike::Alikes;
use alone::Alone;
use counts::{Counts, Made};
use find::Finds;
use hours::Hours;
use ideal::Ideals;
use join::Joins;
use lent::{nothing, Lent};
pub use lent::{Element, Piece};
use pairs::Pairs;
use parts::Parts;
use passed::Passed;
use principal::Principals;
use settle::Settles;
use settle_at::SettlesAt;
use std::sync::atomic::{AtomicUsize, Ordering};
use turns::Turns;
use weeks::Weeks;
use withdrawals::Withdrawals;

/// The call under way on the library's side, as a place in `NAMES` plus 1, so
/// that a panic can be told apart.
static UNDER_WAY: AtomicUsize = AtomicUsize::new(0);

/// The name of the call under way on the library's side, if there is one.
pub fn under_way() -> Option<&'static str> {
    UNDER_WAY.load(Ordering::Relaxed).checked_sub(1).map(|i| NAMES[i])
}

/// Makes a call of the library with its name at hand for a panic.
fn watched<T>(index: usize, call: impl FnOnce() -> T) -> T {
    UNDER_WAY.store(index + 1, Ordering::Relaxed);
    let given = call();
    UNDER_WAY.store(0, Ordering::Relaxed);
    given
}

const CALLS: usize = 21;

pub const NAMES: [&str; CALLS] = [
    "new",
    "join",
    "stabilize",
    "rectify",
    "fail",
    "leave",
    "lookup",
    "held",
    "principal",
    "audit",
    "findings",
    "round",
    "settle",
    "is_open",
    "next_open",
    "settle_at",
    "alike",
    "take_over",
    "image_write",
    "image_read",
    "image_field",
];

fn place(name: &str) -> usize {
    NAMES.iter().position(|&n| n == name).expect("a known call")
}

/// What a call answers.
pub trait Reply: PartialEq {
    fn number(&self) -> u32;

    /// The values of the reply.
    fn values(&self) -> [u32; 4];

    /// The answer as it is printed.
    fn told(&self) -> String;

    /// What an accepted call of this name is sorted by.
    fn sort(&self, name: &str) -> u32;
}

impl Reply for Answer {
    fn number(&self) -> u32 {
        self.number
    }

    fn values(&self) -> [u32; 4] {
        self.values
    }

    fn told(&self) -> String {
        format!("{} {:?}, {} values", self.number, self.values, self.count)
    }

    fn sort(&self, name: &str) -> u32 {
        match name {
            "stabilize" | "rectify" | "principal" | "alike" | "take_over" => self.values[0],
            "round" | "is_open" | "next_open" => self.values[0],
            "settle" | "settle_at" => self.values[1],
            "audit" | "findings" => self.values[3],
            _ => 0,
        }
    }
}

impl Reply for Runs {
    fn number(&self) -> u32 {
        self.number
    }

    fn values(&self) -> [u32; 4] {
        [0; 4]
    }

    fn told(&self) -> String {
        format!("{} from {:?} to {:?}, {} runs", self.number, self.start, self.end, self.runs)
    }

    fn sort(&self, _: &str) -> u32 {
        self.runs
    }
}

/// The numbers each call can give, in the order of `NAMES`. Stabilize's three
/// replies and audit's three verdicts count as 0, 20 and 21, no and yes as 0 and
/// 20, closed and open, none and some too; held's one run and two as 20 and 21, a round's and
/// the settles' verdicts 1 and 2 too.
const POSSIBLE: [&[usize]; CALLS] = [
    &[0, 10, 11],
    &[0, 1, 2, 3, 4, 13, 5],
    &[0, 20, 21, 1, 3],
    &[0, 20, 1, 3],
    &[0, 1, 3],
    &[0, 1, 3, 6, 7],
    &[0, 1, 3, 8],
    &[20, 21, 1, 3, 12],
    &[0, 20, 1, 3],
    &[0, 20, 21, 1],
    &[0, 20, 21, 1, 10],
    &[20, 21, 1, 14],
    &[20, 21, 1, 14],
    &[0, 20, 15],
    &[0, 20, 15],
    &[20, 21, 1, 15, 16, 14],
    &[0, 20, 1],
    &[0, 20],
    &[0, 1, 10],
    &[0, 9, 10],
    &[0, 9],
];

/// Sorts the answer of a call by its number, and a few by their reply too.
fn kind(name: &str, answer: &impl Reply) -> usize {
    match (answer.number(), answer.sort(name)) {
        (0, 0) => 0,
        (0, reply) => 19 + reply as usize,
        (number, _) => number as usize,
    }
}

/// The comparisons made so far, and the side under test.
pub struct Compare {
    under_test: &'static Calls,
    pub counts: [u64; CALLS],
    numbers: [[u64; 22]; CALLS],
    parts: Parts,
    principals: Principals,
    joins: Joins,
    ideals: Ideals,
    alone: Alone,
    withdrawals: Withdrawals,
    settles: Settles,
    hours: Hours,
    settles_at: SettlesAt,
    weeks: Weeks,
    turns: Turns,
    finds: Finds,
    passed: Passed,
    step_counts: Counts,
    alikes: Alikes,
    pairs: Pairs,
    /// Tells each call on standard error before it is made.
    pub trace: bool,
}

/// What one call gave on both sides.
pub struct Outcome<A, B, R = Answer> {
    pub answer: R,
    pub first: Vec<A>,
    pub second: Vec<B>,
}

type Result<T> = std::result::Result<T, String>;

impl Compare {
    pub fn new(under_test: &'static Calls) -> Compare {
        Compare {
            under_test,
            counts: [0; CALLS],
            numbers: [[0; 22]; CALLS],
            parts: Parts::new(),
            principals: Principals::new(),
            joins: Joins::new(),
            ideals: Ideals::new(),
            alone: Alone::new(),
            withdrawals: Withdrawals::new(),
            settles: Settles::new(),
            hours: Hours::new(),
            settles_at: SettlesAt::new(),
            weeks: Weeks::new(),
            turns: Turns::new(),
            finds: Finds::new(),
            passed: Passed::new(),
            step_counts: Counts::new(),
            alikes: Alikes::new(),
            pairs: Pairs::new(),
            trace: false,
        }
    }

    /// How often each call gave each of its numbers.
    pub fn numbers(&self) -> String {
        let mut text = String::new();
        for (i, name) in NAMES.iter().enumerate() {
            let met: Vec<String> = POSSIBLE[i]
                .iter()
                .map(|&kind| match kind {
                    20 | 21 => format!("0 with {}: {}", kind - 19, self.numbers[i][kind]),
                    _ => format!("{kind}: {}", self.numbers[i][kind]),
                })
                .collect();
            text += &format!("  {name}: {}\n", met.join(", "));
        }
        text += &format!("  parts: {}\n", self.parts.told());
        text += &format!("  principal: {}\n", self.principals.told());
        text += &format!("  join: {}\n", self.joins.told());
        text += &format!("  ideal: {}\n", self.ideals.told());
        text += &format!("  alone: {}\n", self.alone.told());
        text += &format!("  withdrawals: {}\n", self.withdrawals.told());
        text += &format!("  settle: {}\n", self.settles.told());
        text += &format!("  hours: {}\n", self.hours.told());
        text += &format!("  settle with windows: {}\n", self.settles_at.told());
        text += &format!("  weeks: {}\n", self.weeks.told());
        text += &format!("  turns: {}\n", self.turns.told());
        text += &format!("  find: {}\n", self.finds.told());
        text += &format!("  passed: {}\n", self.passed.told());
        text += &format!("  counts: {}\n", self.step_counts.told());
        text += &format!("  alike: {}\n", self.alikes.told());
        text + &format!("  pairs: {}\n", self.pairs.told())
    }

    /// A call with a number that it can give but never gave, or a shape that
    /// never came up.
    pub fn never_met(&self) -> Option<String> {
        for (i, &name) in NAMES.iter().enumerate() {
            for &kind in POSSIBLE[i] {
                if self.numbers[i][kind] == 0 {
                    return Some(format!("{name} with {kind}"));
                }
            }
        }
        let shapes = [
            ("parts with", self.parts.never_met()),
            ("principal with", self.principals.never_met()),
            ("join:", self.joins.never_met()),
            ("ideal:", self.ideals.never_met()),
            ("alone:", self.alone.never_met()),
            ("withdrawals:", self.withdrawals.never_met()),
            ("settle:", self.settles.never_met()),
            ("hours:", self.hours.never_met()),
            ("settle with windows:", self.settles_at.never_met()),
            ("weeks:", self.weeks.never_met()),
            ("turns:", self.turns.never_met()),
            ("find:", self.finds.never_met()),
            ("passed:", self.passed.never_met()),
            ("counts:", self.step_counts.never_met()),
            ("alike:", self.alikes.never_met()),
            ("pairs:", self.pairs.never_met()),
        ];
        let never = |(what, shape): &(_, Option<_>)| shape.map(|shape| format!("{what} {shape}"));
        let kinds = || {
            let lists = self.ideals.kinds_never_met().or(self.finds.kinds_never_met());
            let words = self.step_counts.kinds_never_met().or(self.alikes.kinds_never_met());
            lists.or(words).or(self.pairs.kinds_never_met())
        };
        shapes.iter().find_map(never).or_else(kinds)
    }

    pub fn total(&self) -> u64 {
        self.counts.iter().sum()
    }

    fn run<A: Element, B: Element, R: Reply>(
        &mut self,
        name: &str,
        arguments: &[u64],
        first: &Piece<A>,
        second: &Piece<B>,
        call: impl Fn(&Calls, &mut [A], &mut [B]) -> R,
    ) -> Result<Outcome<A, B, R>> {
        let seed = mix(self.total());
        let index = place(name);
        self.counts[index] += 1;

        let (mut a, mut b) = (Lent::new(first, seed), Lent::new(second, seed >> 8));
        let (mut lib_a, mut lib_b) = (a.clone(), b.clone());
        let expected = call(&REFERENCE, a.slice(), b.slice());
        let inputs = || {
            format!(
                "  numbers {arguments:?}\n  first slice, {} of {:?}\n  second slice, {} of {:?}\n",
                first.len, first.all, second.len, second.all
            )
        };
        if self.trace {
            eprint!("{name}\n{}", inputs());
            eprintln!("  reference {}", expected.told());
        }
        let given = watched(index, || call(self.under_test, lib_a.slice(), lib_b.slice()));

        let equal = expected == given && a.all == lib_a.all && b.all == lib_b.all;
        let kept =
            expected.number() == 0 || (a.slice() == first.slice() && b.slice() == second.slice());
        if equal && kept {
            self.numbers[index][kind(name, &expected)] += 1;
            return Ok(Outcome {
                answer: expected,
                first: a.slice().to_vec(),
                second: b.slice().to_vec(),
            });
        }

        let mut text = if kept {
            format!("DIFFERENCE in {name}\n")
        } else {
            format!("REFERENCE changes a buffer in a refused {name}\n")
        };
        text += &inputs();
        text += &format!("  reference {}\n", expected.told());
        text += &format!("  library   {}\n", given.told());
        for (which, lines) in [("first", a.differences(&lib_a)), ("second", b.differences(&lib_b))]
        {
            if !lines.is_empty() {
                text += &format!("  {which} slice afterwards\n{}\n", lines.join("\n"));
            }
        }
        Err(text)
    }

    /// A call on a table. Before and after it the members are asked for their
    /// parts of some keys, and whether they are principals; their step counts are
    /// held to the rule.
    fn on_table<B: Element, R: Reply>(
        &mut self,
        name: &str,
        arguments: &[u64],
        table: &Piece<u32>,
        second: &Piece<B>,
        call: impl Fn(&Calls, &mut [u32], &mut [B]) -> R,
    ) -> Result<Outcome<u32, B, R>> {
        self.ask_parts(table.slice())?;
        let outcome = self.run(name, arguments, table, second, call)?;
        let (number, values) = (outcome.answer.number(), outcome.answer.values());
        let first = arguments.first().map_or(0, |&first| first as u32);
        let made = Made { name, first, number, values };
        made.rule(table.slice(), &outcome.first).map_err(|what| {
            format!("REFERENCE in {name} {arguments:?}, {what}\n  table {table:?}\n")
        })?;
        self.step_counts.count(&made, table.slice(), &outcome.first);
        if outcome.first != table.slice() {
            self.ask_parts(&outcome.first)?;
        }
        Ok(outcome)
    }

    pub fn make(
        &mut self,
        table: &Piece<u32>,
        r: u32,
        ids: &Piece<u32>,
    ) -> Result<Outcome<u32, u32>> {
        self.on_table("new", &[r as u64], table, ids, |c, t, ids| (c.new)(t, r, ids))
    }

    pub fn stabilize(&mut self, table: &Piece<u32>, n: u32) -> Result<Outcome<u32, u32>> {
        self.on_table("stabilize", &[n as u64], table, &nothing(), |c, t, _| (c.stabilize)(t, n))
    }

    pub fn rectify(&mut self, table: &Piece<u32>, n: u32, q: u32) -> Result<Outcome<u32, u32>> {
        self.on_table("rectify", &[n as u64, q as u64], table, &nothing(), |c, t, _| {
            (c.rectify)(t, n, q)
        })
    }

    pub fn fail(&mut self, table: &Piece<u32>, n: u32) -> Result<Outcome<u32, u32>> {
        self.on_table("fail", &[n as u64], table, &nothing(), |c, t, _| (c.fail)(t, n))
    }

    pub fn leave(&mut self, table: &Piece<u32>, n: u32) -> Result<Outcome<u32, u32>> {
        self.on_table("leave", &[n as u64], table, &nothing(), |c, t, _| (c.leave)(t, n))
    }

    pub fn held(
        &mut self,
        table: &Piece<u32>,
        n: u32,
        keys: &Piece<u32>,
    ) -> Result<Outcome<u32, u32, Runs>> {
        self.on_table("held", &[n as u64], table, keys, |c, t, keys| (c.held)(t, n, keys))
    }

    pub fn take_over(
        &mut self,
        own: u32,
        h: u32,
        c: u32,
        h_list: &Piece<u32>,
        c_list: &Piece<u32>,
    ) -> Result<Outcome<u32, u32>> {
        let arguments = [own as u64, h as u64, c as u64];
        self.run("take_over", &arguments, h_list, c_list, |calls, hl, cl| {
            (calls.take_over)(own, h, c, hl, cl)
        })
    }

    pub fn image_write(
        &mut self,
        table: &Piece<u32>,
        image: &Piece<u8>,
    ) -> Result<Outcome<u32, u8>> {
        self.on_table("image_write", &[], table, image, |c, t, i| (c.image_write)(t, i))
    }

    pub fn image_read(
        &mut self,
        table: &Piece<u32>,
        image: &Piece<u8>,
    ) -> Result<Outcome<u32, u8>> {
        let outcome =
            self.on_table("image_read", &[], table, image, |c, t, i| (c.image_read)(t, i))?;
        self.count_image(outcome.answer.number, &outcome.first, image.slice())?;
        Ok(outcome)
    }

    pub fn image_field(&mut self, image: &Piece<u8>, position: usize) -> Result<Outcome<u8, u8>> {
        self.run("image_field", &[position as u64], image, &nothing(), |c, i, _| {
            (c.image_field)(i, position)
        })
    }
}
