//! The step counts before and after a call, held to their own rule, and what a run must meet of
//! them. The rule asks no side:
//! - a member before and after a call keeps its count, but an accepted stabilize adds 1 to its
//!   own member's, a round 1 to r + 2 to each, a settle of k rounds, with windows too, k to
//!   k (r + 2) to each; a count stops at the largest word;
//! - a shelf that joins, and each member by new, has 0, and by reading what the image says;
//! - the header's count is 0 after an accepted call, and where it is not, 1 declines the call;
//! - of tables in the layout before this one none with a step count is well-formed, nor any of
//!   three or more members; of images none with a step count or with members is read.

use super::shapes::Shapes;
use super::{Compare, Piece, Result, NAMES};
use crate::layout::{
    self, record, records, steps, steps_at, COUNT, HEADER, ID, PREDECESSOR, R, STEPS,
};
use crate::reference::{self, Answer};
use std::collections::BTreeSet;

/// The largest word.
const LARGEST: u32 = u32::MAX;

/// What calls must meet; windows stands for settle with windows. Different are the counts of two
/// or more members, all of those that are there or that move.
const SHAPES: [&str; 42] = [
    "again to 4294967295",
    "look to 4294967295",
    "done to 4294967295",
    "again at 4294967295",
    "look at 4294967295",
    "done at 4294967295",
    "a step, different counts",
    "a notice is new, different counts",
    "a round, some to 4294967295 and others not",
    "a round, some at 4294967295 and others not",
    "a round adds 1 to some, more to others",
    "a round adds r + 2",
    "a round of 256 members, different counts",
    "a settle, some to 4294967295 and others not",
    "a settle, some at 4294967295 and others not",
    "a settle adds as many as its rounds to some, more to others",
    "a settle of 256 members, different counts",
    "a settle without a round, different counts",
    "windows, some to 4294967295 and others not",
    "windows, some at 4294967295 and others not",
    "windows, as many as the rounds for some, more for others",
    "windows, 256 members, different counts",
    "windows, no round, different counts",
    "a join, records with different counts move",
    "a join between, over a word that is not 0",
    "a join above all, over a word that is not 0",
    "a join, p's count not 0",
    "a loss, records with different counts move",
    "a loss of the highest member, its count not 0",
    "a withdrawal, records with different counts move",
    "new over words that are not 0",
    "writing of different counts",
    "writing of 4294967295",
    "reading of different counts",
    "reading of 4294967295",
    "reading over words that are not 0",
    "alike with other counts",
    "a shelf with a count is lost and joins again",
    "a shelf with a count withdraws and joins again",
    "the highest member with a count goes and joins again",
    "a shelf at 4294967295 goes and joins again",
    "a shelf with a count goes and joins again after steps of p",
];

/// What tables and images in the layout before this one must meet.
const OLDER: [&str; 11] = [
    "no member, well-formed",
    "one member and a word after it, well-formed",
    "one member and no word after it, 1",
    "two members, well-formed",
    "two members, words enough, 1",
    "more members, words enough, 1",
    "a step count, else well-formed, 1",
    "a step count, else not, 1",
    "an image without members, read",
    "an image without members, a step count, 9",
    "an image with members, 9",
];

/// The calls that take no table, or make one without looking at the old words.
const OTHERS: [&str; 6] = ["new", "is_open", "next_open", "take_over", "image_read", "image_field"];
const SECOND: &str = "alike, the second table";
const TAKING: usize = NAMES.len() - OTHERS.len() + 1;

/// The calls that take a table, and last once more the one that takes two. Each must decline by 1
/// a table that is well-formed but for its header's step count: 1, the largest, another.
fn taking() -> impl Iterator<Item = &'static str> {
    NAMES.into_iter().filter(|name| !OTHERS.contains(name)).chain([SECOND])
}

const HEADERS: [&str; 3] = ["1", "4294967295", "another number"];

/// The calls so far. `tags`: images that tag 1's step count alone declines, by the one of its
/// bytes that is not 0, and last those of which no byte is.
pub struct Counts {
    shapes: Shapes<{ SHAPES.len() }>,
    older: Shapes<{ OLDER.len() }>,
    headers: [[u64; HEADERS.len()]; TAKING],
    tags: [u64; 5],
}

/// A call that was made: its name, its first number, what declined it, and its reply.
pub struct Made<'a> {
    pub name: &'a str,
    pub first: u32,
    pub number: u32,
    pub values: [u32; 4],
}

impl Made<'_> {
    /// Does it make a table without looking at the old words?
    fn makes(&self) -> bool {
        matches!(self.name, "new" | "image_read")
    }

    /// By how much it raises the count of a member, at least and at most.
    fn raises(&self, member: u32, r: u32) -> [u64; 2] {
        let rounds = |k: u32| [k as u64, k as u64 * (r as u64 + 2)];
        match self.name {
            "stabilize" => [(member == self.first) as u64; 2],
            "round" => rounds(1),
            "settle" | "settle_at" => rounds(self.values[0]),
            _ => [0; 2],
        }
    }

    /// What the rule does not allow, if there is anything.
    pub fn rule(&self, before: &[u32], after: &[u32]) -> std::result::Result<(), String> {
        let counts = before.get(STEPS).is_some_and(|&header| header != 0);
        if counts && !self.makes() && self.number != 1 {
            return Err(format!("{} is given, and the header counts steps", self.number));
        }
        if self.number != 0 || after.len() < HEADER {
            return Ok(());
        }
        if after[STEPS] != 0 {
            return Err(format!("the header's step count becomes {}", after[STEPS]));
        }
        for (id, old, new) in pairs(if self.makes() { &[] } else { before }, after) {
            let Some(old) = old else {
                if new != 0 && self.name != "image_read" {
                    return Err(format!("{id} starts at the step count {new}"));
                }
                continue;
            };
            let due = self.raises(id, after[R]).map(|by| (old as u64 + by).min(LARGEST as u64));
            if !(due[0]..=due[1]).contains(&(new as u64)) {
                return Err(format!("the step count of {id} goes from {old} to {new}"));
            }
        }
        Ok(())
    }
}

/// The members of a table, each with its count in the table before, where it was one, and now.
fn pairs(before: &[u32], after: &[u32]) -> Vec<(u32, Option<u32>, u32)> {
    let mut old = (!before.is_empty()).then(|| records(before).peekable());
    let pair = |m: &[u32]| {
        let same = old.as_mut().and_then(|old| {
            while old.next_if(|o| o[ID] < m[ID]).is_some() {}
            old.next_if(|o| o[ID] == m[ID])
        });
        (m[ID], same.map(steps), steps(m))
    };
    records(after).map(pair).collect()
}

/// Are there two or more members from a place on, no two of them with equal counts?
fn are_different(words: &[u32], from: usize) -> bool {
    let counts: Vec<u32> = records(words).skip(from).map(steps).collect();
    counts.len() > 1 && counts.iter().collect::<BTreeSet<_>>().len() == counts.len()
}

/// The count of a member, 0 where there is none of this identifier.
fn count_of(words: &[u32], id: u32) -> u32 {
    record(words, id).map_or(0, steps)
}

/// Is a table well-formed but for its header's step count?
fn else_formed(words: &[u32]) -> bool {
    let mut words = words.to_vec();
    words[STEPS] = 0;
    reference::members(&words).is_some()
}

impl Counts {
    pub fn new() -> Counts {
        Counts {
            shapes: Shapes::new(SHAPES),
            older: Shapes::new(OLDER),
            headers: [[0; HEADERS.len()]; TAKING],
            tags: [0; 5],
        }
    }

    pub fn never_met(&self) -> Option<&'static str> {
        self.shapes.never_met().or(self.older.never_met())
    }

    pub fn kinds_never_met(&self) -> Option<String> {
        for (call, met) in taking().zip(self.headers) {
            if let Some(kind) = met.iter().position(|&met| met == 0) {
                return Some(format!("counts: {call} with {} in the header", HEADERS[kind]));
            }
        }
        let byte = self.tags.iter().position(|&met| met == 0);
        byte.map(|byte| format!("counts: tag 1's step count alone, {byte}"))
    }

    pub fn told(&self) -> String {
        let least = self.headers.iter().flatten().chain(&self.tags).min().unwrap_or(&0);
        let [shapes, older] = [self.shapes.told(), self.older.told()];
        format!("{shapes}; older: {older}; headers and tags that count, each {least} times or more")
    }

    /// Counts a table that one of these calls was given.
    fn header(&mut self, name: &str, number: u32, words: &[u32]) {
        let at = taking().position(|known| known == name);
        let counts = words.get(STEPS).copied().unwrap_or(0);
        if let Some(at) = at.filter(|_| number == 1 && counts != 0 && else_formed(words)) {
            let kind = match counts {
                1 => 0,
                LARGEST => 1,
                _ => 2,
            };
            self.headers[at][kind] += 1;
        }
    }

    /// Counts a call by the counts before and after it.
    pub fn count(&mut self, made: &Made, before: &[u32], after: &[u32]) {
        self.header(made.name, made.number, before);
        if made.number != 0 {
            return;
        }
        match made.name {
            "stabilize" => self.count_step(made, before, after),
            "round" | "settle" | "settle_at" => self.count_rounds(made, before, after),
            "join" | "fail" | "leave" => self.count_moves(made, before, after),
            "rectify" if made.values[0] == 1 && are_different(after, 0) => {
                self.shapes.meet("a notice is new, different counts");
            }
            "new" | "image_write" | "image_read" => self.count_whole(made.name, before, after),
            _ => {}
        }
    }

    fn count_step(&mut self, made: &Made, before: &[u32], after: &[u32]) {
        let [old, new] = [before, after].map(|words| count_of(words, made.first));
        let end = match (old, new) {
            (LARGEST, _) => Some("at"),
            (_, LARGEST) => Some("to"),
            _ => None,
        };
        if let Some(end) = end {
            let said = ["again", "look", "done"][made.values[0] as usize];
            self.shapes.meet(&format!("{said} {end} 4294967295"));
        }
        if are_different(after, 0) {
            self.shapes.meet("a step, different counts");
        }
    }

    fn count_rounds(&mut self, made: &Made, before: &[u32], after: &[u32]) {
        let [round, hours] = ["round", "settle_at"].map(|name| made.name == name);
        let ran = if round { 1 } else { made.values[0] };
        if ran == 0 {
            let none = are_different(after, 0);
            return self.shapes.meet_each(&[
                (none && !hours, "a settle without a round, different counts"),
                (none && hours, "windows, no round, different counts"),
            ]);
        }
        let both = || records(before).map(steps).zip(records(after).map(steps));
        let [to, at] = [false, true]
            .map(|at| both().any(|(old, new)| new == LARGEST && (old == LARGEST) == at));
        let others = both().any(|(_, new)| new < LARGEST);
        let added = |by: u32| both().any(|(old, new)| new < LARGEST && new - old == by);
        let apart = added(ran) && both().any(|(old, new)| new - old > ran);
        let full = after[COUNT] == 256 && are_different(after, 0);
        if round {
            self.shapes.meet_each(&[
                (to && others, "a round, some to 4294967295 and others not"),
                (at && others, "a round, some at 4294967295 and others not"),
                (apart, "a round adds 1 to some, more to others"),
                (after[R] > 1 && added(after[R] + 2), "a round adds r + 2"),
                (full, "a round of 256 members, different counts"),
            ]);
        } else if hours {
            self.shapes.meet_each(&[
                (to && others, "windows, some to 4294967295 and others not"),
                (at && others, "windows, some at 4294967295 and others not"),
                (apart, "windows, as many as the rounds for some, more for others"),
                (full, "windows, 256 members, different counts"),
            ]);
        } else {
            self.shapes.meet_each(&[
                (to && others, "a settle, some to 4294967295 and others not"),
                (at && others, "a settle, some at 4294967295 and others not"),
                (apart, "a settle adds as many as its rounds to some, more to others"),
                (full, "a settle of 256 members, different counts"),
            ]);
        }
    }

    /// Counts a join, a loss or a withdrawal.
    fn count_moves(&mut self, made: &Made, before: &[u32], after: &[u32]) {
        let (r, n) = (after[R] as usize, after[COUNT] as usize);
        let place = records(after).take_while(|m| m[ID] < made.first).count();
        if made.name != "join" {
            let moved = are_different(after, place);
            let highest = place == n && count_of(before, made.first) > 0;
            return self.shapes.meet_each(&[
                (made.name == "fail" && moved, "a loss, records with different counts move"),
                (made.name == "leave" && moved, "a withdrawal, records with different counts move"),
                (highest, "a loss of the highest member, its count not 0"),
            ]);
        }
        let over = before[steps_at(r, place)] != 0;
        let p = record(after, made.first).map_or(0, |j| j[PREDECESSOR]);
        self.shapes.meet_each(&[
            (are_different(after, place + 1), "a join, records with different counts move"),
            (over && place + 1 < n, "a join between, over a word that is not 0"),
            (over && place + 1 == n, "a join above all, over a word that is not 0"),
            (count_of(before, p) > 0, "a join, p's count not 0"),
        ]);
    }

    /// Counts new, image writing or image reading.
    fn count_whole(&mut self, name: &str, before: &[u32], after: &[u32]) {
        let (r, n) = (after[R] as usize, after[COUNT] as usize);
        let over = (0..n).any(|place| before[steps_at(r, place)] != 0);
        let apart = are_different(after, 0);
        let largest = records(after).any(|m| steps(m) == LARGEST);
        let [new, write, read] = ["new", "image_write", "image_read"].map(|known| name == known);
        self.shapes.meet_each(&[
            (new && over, "new over words that are not 0"),
            (write && apart, "writing of different counts"),
            (write && largest, "writing of 4294967295"),
            (read && apart, "reading of different counts"),
            (read && largest, "reading of 4294967295"),
            (read && over, "reading over words that are not 0"),
        ]);
    }
}

impl Compare {
    /// The second table of alike.
    pub(super) fn count_second(
        &mut self,
        a: &Piece<u32>,
        b: &Piece<u32>,
        Answer { number, values, .. }: Answer,
    ) -> Result<()> {
        let made = Made { name: "alike", first: 0, number, values };
        made.rule(b.slice(), b.slice())
            .map_err(|what| format!("REFERENCE in alike, {what}\n  second {b:?}\n"))?;
        self.step_counts.header(SECOND, number, b.slice());
        if (number, values[0]) == (0, 1) {
            let [a, b] = [a, b].map(|t| records(t.slice()).map(steps));
            self.step_counts.shapes.meet_each(&[(!a.eq(b), "alike with other counts")]);
        }
        Ok(())
    }

    /// The image that a table was read from, or that was declined.
    pub(super) fn count_image(&mut self, number: u32, words: &[u32], image: &[u8]) -> Result<()> {
        let said = (0..).map(|i| layout::field_steps(image, i));
        if number == 0 && !records(words).map(steps).eq(said.take(words[COUNT] as usize)) {
            return Err(format!("REFERENCE reads other step counts than {image:?} says\n"));
        }
        if number == 9 && image.len() >= layout::MEMBERS {
            self.count_tag(image);
        }
        Ok(())
    }

    /// Counts an image that is declined by 9, if tag 1's step count alone does so.
    fn count_tag(&mut self, image: &[u8]) {
        let mut zero = image.to_vec();
        zero[layout::FIRST_STEPS..layout::MEMBERS].fill(0);
        let counts = &image[layout::FIRST_STEPS..layout::MEMBERS];
        let set: Vec<usize> = (0..counts.len()).filter(|&at| counts[at] != 0).collect();
        let kind = match set[..] {
            [at] => at,
            [_, _, _, _] => 4,
            _ => return,
        };
        let mut words = vec![0; layout::LONGEST];
        if reference::image_read(&mut words, &zero).number == 0 {
            self.step_counts.tags[kind] += 1;
        }
    }

    /// The audit of a table that is well-formed in the layout before this one.
    pub fn audit_older(&mut self, table: &Piece<u32>) -> Result<()> {
        let words = table.slice();
        let number = self.audit(table)?.answer.number;
        let (r, members, counts) = (words[R] as usize, words[COUNT] as usize, words[STEPS]);
        let fits = words.len() >= layout::size(r, members);
        let due = match members {
            0..=1 => (counts > 0 || !fits) as u32,
            2 if counts == 0 && fits => number,
            _ => 1,
        };
        if number != due {
            return Err(format!("REFERENCE gives {number}, not {due}, to {words:?}\n"));
        }
        let formed = counts > 0 && else_formed(words);
        let is = |of: usize, fitting: bool, given: u32| {
            counts == 0 && members.min(3) == of && fits == fitting && number == given
        };
        self.step_counts.older.meet_each(&[
            (is(0, true, 0), "no member, well-formed"),
            (is(1, true, 0), "one member and a word after it, well-formed"),
            (is(1, false, 1), "one member and no word after it, 1"),
            (is(2, true, 0), "two members, well-formed"),
            (is(2, true, 1), "two members, words enough, 1"),
            (is(3, true, 1), "more members, words enough, 1"),
            (formed, "a step count, else well-formed, 1"),
            (counts > 0 && !formed, "a step count, else not, 1"),
        ]);
        Ok(())
    }

    /// The reading of an image in the layout before this one.
    pub fn read_older(&mut self, table: &Piece<u32>, image: &Piece<u8>) -> Result<()> {
        let bytes = image.slice();
        let Answer { number, .. } = self.image_read(table, image)?.answer;
        let none = layout::image_count(bytes) == 0;
        let counts = bytes[layout::FIRST_STEPS..layout::MEMBERS].iter().any(|&byte| byte > 0);
        if (number == 9) != (counts || !none) {
            return Err(format!("REFERENCE gives {number} to {bytes:?}\n"));
        }
        self.step_counts.older.meet_each(&[
            (none && number == 0, "an image without members, read"),
            (none && counts, "an image without members, a step count, 9"),
            (!none, "an image with members, 9"),
        ]);
        Ok(())
    }

    /// The member n goes, by a withdrawal or by a loss, and joins again by p: right after it, or,
    /// if p names it, after steps of p.
    pub fn goes_and_joins(
        &mut self,
        table: &Piece<u32>,
        n: u32,
        p: u32,
        withdraws: bool,
    ) -> Result<()> {
        let had = count_of(table.slice(), n);
        let highest = records(table.slice()).last().is_some_and(|m| m[ID] == n);
        let gone = if withdraws { self.leave(table, n)? } else { self.fail(table, n)? };
        if gone.answer.number != 0 {
            return Ok(());
        }
        let t = Piece::whole(gone.first);
        let number = self.join(&t, n, p)?.answer.number;
        let back = number == 0 && had > 0;
        let mut later = false;
        if number == 4 {
            let (t, _) = self.steps_of(&t, p)?;
            later = self.join(&t, n, p)?.answer.number == 0 && had > 0;
        }
        self.step_counts.shapes.meet_each(&[
            (back && !withdraws, "a shelf with a count is lost and joins again"),
            (back && withdraws, "a shelf with a count withdraws and joins again"),
            (back && highest, "the highest member with a count goes and joins again"),
            (back && had == LARGEST, "a shelf at 4294967295 goes and joins again"),
            (later, "a shelf with a count goes and joins again after steps of p"),
        ]);
        Ok(())
    }
}
