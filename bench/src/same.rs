//! The same algorithms as the library's, in plain safe Rust over the same words.
//!
//! A table is a header of three words (r, member count, and a step count that is 0 always) and one record of r + 5 words
//! a member: identifier, predecessor, pending, candidate, r successors and its step count, by rising identifier.

mod calls;
#[cfg(feature = "whole")]
mod hours;
#[cfg(feature = "whole")]
mod settle;

pub use calls::*;
#[cfg(feature = "whole")]
pub use hours::{is_open, next_open, settle_at};
#[cfg(feature = "whole")]
pub use settle::{round, settle};

use std::slice::ChunksExact;

const HEADER: usize = 3;
const MEMBERS_MOST: usize = 256;
const WORDS_MOST: usize = HEADER + MEMBERS_MOST * 13;

/// What a call answers: number 0 and the reply's values, of which there are `count`, or the number that declines it.
#[repr(C)]
#[derive(Clone, Copy, Debug, Default, PartialEq, Eq)]
pub struct Answer {
    pub number: u32,
    pub values: [u32; 4],
    pub count: u32,
}

/// What the audit finds of one member.
#[cfg_attr(not(feature = "whole"), allow(dead_code))]
#[repr(C)]
#[derive(Clone, Copy, Debug, Default, PartialEq, Eq)]
pub struct Finding {
    pub id: u32,
    pub principal: u32,
    pub moves: u32,
}

/// What held answers: number 0 and as many runs of positions as `runs` says, or the number that declines it.
#[cfg_attr(not(feature = "whole"), allow(dead_code))]
#[repr(C)]
#[derive(Clone, Copy, Debug, Default, PartialEq, Eq)]
pub struct Runs {
    pub number: u32,
    pub runs: u32,
    pub start: [usize; 2],
    pub end: [usize; 2],
}

pub fn answer<const COUNT: usize>(number: u32, said: [u32; COUNT]) -> Answer {
    let mut values = [0; 4];
    values[..COUNT].copy_from_slice(&said);
    Answer {
        number,
        values,
        count: COUNT as u32,
    }
}

fn reply<const COUNT: usize>(values: [u32; COUNT]) -> Answer {
    answer(0, values)
}

fn declined(number: u32) -> Answer {
    answer(number, [])
}

#[inline]
fn between(a: u32, n: u32, b: u32) -> bool {
    if a < b {
        a < n && n < b
    } else {
        a < n || n < b
    }
}

/// One member's record by value; of the 8 entries the first r count.
#[derive(Clone, Copy)]
struct Member {
    id: u32,
    predecessor: u32,
    pending: u32,
    candidate: u32,
    successors: [u32; 8],
    steps: u32,
}

impl Member {
    fn read(record: &[u32]) -> Self {
        let (front, rest) = record.split_at(4);
        let (list, steps) = rest.split_at(rest.len() - 1);
        let mut successors = [0; 8];
        successors[..list.len()].copy_from_slice(list);
        Member {
            id: front[0],
            predecessor: front[1],
            pending: front[2],
            candidate: front[3],
            successors,
            steps: steps[0],
        }
    }

    fn write(&self, record: &mut [u32]) {
        let (front, rest) = record.split_at_mut(4);
        let (list, steps) = rest.split_at_mut(rest.len() - 1);
        front.copy_from_slice(&[self.id, self.predecessor, self.pending, self.candidate]);
        list.copy_from_slice(&self.successors[..list.len()]);
        steps[0] = self.steps;
    }

    fn drop_head(mut self, r: usize) -> Self {
        let next = self.successors[r - 1].wrapping_add(1);
        self.successors.copy_within(1..r, 0);
        self.successors[r - 1] = next;
        self
    }

    fn adopt(mut self, x: u32, list: &[u32; 8]) -> Self {
        self.successors[0] = x;
        self.successors[1..].copy_from_slice(&list[..7]);
        self
    }

    fn await_candidate(mut self, c: u32) -> Self {
        self.pending = 1;
        self.candidate = c;
        self
    }

    fn clear_pending(mut self) -> Self {
        self.pending = 0;
        self.candidate = 0;
        self
    }

    /// One step more is counted, up to the largest word.
    fn count_step(mut self) -> Self {
        self.steps = self.steps.saturating_add(1);
        self
    }
}

/// The words of one record.
#[inline(always)]
fn record_size(r: usize) -> usize {
    r + 5
}

/// The list of a record, which stands before its step count.
#[inline(always)]
fn list(record: &[u32]) -> &[u32] {
    &record[4..record.len() - 1]
}

/// A well-formed table, taken apart.
#[derive(Clone, Copy)]
struct Table<'a> {
    r: usize,
    members: usize,
    width: usize,
    records: &'a [u32],
}

impl<'a> Table<'a> {
    /// The table in the words, if it is well-formed: one pass.
    fn open(words: &'a [u32]) -> Option<Self> {
        let [r, members, steps, rest @ ..] = words else {
            return None;
        };
        let (r, members) = (*r as usize, *members as usize);
        if !(1..=8).contains(&r) || members > MEMBERS_MOST || *steps != 0 {
            return None;
        }
        let width = record_size(r);
        let records = rest.get(..members * width)?;
        let mut lowest = 0;
        for record in records.chunks_exact(width) {
            let id = u64::from(record[0]);
            if id < lowest || !matches!((record[2], record[3]), (0, 0) | (1, _)) {
                return None;
            }
            lowest = id + 1;
        }
        Some(Table {
            r,
            members,
            width,
            records,
        })
    }

    #[inline]
    fn records(&self) -> ChunksExact<'a, u32> {
        self.records.chunks_exact(self.width)
    }

    #[inline]
    fn record(&self, k: usize) -> &'a [u32] {
        &self.records[k * self.width..][..self.width]
    }

    #[inline]
    fn id(&self, k: usize) -> u32 {
        self.records[k * self.width]
    }

    /// Where the record at a place starts in the words.
    fn offset(&self, k: usize) -> usize {
        HEADER + k * self.width
    }

    /// How many members stand below x, by halves.
    #[inline]
    fn rank(&self, x: u32) -> usize {
        let (mut low, mut high) = (0, self.members);
        while low < high {
            let middle = (low + high) / 2;
            if self.id(middle) < x {
                low = middle + 1;
            } else {
                high = middle;
            }
        }
        low
    }

    /// Does the member x stand at place k?
    #[inline]
    fn stands_at(&self, k: usize, x: u32) -> bool {
        k < self.members && self.id(k) == x
    }

    /// How many members stand below x: as many as guessed, if x stands there.
    #[inline]
    fn rank_from(&self, guess: usize, x: u32) -> usize {
        if self.stands_at(guess, x) {
            guess
        } else {
            self.rank(x)
        }
    }

    /// The place of x, or where it would stand.
    #[inline]
    fn search(&self, x: u32) -> Result<usize, usize> {
        let k = self.rank(x);
        if self.stands_at(k, x) {
            Ok(k)
        } else {
            Err(k)
        }
    }

    #[inline]
    fn place(&self, x: u32) -> Option<usize> {
        self.search(x).ok()
    }

    /// The same, looked for first at the place guessed.
    #[inline]
    fn place_from(&self, guess: usize, x: u32) -> Option<usize> {
        if self.id(guess) == x {
            Some(guess)
        } else {
            self.place(x)
        }
    }

    /// The place of the first live entry of the list at place k, each looked for first at the next place round, and how many
    /// entries stand before that one.
    #[inline]
    fn best(&self, k: usize) -> Option<(usize, u32)> {
        let next = if k + 1 < self.members { k + 1 } else { 0 };
        let list = list(self.record(k));
        if self.id(next) == list[0] {
            return Some((next, 0));
        }
        (0..)
            .zip(list)
            .find_map(|(passed, &x)| Some((self.place_from(next, x)?, passed)))
    }

    /// The places of all best successors, the member count where there is none, and how many entries all searches passed over.
    #[inline]
    fn best_places(&self) -> ([u16; MEMBERS_MOST], u32) {
        let mut places = [0; MEMBERS_MOST];
        let mut all = 0;
        for (k, to) in places[..self.members].iter_mut().enumerate() {
            let (place, passed) = self.best(k).unwrap_or((self.members, self.r as u32));
            *to = place as u16;
            all += passed;
        }
        (places, all)
    }

    /// By place, how far the ranges of members reach that some list skips from there on.
    fn skipped(&self) -> [u16; MEMBERS_MOST] {
        let mut reach = [0; MEMBERS_MOST];
        for (k, record) in self.records().enumerate() {
            let (mut q, mut low) = (record[0], k + 1);
            for &b in list(record) {
                let high = self.rank_from(low, b);
                if q < b {
                    cover(&mut reach, low, high);
                } else {
                    cover(&mut reach, low, self.members);
                    cover(&mut reach, 0, high);
                }
                low = high + usize::from(self.stands_at(high, b));
                q = b;
            }
        }
        reach
    }

    /// By place: 1 for a principal, else 0, in the place of the reach that was read there.
    fn principal_bits(&self) -> [u16; MEMBERS_MOST] {
        let mut bits = self.skipped();
        let mut top = 0;
        for (k, bit) in bits.iter_mut().take(self.members).enumerate() {
            top = top.max(*bit);
            *bit = u16::from(top <= k as u16);
        }
        bits
    }

    fn count_principals(&self) -> usize {
        count_of(&self.principal_bits()[..self.members], 1)
    }

    /// Which pair of the extended lists is the first that skips x, from 1: record by record, each list from its front.
    #[inline]
    fn first_skip(&self, x: u32) -> Option<usize> {
        let mut taken = 0;
        for record in self.records() {
            let mut a = record[0];
            for &b in list(record) {
                taken += 1;
                if between(a, x, b) {
                    return Some(taken);
                }
                a = b;
            }
        }
        None
    }

    /// The same count, each member tested by itself up to the first pair that skips it.
    fn count_principals_early(&self) -> usize {
        self.records()
            .filter(|record| self.first_skip(record[0]).is_none())
            .count()
    }

    /// Each list has a live entry, there are r + 1 principals, and each pending candidate lies inside.
    #[inline(always)]
    fn is_sound(&self, best: &[u16], principals: usize) -> bool {
        best.iter().all(|&b| usize::from(b) < self.members)
            && principals > self.r
            && self.records().all(candidate_inside)
    }

    /// 0 not sound, 1 sound, 2 sound and ideal.
    fn verdict(&self, best: &[u16], principals: usize) -> u32 {
        if !self.is_sound(best, principals) {
            0
        } else if self.is_ideal() {
            2
        } else {
            1
        }
    }

    /// Is the list of the member at place k the next members up, round the end? Where enough stand above it, they are the records
    /// after its own.
    #[inline]
    fn names_next(&self, k: usize, list: &[u32]) -> bool {
        if k + list.len() < self.members {
            let next = self.records().skip(k + 1);
            return list.iter().zip(next).all(|(&entry, next)| entry == next[0]);
        }
        let mut place = k;
        list.iter().all(|&entry| {
            place += 1;
            if place == self.members {
                place = 0;
            }
            entry == self.id(place)
        })
    }

    /// Each predecessor is the next member down, each list the next r members up.
    fn is_ideal(&self) -> bool {
        let Some(last) = self.members.checked_sub(1) else {
            return true;
        };
        let mut below = self.id(last);
        for (k, record) in self.records().enumerate() {
            if record[1] != below || !self.names_next(k, list(record)) {
                return false;
            }
            below = record[0];
        }
        true
    }
}

fn count_of(numbers: &[u16], v: u16) -> usize {
    numbers.iter().filter(|&&x| x == v).count()
}

/// The members from place low to below high are marked.
#[inline]
fn cover(reach: &mut [u16; MEMBERS_MOST], low: usize, high: usize) {
    if low < high {
        reach[low] = reach[low].max(high as u16);
    }
}

fn candidate_inside(record: &[u32]) -> bool {
    record[2] == 0 || between(record[0], record[3], record[4])
}

/// By place, where the moves of an array made twice lead; the member count stands for none and stays.
fn doubled(moves: &[u16], members: usize) -> [u16; MEMBERS_MOST] {
    let mut twice = [0; MEMBERS_MOST];
    for (to, &j) in twice.iter_mut().zip(moves) {
        *to = moves.get(usize::from(j)).copied().unwrap_or(members as u16);
    }
    twice
}

/// By place: 1 for a member on the ring, else 0. On it are those that as many moves lead to as there are members, or more.
fn ring_bits(best: &[u16]) -> [u16; MEMBERS_MOST] {
    let members = best.len();
    let mut far = doubled(best, members);
    let mut moves = 2;
    while moves < members {
        far = doubled(&far[..members], members);
        moves += moves;
    }
    let mut bits = [0; MEMBERS_MOST];
    for &j in &far[..members] {
        if usize::from(j) < members {
            bits[usize::from(j)] = 1;
        }
    }
    bits
}

/// The record at a place goes; those above move down, and the words freed become 0.
fn remove(words: &mut [u32], at: usize, end: usize, width: usize) {
    words.copy_within(at + width..end, at);
    words[end - width..end].fill(0);
    words[1] -= 1;
}
