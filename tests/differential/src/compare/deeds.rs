//! The calls that a pair of tables gets, and what they reply.

use super::lent::nothing;
use super::{kind, Piece, Reply};
use crate::keys;
use crate::layout::{self, record, records, COUNT, ID, LIST, PENDING, R};
use crate::make;
use crate::random::Random;
use crate::reference::{Answer, Finding, Runs};

/// A call that both tables get: its numbers, keys, room for findings or bytes, and windows with
/// minutes.
#[derive(Clone, Debug)]
pub struct Deed {
    pub name: &'static str,
    pub numbers: [u32; 2],
    pub keys: Vec<u32>,
    pub room: usize,
    pub hours: [Piece<u32>; 2],
}

impl Deed {
    /// Some call, mostly of a member and of who could join by it. `shelves` are named too.
    pub fn any(random: &mut Random, words: &[u32], shelves: &[u32]) -> Deed {
        let (r, n) = (words[R] as usize, words[COUNT] as usize);
        let mut some = make::names(random, words, 2);
        if !shelves.is_empty() && random.one_in(2) {
            some[0] = random.pick(shelves);
        }
        let member = (n > 0).then(|| records(words).nth(random.below(n)).expect("a member"));
        let x = match member {
            Some(own) if !random.one_in(9) => own[ID],
            _ => some[1],
        };
        let hours = [nothing(), nothing()];
        let numbers = [x, some[0]];
        let mut deed = Deed { name: "audit", numbers, keys: vec![], room: 0, hours };
        deed.name = match random.below(100) {
            0..=21 => {
                // Between p and its first entry, if the name is of no use.
                let (p, first) = member.map_or((x, x), |own| (own[ID], own[LIST]));
                let way = first.wrapping_sub(p).wrapping_sub(1).max(1);
                let between = p.wrapping_add(1 + random.word() % way);
                let j = if random.one_in(3) { some[0] } else { between };
                deed.numbers = [j, if random.one_in(9) { some[1] } else { p }];
                "join"
            }
            22..=45 => "stabilize",
            46..=56 => "rectify",
            57..=63 => "leave",
            64..=68 => "fail",
            69..=74 => "lookup",
            75..=78 => {
                deed.keys = keys::rising(random, words);
                if random.one_in(6) {
                    deed.keys.extend([x, x]);
                }
                "held"
            }
            79..=82 => "principal",
            83..=85 => "audit",
            86..=89 => {
                deed.room = (n + random.below(3)).saturating_sub(random.below(2));
                "findings"
            }
            90..=91 => "round",
            92..=93 => {
                let limit = random.word();
                deed.numbers[0] = random.pick(&[0, 1, 2, 3, 256, u32::MAX, limit]);
                "settle"
            }
            94..=96 => {
                deed.hours = make::hours(random, 5);
                "settle_at"
            }
            _ => {
                deed.room = layout::image_size(r, n) + random.below(3) - random.below(2);
                "image_write"
            }
        };
        deed
    }

    /// Could it end a pending step: by that step, by a round, or as its member goes?
    pub fn steps(&self, words: &[u32]) -> bool {
        let waits = |n: u32| record(words, n).is_some_and(|own| own[PENDING] == 1);
        matches!(self.name, "round" | "settle" | "settle_at")
            || (matches!(self.name, "stabilize" | "leave" | "fail") && waits(self.numbers[0]))
    }

    pub fn findings(&self) -> Vec<Finding> {
        vec![Finding { id: 7, principal: 8, moves: 9 }; self.room]
    }
}

/// What a call replied: as `kind` sorts it, its numbers, the findings, and the image but for
/// its step counts.
#[derive(PartialEq, Debug)]
pub struct Told {
    pub kind: usize,
    pub number: u32,
    said: Vec<u64>,
    findings: Vec<Finding>,
    pub image: Vec<u8>,
}

impl Told {
    pub fn of(name: &str, answer: Answer, findings: Vec<Finding>) -> Told {
        let mut said = vec![answer.count as u64];
        said.extend(answer.values.map(u64::from));
        Told { kind: kind(name, &answer), number: answer.number, said, findings, image: vec![] }
    }

    pub fn with_image(mut self, image: Vec<u8>) -> Told {
        if self.number == 0 {
            self.image = layout::without_counts(image);
        }
        self
    }

    pub fn of_runs(name: &str, runs: Runs) -> Told {
        let mut said = vec![runs.runs as u64];
        said.extend(runs.start.iter().chain(&runs.end).map(|&at| at as u64));
        let (number, findings, image) = (runs.number(), vec![], vec![]);
        Told { kind: kind(name, &runs), number, said, findings, image }
    }
}
