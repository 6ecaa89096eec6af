//! Step counts for made tables, mostly all different, so that one that is lost or another's is
//! seen; headers that count; and tables in the layout before this one.

use super::with_room;
use crate::compare::Piece;
use crate::layout::{Raw, Record};
use crate::random::Random;

/// The table of these records, each with a step count.
pub fn counted(random: &mut Random, r: usize, records: Vec<Record>) -> Raw {
    let mut raw = Raw::new(r, records);
    count_steps(random, &mut raw);
    raw
}

/// Gives each member a step count.
pub fn count_steps(random: &mut Random, raw: &mut Raw) {
    let style = random.below(10);
    if style > 6 {
        return count_apart(random, raw);
    }
    let (n, ids): (u32, Vec<u32>) = (raw.count, raw.records.iter().map(|m| m.id).collect());
    let first = random.word();
    let one = random.pick(&[1, u32::MAX, u32::MAX - 1, first]);
    for (i, record) in (0u32..).zip(&mut raw.records) {
        record.steps = match style {
            // As new leaves them.
            0 => 0,
            // All the same.
            1 => one,
            // Different ones that end at the largest.
            2 | 3 => u32::MAX - i.wrapping_add(first) % n,
            // The largest and the one below it.
            4 => u32::MAX - random.below(2) as u32,
            // What names a member, or almost.
            5 => random.pick(&ids).wrapping_add(random.below(4) as u32 / 3),
            // Small ones.
            _ => i + first % 9,
        };
    }
}

/// Any different counts.
pub fn count_apart(random: &mut Random, raw: &mut Raw) {
    let (first, apart) = (random.word(), random.word() | 1);
    for (i, record) in (0..).zip(&mut raw.records) {
        record.steps = apart.wrapping_mul(i).wrapping_add(first);
    }
}

/// Counts that stop after so many steps and fewer.
pub fn count_to_the_end(random: &mut Random, raw: &mut Raw, most: usize) {
    for record in &mut raw.records {
        record.steps = u32::MAX - random.below(most) as u32;
    }
}

/// A number that does not belong into the header as its step count.
pub fn header_steps(random: &mut Random) -> u32 {
    let bit = 1 << random.below(32);
    let some = random.word() | 1;
    random.pick(&[1, u32::MAX, bit, some])
}

/// A well-formed table in the layout before this one, with a step count or with 0, and with
/// words after it.
pub fn older_table(random: &mut Random, raw: &Raw) -> Piece<u32> {
    let mut raw = raw.clone();
    raw.steps = if random.one_in(3) { header_steps(random) } else { 0 };
    // Two members may be read in this layout: the first with the second's identifier as its
    // count, and the rest of the second with two words more.
    if let [first, second] = &mut raw.records[..] {
        if first.id < u32::MAX && random.one_in(2) {
            second.predecessor = first.id + 1 + random.word() % (u32::MAX - first.id);
            (second.pending, second.candidate, second.list[0]) = (0, 0, 0);
        }
    }
    let width = raw.width();
    with_room(random, &raw.older_words(), width)
}

/// The image of a well-formed table in the layout before this one.
pub fn older_image(random: &mut Random, raw: &Raw) -> Vec<u8> {
    let mut raw = raw.clone();
    raw.steps = if random.one_in(2) { header_steps(random) } else { 0 };
    raw.older_image()
}
