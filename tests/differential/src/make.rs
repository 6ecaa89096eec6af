//! Makes inputs: identifiers, tables well-formed and not, images whole and
//! damaged.

mod counts;
mod hours;
mod pairs;
mod sound;

pub use counts::{
    count_apart, count_steps, count_to_the_end, counted, header_steps, older_image, older_table,
};
pub use hours::{
    are_sparse, asked, bad_windows, damage_minutes, good_windows, hours, lent_minutes, minutes,
    minutes_both, minutes_of, no_windows, one_minute,
};
pub use pairs::{alike, another, untold};
pub use sound::{cut_off, slowest, sound, stale, stalest, Ring};

use crate::compare::Piece;
use crate::layout::{self, Raw, Record, COUNT, HEAD, HEADER, LENGTH, R, TAG};
use crate::random::Random;

/// Identifiers base, base + step, ... round the end, `width` of them.
#[derive(Clone, Copy)]
pub struct Space {
    base: u32,
    step: u32,
    width: u64,
}

impl Space {
    /// A space with at least `least` identifiers.
    pub fn any(random: &mut Random, least: usize) -> Space {
        let width = (least + 1 + random.below(least + 6)) as u64;
        let (base, step) = match random.below(7) {
            0 => (0, 1),
            1 => (0u32.wrapping_sub(width as u32), 1),
            2 => (0u32.wrapping_sub(random.below(width as usize) as u32), 1),
            3 => (0x8000_0000u32.wrapping_sub(random.below(width as usize) as u32), 1),
            4 => (10, 10),
            5 => (random.word(), random.word() | 1),
            _ => return Space { base: 0, step: 1, width: 1 << 32 },
        };
        Space { base, step, width }
    }

    pub fn pick(&self, random: &mut Random) -> u32 {
        let place = (random.next() >> 16) % self.width;
        self.base.wrapping_add(self.step.wrapping_mul(place as u32))
    }

    /// `count` rising identifiers.
    pub fn rising(&self, random: &mut Random, count: usize) -> Vec<u32> {
        let mut ids = std::collections::BTreeSet::new();
        while ids.len() < count {
            ids.insert(self.pick(random));
        }
        ids.into_iter().collect()
    }
}

/// Words of no meaning, sometimes small ones.
pub fn junk(random: &mut Random, count: usize) -> Vec<u32> {
    let small = random.one_in(3);
    (0..count).map(|_| if small { random.below(12) as u32 } else { random.word() | 1 }).collect()
}

fn member_count(random: &mut Random) -> usize {
    match random.below(40) {
        0 => 0,
        1 => 1,
        2 => 30 + random.below(40),
        3..=8 => 10 + random.below(14),
        _ => 2 + random.below(9),
    }
}

/// Members, their neighbours, dead identifiers and the ends.
fn pool(random: &mut Random, space: Space, ids: &[u32]) -> Vec<u32> {
    let mut pool = vec![0, u32::MAX, space.pick(random), space.pick(random)];
    for &id in ids {
        pool.extend([id, id, id, id]);
    }
    for _ in 0..1 + ids.len() / 2 {
        if let Some(id) = (!ids.is_empty()).then(|| random.pick(ids)) {
            pool.extend([id.wrapping_add(1), id.wrapping_sub(1), space.pick(random)]);
        }
    }
    pool
}

/// A well-formed table in the shape that `style` tells, with any predecessors
/// and candidates.
pub fn well_formed(random: &mut Random, count: Option<usize>) -> Raw {
    let n = count.unwrap_or_else(|| member_count(random));
    let r = random.range(1, 8);
    let space = Space::any(random, n + 1);
    let ids = space.rising(random, n);
    let pool = pool(random, space, &ids);
    let style = random.below(8);
    let groups = random.range(1, 3);
    let dead = |random: &mut Random| loop {
        let id = if random.one_in(2) { random.pick(&pool) } else { random.word() };
        let id = id.wrapping_add(random.below(3) as u32);
        if ids.binary_search(&id).is_err() {
            return id;
        }
    };
    let mut records = Vec::new();
    for i in 0..n {
        let ahead = |k: usize| ids[(i + k) % n];
        let mut list: Vec<u32> = (1..=r).map(ahead).collect();
        match style {
            // Anything.
            0 => list = (0..r).map(|_| random.pick(&pool)).collect(),
            // Ideal but for a few entries.
            1 => {
                if random.one_in(3) {
                    list[random.below(r)] = random.pick(&pool);
                }
            }
            // Several rings, each with its own members in order.
            2 => list = (1..=r).map(|k| ahead(k * groups)).collect(),
            // Lists that name the member itself.
            3 => {
                if random.one_in(2) {
                    list = vec![ids[i]; r];
                } else {
                    list[0] = ids[i];
                }
            }
            // Dead lists, all or many.
            4 => {
                if random.below(4) < groups {
                    list = (0..r).map(|_| dead(random)).collect();
                }
            }
            // Downwards.
            5 => list = (1..=r).map(|k| ids[(i + n * r - k) % n]).collect(),
            // Paths that run into a ring or an end.
            6 => {
                list[0] = if random.one_in(n) { dead(random) } else { random.pick(&ids) };
            }
            // Ideal.
            _ => {}
        }
        // Dead entries in front.
        if style != 7 && random.one_in(3) {
            for entry in list.iter_mut().take(random.below(r + 1)) {
                *entry = dead(random);
            }
        }
        let predecessor = match random.below(3) {
            0 => random.pick(&pool),
            1 if style != 7 => dead(random),
            _ => ids[(i + n - 1) % n],
        };
        let pending = (style != 7 || groups == 1) && random.one_in(3);
        let candidate = match (pending, random.below(3)) {
            (false, _) => None,
            (true, 0) => Some(ids[i].wrapping_add(1)),
            (true, 1) => Some(list[0].wrapping_sub(1)),
            (true, _) => Some(random.pick(&pool)),
        };
        records.push(Record::new(ids[i], predecessor, candidate, list));
    }
    counted(random, r, records)
}

/// A table of few identifiers, so that most shapes come up.
pub fn tiny(random: &mut Random) -> (Raw, Vec<u32>) {
    let base = random.pick(&[0u32, 1, u32::MAX - 1, u32::MAX - 2, u32::MAX - 4, 0x7fff_fffe]);
    let pool: Vec<u32> = (0..5).map(|k| base.wrapping_add(k)).collect();
    let n = random.below(5);
    let r = random.range(1, 3);
    let mut ids = pool.clone();
    while ids.len() > n {
        ids.remove(random.below(ids.len()));
    }
    ids.sort();
    let records = ids
        .iter()
        .map(|&id| {
            let pending = random.one_in(3);
            let predecessor = random.pick(&pool);
            let candidate = pending.then(|| random.pick(&pool));
            let list = (0..r).map(|_| random.pick(&pool)).collect();
            Record::new(id, predecessor, candidate, list)
        })
        .collect();
    (counted(random, r, records), pool)
}

/// A slice for a well-formed table, with more or less room after it.
pub fn with_room(random: &mut Random, words: &[u32], width: usize) -> Piece<u32> {
    let room = match random.below(8) {
        0 => 0,
        1 => 1,
        2 => width - 1,
        3 => width + 1,
        4 => 3 * width + 2,
        _ => width,
    };
    let mut all = words.to_vec();
    all.extend(junk(random, room));
    Piece::whole(all)
}

/// A table that may not be well-formed, or is longer than its slice.
pub fn malformed(random: &mut Random) -> Piece<u32> {
    let mut raw = well_formed(random, None);
    let n = raw.records.len();
    let width = raw.width();
    match random.below(18) {
        // Random words.
        0 => {
            let count = random.below(60);
            let mut words = junk(random, count);
            if words.len() >= HEADER && random.one_in(2) {
                words[R] = random.below(10) as u32;
                words[COUNT] = random.below(8) as u32;
            }
            let len = random.below(words.len() + 1);
            return Piece::cut(&words, len);
        }
        // The header off.
        1 => raw.count = raw.count.wrapping_add(1),
        2 => raw.count = raw.count.saturating_sub(1),
        3 => raw.count = random.pick(&[257, 255, 256, 65536, u32::MAX, 0x8000_0000]),
        4 => raw.r = random.pick(&[0, 9, 10, u32::MAX, u32::MAX - 3, raw.r + 1, raw.r - 1]),
        // 2^32 / width members and more: the length comes round when multiplied.
        5 => raw.count = (u32::MAX / width as u32).wrapping_add(random.below(3) as u32),
        // r = 0 or 9 with lists of that length.
        6 => {
            raw.r = random.pick(&[0, 9]);
            for record in &mut raw.records {
                record.list.resize(raw.r as usize, 7);
            }
        }
        // Identifiers that do not rise.
        7 | 8 if n > 1 => {
            let i = random.range(1, n - 1);
            if random.one_in(2) {
                raw.records[i].id = raw.records[i - 1].id;
            } else {
                raw.records.swap(i - 1, i);
            }
        }
        // Pending no number of its two.
        9 if n > 0 => {
            let i = random.below(n);
            raw.records[i].pending = random.pick(&[2, 3, 256, u32::MAX, 0x1_0000]);
        }
        // A candidate without pending.
        10 | 11 if n > 0 => {
            let i = random.below(n);
            raw.records[i].pending = 0;
            raw.records[i].candidate = random.pick(&[1, u32::MAX, raw.records[i].list[0]]);
        }
        // A header that counts steps.
        12 | 13 => raw.steps = header_steps(random),
        // The layout before this one.
        14 | 15 => return older_table(random, &raw),
        // Cut near its end or anywhere, with the rest after the slice.
        _ => {
            let words = raw.words();
            let len = match random.below(3) {
                0 => words.len() - random.range(1, HEADER),
                1 => words.len().saturating_sub(random.range(width - 2, width + 2)),
                _ => random.below(words.len() + 1),
            };
            return Piece::cut(&words, len);
        }
    }
    let words = raw.words();
    with_room(random, &words, width)
}

/// Identifiers worth calling with: what the words name, and neighbours.
pub fn names(random: &mut Random, words: &[u32], count: usize) -> Vec<u32> {
    (0..count)
        .map(|_| {
            if words.len() <= HEADER || random.one_in(12) {
                let word = random.word();
                return random.pick(&[0, 1, u32::MAX, word]);
            }
            let name = words[random.range(HEADER, words.len() - 1)];
            match random.below(6) {
                0 => name.wrapping_add(1),
                1 => name.wrapping_sub(1),
                _ => name,
            }
        })
        .collect()
}

/// One damage to an image, or none that matters.
pub fn damaged(random: &mut Random, raw: &Raw) -> Vec<u8> {
    let mut raw = raw.clone();
    let n = raw.records.len();
    if random.one_in(20) {
        return older_image(random, &raw);
    }
    // Damages to the parts, written as they are.
    match random.below(30) {
        0 => raw.count = raw.count.wrapping_add(random.pick(&[1, 255, 256, 0x100])),
        1 => raw.count = raw.count.wrapping_sub(1),
        2 => raw.r = random.pick(&[0, 9, 255, raw.r + 1, raw.r - 1]),
        3 => {
            raw.r = random.pick(&[0, 9, 10, 200, raw.r + 1, raw.r - 1]);
            for record in &mut raw.records {
                record.list.resize(raw.r as usize, 7);
            }
        }
        4 | 5 if n > 0 => {
            let i = random.below(n);
            raw.records[i].pending = random.pick(&[2, 3, 128, 255]);
        }
        6 | 7 if n > 0 => {
            let i = random.below(n);
            raw.records[i].pending = 0;
            raw.records[i].candidate = 1 << random.below(32);
        }
        8 | 9 if n > 1 => {
            let i = random.range(1, n - 1);
            raw.records[i].id = raw.records[i - 1].id;
        }
        10 if n > 1 => raw.records.swap(0, 1),
        11 if n > 0 => {
            raw.records.pop();
        }
        12 if n > 0 => raw.records.push(raw.records[n - 1].clone()),
        13 | 14 => raw.steps = header_steps(random),
        _ => {}
    }
    let mut fields = raw.fields();
    let f = random.below(fields.len());
    let low = LENGTH + 1;
    match random.below(30) {
        0 => fields[f][TAG] = random.pick(&[0, 1, 2, 3, 4, 255]),
        1 | 2 => fields[f][low] = fields[f][low].wrapping_add(1),
        3 => fields[f][low] = fields[f][low].wrapping_sub(1),
        4 => fields[f][LENGTH] = random.pick(&[1, 128, 255]),
        // Length and contents changed together.
        5 => {
            fields[f][low] = fields[f][low].wrapping_add(1);
            fields[f].push(0);
        }
        6 if fields[f].len() > HEAD => {
            fields[f][low] = fields[f][low].wrapping_sub(1);
            fields[f].pop();
        }
        // The two length bytes, or two others, swapped.
        7 => fields[f].swap(LENGTH, low),
        8 => {
            let i = random.range(1, fields[f].len() - 1);
            fields[f].swap(i - 1, i);
        }
        9 => {
            fields.remove(f);
        }
        10 => fields.insert(f, fields[f].clone()),
        11 => {
            let g = random.below(fields.len());
            fields.swap(f, g);
        }
        // One byte fewer or more in the contents only.
        12 => fields[f].push(random.byte()),
        13 => {
            fields[f].pop();
        }
        14 => fields.push(layout::head(layout::LAST, 0)),
        // A field without its last number, or with that one twice.
        15 if fields[f].len() > HEAD => {
            let end = fields[f].len() - 4;
            fields[f].truncate(end);
            fields[f][low] = fields[f][low].wrapping_sub(4);
        }
        16 if fields[f].len() > HEAD => {
            let end = fields[f].len() - 4;
            fields[f].extend_from_within(end..);
            fields[f][low] = fields[f][low].wrapping_add(4);
        }
        _ => {}
    }
    let mut image = fields.concat();
    match random.below(8) {
        0 if !image.is_empty() => {
            let i = random.below(image.len());
            image[i] ^= 1 << random.below(8);
        }
        1 => image.push(random.pick(&[0, 3, 255])),
        2 => image.truncate(image.len().saturating_sub(random.range(1, 4))),
        _ => {}
    }
    image
}
