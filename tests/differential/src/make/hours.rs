//! Windows of the week and lists of minutes, as they must be and damaged.

use crate::compare::Piece;
use crate::keys;
use crate::layout::{MOST_WINDOWS, WEEK};
use crate::random::Random;

/// The last minute that may be listed.
const LAST: u32 = u32::MAX - 1;

/// The minutes of the week from one up to another, going round.
fn ahead(from: u32, to: u32) -> u32 {
    (to + WEEK - from) % WEEK
}

/// Is a minute open? The windows are as they must be.
fn is_open(windows: &[u32], minute: u32) -> bool {
    let held = |w: &[u32]| ahead(w[0], minute % WEEK) < ahead(w[0], w[1]);
    windows.chunks_exact(2).any(held)
}

/// A minute of the week.
fn of_week(random: &mut Random) -> u32 {
    random.below(WEEK as usize) as u32
}

/// A window of any length, at the week's ends more often than elsewhere.
fn window(random: &mut Random) -> [u32; 2] {
    let any = of_week(random);
    let start = random.pick(&[any, any, any, any, 0, 1, WEEK - 1]);
    let length = random.range(1, WEEK as usize - 1) as u32;
    let short = random.range(1, 90) as u32;
    // The last of these ends with the week.
    let lengths = [1, 2, short, length, length, length, WEEK - 1, WEEK - start];
    [start, (start + random.pick(&lengths).min(WEEK - 1)) % WEEK]
}

/// Windows side by side, all round the week if there are two or more, or up to a gap.
fn side_by_side(random: &mut Random, count: usize) -> Vec<[u32; 2]> {
    let mut cuts = std::collections::BTreeSet::new();
    while cuts.len() <= count {
        cuts.insert(of_week(random));
    }
    let mut cuts: Vec<u32> = cuts.into_iter().collect();
    cuts.rotate_left(random.below(count + 1));
    if count > 1 && random.one_in(2) {
        cuts[count] = cuts[0];
    }
    cuts.windows(2).map(|pair| [pair[0], pair[1]]).collect()
}

/// 0 to 16 windows, in any order.
pub fn windows(random: &mut Random) -> Vec<u32> {
    let few = random.range(1, 5);
    let count = random.pick(&[1, few, few, few, MOST_WINDOWS - 1, MOST_WINDOWS]);
    let near = of_week(random);
    let some = |random: &mut Random, make: &dyn Fn(&mut Random) -> [u32; 2]| {
        (0..count).map(|_| make(random)).collect::<Vec<_>>()
    };
    let mut list = match random.below(9) {
        0 => vec![],
        1 | 2 => side_by_side(random, count),
        // Few minutes each, anywhere.
        3 => some(random, &|random| {
            let start = of_week(random);
            [start, (start + random.range(1, 3) as u32) % WEEK]
        }),
        // Few minutes each, near one another.
        4 => some(random, &|random| {
            let start = near + random.below(40) as u32;
            [start % WEEK, (start + random.range(1, 30) as u32) % WEEK]
        }),
        // One of them, several times.
        5 => vec![window(random); count],
        _ => some(random, &window),
    };
    if !list.is_empty() {
        let first = random.below(list.len());
        list.rotate_left(first);
    }
    if random.one_in(2) {
        list.reverse();
    }
    list.concat()
}

/// Windows that 15 declines, for one reason or for several.
pub fn damaged_windows(random: &mut Random) -> Vec<u32> {
    let mut list = windows(random);
    if list.is_empty() {
        list.extend(window(random));
    }
    let last = list.len() / 2 - 1;
    let any = random.below(last + 1);
    let at = 2 * random.pick(&[0, last, any]);
    match random.below(8) {
        0 | 1 => {
            list[at + 1] = list[at];
        }
        2..=4 => {
            let word = &mut list[at + random.below(2)];
            let any = WEEK + random.word() % (u32::MAX - WEEK);
            // By its remainder, or by its low bits, as before.
            let as_before = [*word + WEEK, *word + (1 << 16), *word + (1 << 31)];
            let as_before = random.pick(&as_before);
            let few = random.pick(&[WEEK + 1, 2 * WEEK, u32::MAX]);
            *word = random.pick(&[WEEK, WEEK, few, as_before, as_before, any]);
        }
        5 => {
            let more = random.pick(&[MOST_WINDOWS + 1, MOST_WINDOWS + 1, 18, 33, 300]);
            while list.len() < 2 * more {
                list.extend(window(random));
            }
        }
        _ => {}
    }
    // A start without an end: a word fewer, or one more.
    if random.one_in(6) || list.len() <= 2 * MOST_WINDOWS && list.chunks_exact(2).all(is_window) {
        match random.below(3) {
            0 => list.truncate(list.len() - 1),
            _ => list.push(of_week(random)),
        }
    }
    list
}

/// Is a window as it must be?
fn is_window(ends: &[u32]) -> bool {
    ends[0] != ends[1] && ends[0].max(ends[1]) < WEEK
}

/// A slice of them: what stands after it would be one window more, or an end for a start.
fn lent(random: &mut Random, mut list: Vec<u32>) -> Piece<u32> {
    let len = list.len();
    list.extend(window(random));
    list.push(random.pick(&[0, WEEK, u32::MAX]));
    Piece::cut(&list, len)
}

pub fn good_windows(random: &mut Random) -> Piece<u32> {
    let list = windows(random);
    lent(random, list)
}

pub fn bad_windows(random: &mut Random) -> Piece<u32> {
    let list = damaged_windows(random);
    lent(random, list)
}

/// Is a good part of the week closed?
pub fn are_sparse(windows: &[u32]) -> bool {
    (0..64).filter(|k| is_open(windows, k * (WEEK / 64))).count() < 48
}

pub fn no_windows(random: &mut Random) -> Piece<u32> {
    lent(random, vec![])
}

/// A window of one minute.
pub fn one_minute(random: &mut Random) -> Piece<u32> {
    let any = of_week(random);
    let start = random.pick(&[any, 0, WEEK - 1]);
    lent(random, vec![start, (start + 1) % WEEK])
}

/// A minute to ask for: at the windows' ends, next to them, anywhere, sometimes over the week.
pub fn asked(random: &mut Random, windows: &[u32]) -> u32 {
    let end = if windows.is_empty() { 0 } else { random.pick(windows) };
    let next = end.wrapping_add(WEEK - 1 + random.below(3) as u32) % WEEK;
    let (any, word) = (of_week(random), random.word());
    let over = random.pick(&[WEEK, WEEK, WEEK + any, 2 * WEEK, word.max(WEEK), u32::MAX]);
    random.pick(&[any, any, next, next, next, 0, WEEK - 1, over])
}

/// The first minute at or after one that is open, or that is not, if one may be listed: that one,
/// or the next start, or the next end that is closed.
fn first_from(windows: &[u32], from: u32, open: bool) -> Option<u32> {
    let of_week = from % WEEK;
    let step = match is_open(windows, of_week) == open {
        true => Some(0),
        false => windows
            .chunks_exact(2)
            .map(|w| if open { w[0] } else { w[1] })
            .filter(|&end| is_open(windows, end) == open)
            .map(|end| ahead(of_week, end))
            .min(),
    };
    step.and_then(|step| from.checked_add(step)).filter(|&minute| minute <= LAST)
}

/// A list with so many open minutes and closed ones, as far as the windows have them, mixed;
/// some next to one another, others weeks apart.
pub fn minutes_of(random: &mut Random, windows: &[u32], open: usize, closed: usize) -> Vec<u32> {
    let mut sorts = vec![true; open];
    sorts.resize(open + closed, false);
    for i in 1..sorts.len() {
        sorts.swap(i, random.below(i + 1));
    }
    let far = random.pick(&[0, 0, 2, WEEK, 3 * WEEK]);
    let any = random.word() % (u32::MAX - (1 << 24));
    let week = random.below(100) as u32 * WEEK;
    let mut next = random.pick(&[0, 0, week, any]);
    let mut list = Vec::with_capacity(sorts.len());
    let mut none = [false; 2];
    for open in sorts {
        if none[open as usize] {
            continue;
        }
        let Some(minute) = first_from(windows, next, open) else {
            none[open as usize] = true;
            continue;
        };
        list.push(minute);
        next = minute + 1 + if random.one_in(3) { random.word() % (far + 1) } else { 0 };
    }
    list
}

/// A list of minutes as it must be. The windows are so too.
pub fn minutes(random: &mut Random, windows: &[u32]) -> Vec<u32> {
    let (open, closed) = (random.below(9), random.below(9));
    let from = random.pick(&[0, 1, 2, 3, 1000, LAST / WEEK]);
    let mut list: Vec<u32> = match random.below(11) {
        0 => vec![],
        1 => minutes_of(random, windows, open, 0),
        2 => minutes_of(random, windows, 0, closed),
        3..=5 => minutes_of(random, windows, open, closed),
        // Anywhere.
        6 => (0..random.range(1, 12)).map(|_| random.word()).collect(),
        // At the borders of some weeks.
        7 => (from..from + 4)
            .filter_map(|week| week.checked_mul(WEEK))
            .flat_map(|border| (0..3).map(move |k| border.wrapping_sub(1).wrapping_add(k)))
            .filter(|_| !random.one_in(4))
            .collect(),
        // At the last ones.
        8 => (0..random.range(1, 20) as u32).map(|k| LAST - k).collect(),
        // At the ends of the windows, in some weeks.
        _ => (from..from.saturating_add(2))
            .flat_map(|week| windows.iter().map(move |&end| week as u64 * WEEK as u64 + end as u64))
            .flat_map(|minute| [minute, minute.saturating_sub(1)])
            .filter(|_| !random.one_in(3))
            .filter_map(|minute| u32::try_from(minute).ok())
            .take(30)
            .collect(),
    };
    if random.one_in(12) {
        list.push(LAST);
    }
    list.retain(|&minute| minute <= LAST);
    list.sort();
    list.dedup();
    list
}

/// A list that 16 declines: two neighbours equal or falling, or one minute too many.
pub fn damage_minutes(random: &mut Random, list: &mut Vec<u32>) {
    match random.below(3) {
        0 => list.push(u32::MAX),
        _ => keys::damage(random, list),
    }
}

/// A slice of minutes, after which stands what would not rise, or one more.
pub fn lent_minutes(random: &mut Random, mut list: Vec<u32>) -> Piece<u32> {
    let len = list.len();
    let next = list.last().map_or(0, |&last| random.pick(&[0, last, last.wrapping_add(1)]));
    list.push(next);
    Piece::cut(&list, len)
}

/// Minutes for these windows as slices, as they must be and damaged.
pub fn minutes_both(random: &mut Random, windows: &[u32]) -> [Piece<u32>; 2] {
    let list = minutes(random, windows);
    let mut late = list.clone();
    damage_minutes(random, &mut late);
    [list, late].map(|list| lent_minutes(random, list))
}

/// Windows and minutes for a call, each damaged in one of so many.
pub fn hours(random: &mut Random, among: usize) -> [Piece<u32>; 2] {
    let good = windows(random);
    let mut list = minutes(random, &good);
    if random.one_in(among) {
        damage_minutes(random, &mut list);
    }
    let list = lent_minutes(random, list);
    let own = if random.one_in(among) { damaged_windows(random) } else { good };
    [lent(random, own), list]
}
