//! Makes lists of keys, strictly rising and not.

use crate::compare::Piece;
use crate::make;
use crate::random::Random;

/// A strictly rising list: what the words of a table name, the identifiers next
/// to these, the ends of the space, and others.
pub fn rising(random: &mut Random, words: &[u32]) -> Vec<u32> {
    let mut keys = match random.below(10) {
        0 => Vec::new(),
        1 => make::names(random, words, 1),
        2 => make::names(random, words, 2),
        // Almost all that the words name.
        3 => make::names(random, words, 2 * words.len().min(1000)),
        // A stretch round an identifier, whole or with gaps.
        4 => {
            let length = random.range(2, 150) as u32;
            let first = make::names(random, words, 1)[0].wrapping_sub(random.word() % length);
            let gaps = random.one_in(2);
            (0..length)
                .filter(|_| !(gaps && random.one_in(3)))
                .map(|i| first.wrapping_add(i))
                .collect()
        }
        // Anywhere.
        5 => (0..random.range(1, 30)).map(|_| random.word()).collect(),
        _ => {
            let count = random.range(3, 20);
            make::names(random, words, count)
        }
    };
    if keys.len() > 1 {
        for end in [0, u32::MAX] {
            if random.one_in(3) {
                keys.push(end);
            }
        }
    }
    keys.sort();
    keys.dedup();
    keys
}

/// A strictly rising list of this length, spread over the identifiers, some of
/// it from `first` on without gaps.
pub fn long(random: &mut Random, first: u32, length: usize) -> Vec<u32> {
    let mut keys = std::collections::BTreeSet::new();
    let stretch = random.below(length + 1) as u32;
    keys.extend((0..stretch).map(|i| first.wrapping_add(i)));
    while keys.len() < length {
        keys.insert(random.word());
    }
    keys.into_iter().collect()
}

/// Makes a pair of neighbours equal or falling, or all of them falling; fewer
/// than two keys become two equal ones.
pub fn damage(random: &mut Random, keys: &mut Vec<u32>) {
    if keys.len() < 2 {
        let key = keys.first().copied().unwrap_or(random.word());
        keys.resize(2, key);
        return;
    }
    let last = keys.len() - 1;
    let middle = random.range(1, last);
    let at = random.pick(&[1, last, middle]);
    match random.below(5) {
        0 | 1 => keys[at] = keys[at - 1],
        2 => keys.swap(at - 1, at),
        // Once round the end.
        3 => keys.rotate_left(at),
        _ => keys.reverse(),
    }
}

/// A list for a call, strictly rising more often than not. Keys that would not
/// rise may stand after the slice.
pub fn any(random: &mut Random, words: &[u32]) -> Piece<u32> {
    let mut keys = rising(random, words);
    if random.one_in(3) {
        damage(random, &mut keys);
    }
    let len = match random.below(4) {
        0 => random.below(keys.len() + 1),
        _ => keys.len(),
    };
    let next = keys.last().map_or(0, |&last| random.pick(&[0, last, last.wrapping_add(1)]));
    keys.push(next);
    Piece::cut(&keys, len)
}
