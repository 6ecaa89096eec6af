//! Pairs of tables: equal but for one word, alike, or neither and yet not to be told apart.

use super::{count_steps, count_to_the_end, header_steps, junk, names};
use crate::compare::Piece;
use crate::layout::{self, Raw, Record, COUNT, HEADER, ID, PENDING, R};
use crate::random::Random;

/// Another value for a word of a well-formed table, one that often leaves it well-formed.
pub fn another(random: &mut Random, words: &[u32], at: usize) -> u32 {
    let old = words[at];
    let (r, n) = (words[R] as usize, words[COUNT] as usize);
    let id = |place: usize| words[layout::record_at(r, place) + ID] as u64;
    let (up, down) = (old.wrapping_add(1), old.wrapping_sub(1));
    let bit = old ^ (1 << random.below(32));
    let any = random.word();
    let new = match (at, layout::place_of(words, at)) {
        (R, _) => {
            let other = random.range(1, 8) as u32;
            random.pick(&[up, down, other, 0, 9, bit])
        }
        (COUNT, _) => random.pick(&[up, down, up, down, 0, 257, bit]),
        (..HEADER, _) => header_steps(random),
        // Between its neighbours.
        (_, Some((place, ID))) if !random.one_in(4) => {
            let low = if place > 0 { id(place - 1) + 1 } else { 0 };
            let high = if place + 1 < n { id(place + 1) } else { 1 << 32 };
            (low + any as u64 % (high - low)) as u32
        }
        (_, Some((_, PENDING))) => random.pick(&[old ^ 1, old ^ 1, 2, bit]),
        _ => {
            let name = names(random, words, 1)[0];
            random.pick(&[up, down, bit, bit, any, name, name, 0, u32::MAX])
        }
    };
    if new == old {
        bit
    } else {
        new
    }
}

/// Other step counts for some members, for all, or for none.
fn recount(random: &mut Random, raw: &mut Raw) {
    let n = raw.records.len();
    match random.below(8) {
        0 => {}
        1 if n > 0 => raw.records[random.below(n)].steps = random.word(),
        2 if n > 0 => raw.records[n - 1].steps = u32::MAX,
        3 | 4 => count_to_the_end(random, raw, 6),
        _ => count_steps(random, raw),
    }
}

/// Two tables that are alike, with so many words after each.
pub fn alike(random: &mut Random, raw: &Raw, rooms: [usize; 2]) -> [Piece<u32>; 2] {
    let mut other = raw.clone();
    recount(random, &mut other);
    let rest = junk(random, rooms[0].max(rooms[1]));
    let rests = match random.below(6) {
        0 => [rest.clone(), rest],
        1 => [rest.clone(), vec![0; rest.len()]],
        2 => [rest.clone(), rest.iter().map(|word| word ^ 1).collect()],
        _ => [rest.clone(), junk(random, rest.len())],
    };
    let table = |raw: &Raw, rest: &[u32]| Piece::whole([&raw.words(), rest].concat());
    [table(raw, &rests[0][..rooms[0]]), table(&other, &rests[1][..rooms[1]])]
}

/// Two tables that are not alike, by the candidate of one member, and that yet no call tells
/// apart: before that member's next step nobody can join as either candidate. And the candidates.
pub fn untold(random: &mut Random, room: bool) -> ([Piece<u32>; 2], [u32; 2]) {
    let of = |room: bool, candidate: u32| match room {
        // A loss would make room, and leave no first entry live.
        false => {
            (1, vec![Record::new(0, 1, None, vec![1]), Record::new(1, 0, Some(candidate), vec![0])])
        }
        // Behind the dead 3 joins are declined by 13, and no other list goes past 0.
        true => (
            2,
            vec![
                Record::new(0, 5, Some(candidate), vec![3, 4]),
                Record::new(4, 0, None, vec![5, 0]),
                Record::new(5, 4, None, vec![0, 4]),
            ],
        ),
    };
    let candidates = if room { [1, 2] } else { [2, 3] };
    let after = if room { random.range(7, 30) } else { random.below(6) };
    let tables = candidates.map(|candidate| {
        let (r, records) = of(room, candidate);
        let mut raw = Raw::new(r, records);
        recount(random, &mut raw);
        Piece::whole([raw.words(), junk(random, after)].concat())
    });
    (tables, candidates)
}
