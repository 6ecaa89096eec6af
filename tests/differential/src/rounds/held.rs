//! The rounds of keys: who holds them, on tables of every size, with lists that
//! rise and lists that do not.

use super::*;
use crate::keys;

/// Held with a list of its own for each caller.
pub fn held_calls(
    compare: &mut Compare,
    random: &mut Random,
    t: &Piece<u32>,
    callers: &[u32],
) -> Result {
    for &n in callers {
        compare.held(t, n, &keys::any(random, t.slice()))?;
    }
    Ok(())
}

/// A table of any size, ideal or of any shape.
fn any_table(random: &mut Random) -> Piece<u32> {
    let r = random.range(1, 8);
    let n = match random.below(10) {
        0 => 0,
        1 | 2 => 1,
        3 => 2,
        4 if random.one_in(4) => 256,
        _ => random.range(r + 1, r + 12),
    };
    if n > r && random.one_in(2) {
        let ids = Space::any(random, n).rising(random, n);
        let mut words = make::junk(random, layout::size(r, n));
        reference::new(&mut words, r as u32, &ids);
        return Piece::whole(words);
    }
    let raw = make::well_formed(random, Some(n));
    make::with_room(random, &raw.words(), raw.width())
}

/// The lowest members and the last, some others, and names that may be none.
fn callers(random: &mut Random, t: &Piece<u32>) -> Vec<u32> {
    let mut callers = make::names(random, t.slice(), 2);
    let ids = members(t.slice());
    callers.extend(ids.iter().take(3));
    callers.extend(ids.last());
    if let Some(&id) = ids.get(random.below(ids.len().max(1))) {
        callers.extend([id, id.wrapping_add(1), id.wrapping_sub(1)]);
    }
    callers
}

pub fn held(compare: &mut Compare, random: &mut Random) -> Result {
    for _ in 0..6 {
        let t = any_table(random);
        for _ in 0..12 {
            let list = keys::any(random, t.slice());
            for n in callers(random, &t) {
                compare.held(&t, n, &list)?;
            }
        }
    }
    // A long list, as it is and with one pair that does not rise.
    let t = any_table(random);
    let length = if random.one_in(8) { 70_000 } else { random.range(200, 5_000) };
    let first = make::names(random, t.slice(), 1)[0];
    let mut list = keys::long(random, first, length);
    for n in callers(random, &t) {
        compare.held(&t, n, &Piece::whole(list.clone()))?;
    }
    keys::damage(random, &mut list);
    for n in callers(random, &t) {
        compare.held(&t, n, &Piece::whole(list.clone()))?;
    }
    Ok(())
}
