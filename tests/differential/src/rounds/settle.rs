//! The rounds of rounds and settle: sound tables of every sort with limits of every sort,
//! tables that lack one thing to be sound, and full ones.

use super::*;

/// Limits for a sound table of n members, of which so many are principals.
fn limits(random: &mut Random, n: u32, principals: u32, r: u32) -> Vec<u32> {
    let enough = n - principals + r;
    let some = random.word();
    let one = random.pick(&[256, 65536, 1 << 31, u32::MAX, some]);
    let small = random.below(4) as u32;
    vec![small, enough, n - 1, one, some % enough, n, enough - 1]
}

/// A round, and settle with some limits: as many as come first in the list.
fn calls(compare: &mut Compare, random: &mut Random, t: &Piece<u32>, most: usize) -> Result {
    let seen = reference::audit(t.slice());
    let all = match seen.values {
        [n, principals, _, 1..=2] => limits(random, n, principals, t.slice()[layout::R]),
        _ => vec![random.pick(&[0, 1, u32::MAX])],
    };
    compare.round(t)?;
    for &limit in all.iter().take(most) {
        compare.settle(t, limit)?;
    }
    Ok(())
}

/// A round and one settle on any table.
pub fn settle_calls(compare: &mut Compare, random: &mut Random, t: &Piece<u32>) -> Result {
    let some = random.word();
    let limit = random.pick(&[0, 1, 2, 3, 256, 65536, u32::MAX, some]);
    compare.round(t)?;
    compare.settle(t, limit)?;
    Ok(())
}

/// Several joins by one member, steps and notices, losses that a withdrawal is granted.
pub fn churned(random: &mut Random, r: usize) -> Raw {
    let n = r + 1 + random.below(4);
    let space = Space::any(random, 4 * n);
    let ids = space.rising(random, n);
    let mut words = vec![0; layout::size(r, 4 * n)];
    reference::new(&mut words, r as u32, &ids);
    for _ in 0..random.range(2, 12) {
        let live = members(&words);
        let n = random.pick(&live);
        for _ in 0..random.range(1, 4) {
            match random.below(6) {
                0..=2 => {
                    reference::join(&mut words, space.pick(random), n);
                }
                3 => {
                    reference::stabilize(&mut words, n);
                }
                4 => {
                    reference::rectify(&mut words, n, space.pick(random));
                }
                _ => {
                    reference::leave(&mut words, random.pick(&live));
                }
            }
        }
    }
    Raw::of(&words)
}

/// A sound table with one thing changed, which may leave it sound.
pub fn changed(random: &mut Random, raw: &Raw) -> Raw {
    let mut raw = raw.clone();
    let (n, r) = (raw.records.len(), raw.r as usize);
    let ids: Vec<u32> = raw.records.iter().map(|m| m.id).collect();
    let i = random.below(n);
    let record = &mut raw.records[i];
    match random.below(6) {
        // A candidate at an end of the way to the first entry, or past it.
        0 | 1 => {
            record.pending = 1;
            record.candidate = match random.below(4) {
                0 => record.id,
                1 => record.list[0],
                2 => record.list[0].wrapping_add(1),
                _ => random.word(),
            };
        }
        // No live entry, skipping nobody: all just before the next member.
        2 => {
            let next = ids[(i + 1) % n];
            record.list = (1..=r as u32).rev().map(|k| next.wrapping_sub(k)).collect();
            record.pending = 0;
            record.candidate = 0;
        }
        // A list that skips all but r members.
        3 => {
            record.list = (1..=r).map(|k| ids[(i + n - r - 1 + k) % n]).collect();
            record.pending = 0;
            record.candidate = 0;
        }
        4 => record.list[random.below(r)] = random.pick(&ids),
        // One member fewer: r are left where there were r + 1.
        _ => {
            raw.records.remove(i);
            raw.count -= 1;
        }
    }
    raw
}

pub fn settling(compare: &mut Compare, random: &mut Random) -> Result {
    for number in 0..4 {
        let r = if random.one_in(6) { 8 } else { random.range(1, 8) };
        let n = if random.one_in(4) { r + 1 } else { r + 1 + random.below(14) };
        let raw = if number == 3 { churned(random, r) } else { make::sound(random, r, n) };
        let t = make::with_room(random, &raw.words(), raw.width());
        if !reference::is_sound(t.slice()) {
            return Err(format!("HARNESS makes a table that is not sound: {:?}\n", t.all));
        }
        calls(compare, random, &t, 7)?;
        let other = changed(random, &raw);
        let t = make::with_room(random, &other.words(), other.width());
        calls(compare, random, &t, 2)?;
        // One word too few.
        let words = raw.words();
        calls(compare, random, &Piece::cut(&words, words.len() - 1), 1)?;
        compare.turns(random, false)?;
    }
    Ok(())
}

/// 256 members, sound and not.
pub fn full_settling(compare: &mut Compare, random: &mut Random) -> Result {
    let r = random.pick(&[1, 2, 3, 8]);
    let mut raw = make::sound(random, r, 256);
    make::count_apart(random, &mut raw);
    let t = make::with_room(random, &raw.words(), raw.width());
    calls(compare, random, &t, 2)?;
    let other = changed(random, &raw);
    calls(compare, random, &Piece::whole(other.words()), 1)?;
    let mut raw = make::slowest(random, r, 256);
    make::count_apart(random, &mut raw);
    let t = Piece::whole(raw.words());
    compare.settle(&t, random.pick(&[255, 256, u32::MAX]))?;
    // As many open minutes, or more.
    let windows = make::one_minute(random);
    let open = random.pick(&[255, 256, 300]);
    let list = make::minutes_of(random, windows.slice(), open, 20);
    compare.settle_at(&t, &windows, &make::lent_minutes(random, list))?;
    compare.turns(random, true)
}
