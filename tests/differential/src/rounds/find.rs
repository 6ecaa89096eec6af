//! The rounds of find: tables with many dead entries, of every sort, and full ones.

use super::*;

/// Finds from some members, for keys that they own, that they name and that lie anywhere.
fn finds(compare: &mut Compare, random: &mut Random, t: &Piece<u32>, most: usize) -> Result {
    let raw = Raw::of(t.slice());
    if raw.records.is_empty() {
        return Ok(());
    }
    for _ in 0..most {
        let from = &raw.records[random.below(raw.records.len())];
        let other = &raw.records[random.below(raw.records.len())];
        let near = random.pick(&from.list);
        let far = random.pick(&other.list);
        let any = random.word();
        let end = random.pick(&[other.id, other.id.wrapping_add(1), any]);
        let k = random.pick(&[from.id, near, far, end, end, from.id.wrapping_add(1)]);
        compare.lookup(t, from.id, k)?;
    }
    Ok(())
}

/// Lists with dead entries anywhere, some of them twice, and any live ones.
fn ragged(random: &mut Random, r: usize, n: usize) -> Raw {
    let mut raw = make::stale(random, r, n);
    let ids: Vec<u32> = raw.records.iter().map(|m| m.id).collect();
    for record in &mut raw.records {
        for k in 0..r {
            let any = random.word();
            match random.below(6) {
                0 => record.list[k] = random.pick(&ids),
                1 if k > 0 => record.list[k] = record.list[k - 1],
                2 => record.list[k] = random.pick(&[0, u32::MAX, any]),
                _ => {}
            }
        }
    }
    raw
}

pub fn find(compare: &mut Compare, random: &mut Random) -> Result {
    for number in 0..4 {
        let r = if random.one_in(6) { 8 } else { random.range(1, 8) };
        let n = if random.one_in(4) { r + 1 } else { r + 1 + random.below(10) };
        let mut raw = match number {
            0 | 1 => make::stale(random, r, n),
            2 => make::sound(random, r, n),
            _ => ragged(random, r, n),
        };
        let t = make::with_room(random, &raw.words(), raw.width());
        if number < 3 && !reference::is_sound(t.slice()) {
            return Err(format!("HARNESS makes a table that is not sound: {:?}\n", t.all));
        }
        finds(compare, random, &t, 12)?;
        let some = random.word();
        for limit in [0, 1, random.pick(&[2, some, u32::MAX])] {
            compare.settle(&t, limit)?;
        }
        // As it ended.
        let after = Piece::whole(compare.round(&t)?.first);
        finds(compare, random, &after, 2)?;
        compare.settle(&after, 0)?;
        make::cut_off(random, &mut raw);
        let t = make::with_room(random, &raw.words(), raw.width());
        finds(compare, random, &t, 8)?;
        compare.settle(&t, random.pick(&[0, 1]))?;
    }
    compare.passed(random, false)
}

/// 256 members with dead entries: finds, those once round too, and settle.
pub fn full_find(compare: &mut Compare, random: &mut Random) -> Result {
    let r = random.pick(&[2, 7, 8, 8]);
    for mut raw in [make::stalest(random, 8, 256), make::stale(random, r, 256)] {
        let t = Piece::whole(raw.words());
        finds(compare, random, &t, 6)?;
        let ids = members(t.slice());
        for n in [ids[0], random.pick(&ids)] {
            compare.lookup(&t, n, n)?;
        }
        for limit in [0, 1] {
            compare.settle(&t, limit)?;
        }
        make::cut_off(random, &mut raw);
        finds(compare, random, &Piece::whole(raw.words()), 10)?;
    }
    compare.passed(random, true)
}
