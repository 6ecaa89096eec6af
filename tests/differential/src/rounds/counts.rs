//! The rounds of step counts: counts at and next to the largest word, headers and first fields
//! that count, shelves that go and join again, and tables and images in the layout before this one.

use super::images::read_fields;
use super::*;
use crate::layout::{FIRST_STEPS, MEMBERS};
use crate::make::Ring;

/// Tables in the layout before this one, which had one step count, in the header; and the number
/// that they are given.
const OLDER_TABLES: [(&[u32], u32); 9] = [
    // Read with the word after it as its count.
    (&[1, 1, 0, 5, 5, 0, 0, 5, 77], 0),
    (&[1, 1, 0, 5, 5, 0, 0, 5], 1),
    (&[1, 1, 3, 5, 5, 0, 0, 5, 77], 1),
    // Read as 5 with the count 9, and 7 with the count 4.
    (&[1, 2, 0, 5, 9, 0, 0, 9, 9, 7, 0, 0, 0, 3, 4], 0),
    (&[1, 2, 0, 5, 9, 0, 0, 9, 9, 7, 0, 0, 0, 3], 1),
    (&[1, 2, 0, 5, 9, 0, 0, 9, 9, 5, 0, 0, 5, 3, 4], 1),
    (&[1, 2, 1, 5, 9, 0, 0, 9, 9, 7, 0, 0, 0, 3, 4], 1),
    (&[1, 0, 0], 0),
    (&[1, 0, 1], 1),
];

/// Images in that layout, and the number that they are given.
const OLDER_IMAGES: [(&[u8], u32); 4] = [
    (
        &[
            1, 0, 7, 1, 0, 1, 0, 0, 0, 0, 2, 0, 17, 0, 0, 0, 5, 0, 0, 0, 5, 0, 0, 0, 0, 0, 0, 0, 0,
            5, 3, 0, 0,
        ],
        9,
    ),
    (
        &[
            1, 0, 7, 1, 0, 1, 0, 0, 0, 4, 2, 0, 17, 0, 0, 0, 5, 0, 0, 0, 5, 0, 0, 0, 0, 0, 0, 0, 0,
            5, 3, 0, 0,
        ],
        9,
    ),
    (&[1, 0, 7, 1, 0, 0, 0, 0, 0, 0, 3, 0, 0], 0),
    (&[1, 0, 7, 1, 0, 0, 0, 0, 0, 4, 3, 0, 0], 9),
];

/// A table of the layout before this one: every call.
fn older_table(compare: &mut Compare, random: &mut Random, t: &Piece<u32>) -> Result {
    compare.audit_older(t)?;
    all_calls(compare, random, t, 2)?;
    let good = Piece::whole(make::well_formed(random, Some(2)).words());
    compare.alike(t, &good)?;
    compare.alike(&good, t)?;
    Ok(())
}

/// An image of the layout before this one, read whole and by fields.
fn older_image(compare: &mut Compare, random: &mut Random, image: &Piece<u8>) -> Result {
    let room = random.below(60);
    compare.read_older(&Piece::whole(make::junk(random, HEADER + room)), image)?;
    read_image(compare, random, image)?;
    read_fields(compare, random, image)
}

/// Those above, and what the numbers beside them say.
fn fixed(compare: &mut Compare, random: &mut Random) -> Result {
    let wrong = |what: String| format!("REFERENCE gives another number than that of {what}\n");
    for (words, number) in OLDER_TABLES {
        let t = Piece::whole(words.to_vec());
        older_table(compare, random, &t)?;
        if compare.audit(&t)?.answer.number != number {
            return Err(wrong(format!("{words:?}")));
        }
    }
    for (bytes, number) in OLDER_IMAGES {
        let image = Piece::whole(bytes.to_vec());
        older_image(compare, random, &image)?;
        let table = Piece::whole(make::junk(random, HEADER));
        if compare.image_read(&table, &image)?.answer.number != number {
            return Err(wrong(format!("{bytes:?}")));
        }
    }
    Ok(())
}

/// The like, with any records.
fn older(compare: &mut Compare, random: &mut Random) -> Result {
    for n in [0, 1, 2, random.range(3, 8)] {
        let raw = make::well_formed(random, Some(n));
        let t = make::older_table(random, &raw);
        older_table(compare, random, &t)?;
        let image = Piece::whole(make::older_image(random, &raw));
        older_image(compare, random, &image)?;
    }
    Ok(())
}

/// Tables and images that are well-formed but for the step count of the header, of the first
/// field.
fn headers(compare: &mut Compare, random: &mut Random) -> Result {
    let r = random.range(1, 8);
    let n = r + 1 + random.below(6);
    let raw = match random.below(4) {
        0 => make::well_formed(random, None),
        1 => Raw::new(r, Vec::new()),
        _ => make::sound(random, r, n),
    };
    let good = make::with_room(random, &raw.words(), raw.width());
    for steps in [1, u32::MAX, make::header_steps(random)] {
        let mut counts = raw.clone();
        counts.steps = steps;
        let t = make::with_room(random, &counts.words(), raw.width());
        all_calls(compare, random, &t, 2)?;
        compare.alike(&t, &good)?;
        compare.alike(&good, &t)?;
    }
    let whole = raw.image();
    for bytes in [0..1, 1..2, 2..3, 3..4, 0..4] {
        let mut image = whole.clone();
        for byte in &mut image[FIRST_STEPS..MEMBERS][bytes] {
            *byte = random.pick(&[1, 128, 255]);
        }
        let image = Piece::whole(image);
        read_image(compare, random, &image)?;
        compare.image_field(&image, 0)?;
        compare.image_field(&image, MEMBERS)?;
    }
    Ok(())
}

/// Steps, rounds and settlings of members whose counts end, or are about to.
fn to_the_end(compare: &mut Compare, random: &mut Random) -> Result {
    let r = random.range(1, 8);
    let n = r + 1 + random.below(8);
    let mut raw = match random.below(3) {
        0 => make::stale(random, r, n),
        _ => make::sound(random, r, n),
    };
    for record in &mut raw.records {
        let any = random.word();
        record.steps = random.pick(&[u32::MAX, u32::MAX - 1, u32::MAX - 2, any]);
    }
    let mut t = make::with_room(random, &raw.words(), raw.width());
    for limit in [0, 1, 2, n as u32] {
        compare.settle(&t, limit)?;
    }
    for _ in 0..3 {
        let n = raw.records[random.below(n)].id;
        for _ in 0..3 {
            t = Piece::whole(compare.stabilize(&t, n)?.first);
        }
        t = Piece::whole(compare.round(&t)?.first);
    }
    Ok(())
}

/// A shelf that has joined, with steps of its own or with any count, goes and joins again; so
/// does one that others name.
fn again(compare: &mut Compare, random: &mut Random) -> Result {
    let r = random.range(1, 8);
    let n = r + 1 + random.below(6);
    let ring = Ring::any(random, n);
    let raw = ring.table(random, r);
    let mut words = raw.words();
    words.extend(make::junk(random, raw.width() + 2));
    let place = random.below(n);
    let i = random.pick(&[0, place, n - 1]);
    let (p, j) = (ring.id(i), ring.gaps[i]);
    let mut t = Piece::whole(compare.join(&Piece::whole(words), j, p)?.first);
    for _ in 0..random.below(4) {
        t = Piece::whole(compare.stabilize(&t, j)?.first);
    }
    if random.one_in(2) {
        let mut raw = Raw::of(t.slice());
        let count = random.word();
        if let Some(joined) = raw.records.iter_mut().find(|m| m.id == j) {
            joined.steps = random.pick(&[u32::MAX, u32::MAX - 1, count]);
        }
        put(&mut t, &raw);
    }
    compare.goes_and_joins(&t, j, p, random.one_in(2))?;
    let next = random.below(n);
    compare.goes_and_joins(&t, ring.id(next + 1), ring.id(next), random.one_in(2))
}

pub fn counts(compare: &mut Compare, random: &mut Random) -> Result {
    fixed(compare, random)?;
    older(compare, random)?;
    headers(compare, random)?;
    for _ in 0..3 {
        to_the_end(compare, random)?;
        again(compare, random)?;
    }
    Ok(())
}
