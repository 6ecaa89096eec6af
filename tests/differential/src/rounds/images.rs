//! The rounds of images: written, read back, damaged, and read field by field.

use super::*;
use crate::layout::{field_at, field_width, first_field, image_count, image_r, HEAD, MEMBERS};

/// A whole image read into slices of several lengths.
pub fn read_image(compare: &mut Compare, random: &mut Random, image: &Piece<u8>) -> Result {
    let bytes = image.slice();
    let needed = match bytes.len() < MEMBERS {
        true => random.below(20),
        false => layout::size(image_r(bytes), image_count(bytes)).min(4000),
    };
    let lengths = near(random, needed);
    for len in lengths {
        let words = make::junk(random, len + 4);
        compare.image_read(&Piece::cut(&words, len), image)?;
    }
    Ok(())
}

/// The field reader at the positions of a small image, at the borders and some
/// others of a large one, and far outside.
pub fn read_fields(compare: &mut Compare, random: &mut Random, image: &Piece<u8>) -> Result {
    let len = image.len;
    let mut positions: Vec<usize> = vec![
        usize::MAX,
        usize::MAX - 2,
        usize::MAX - 12,
        (1u64 << 32) as usize,
        ((1u64 << 32) + 10) as usize,
        len + random.below(2000),
    ];
    if len <= 120 {
        positions.extend(0..len + 5);
    } else {
        positions.extend([0, 1, MEMBERS - 1, MEMBERS, MEMBERS + 1]);
        positions.extend(len - HEAD - 1..=len);
        positions.extend((0..10).map(|_| random.below(len)));
    }
    if len >= layout::FIRST_STEPS {
        let count = image_count(&image.all);
        for i in [0, 1, 2, count.saturating_sub(1), count, count + 1] {
            let border = field_at(image_r(&image.all), i);
            positions.extend([border - 1, border, border + 1, border + HEAD]);
        }
    }
    for position in positions {
        compare.image_field(image, position)?;
    }
    Ok(())
}

/// Images written, read back and damaged.
pub fn image(compare: &mut Compare, random: &mut Random) -> Result {
    let count = if random.one_in(2) { Some(random.below(4)) } else { None };
    let raw = make::well_formed(random, count);
    let t = make::with_room(random, &raw.words(), raw.width());
    let whole = raw.image();
    let spare = random.below(3);
    let out = filler::<u8>(random, whole.len() + spare);
    let written = compare.image_write(&t, &Piece::whole(out))?;
    if written.second[..whole.len()] != whole {
        return Err(format!("REFERENCE writes another image of {:?}\n", t.all));
    }
    let image = Piece::whole(whole.clone());
    read_image(compare, random, &image)?;
    read_fields(compare, random, &image)?;

    // Cut short, with the rest after the slice.
    let width = field_width(raw.r as usize);
    for len in 0..whole.len() {
        let from_border = (len + width - MEMBERS % width) % width;
        let at_border = from_border <= 4 || from_border + 4 >= width || len < MEMBERS + 6;
        if whole.len() <= 120 || at_border || len + 8 > whole.len() {
            let cut = Piece::cut(&whole, len);
            compare.image_read(&t, &cut)?;
            compare.image_field(&cut, 0)?;
            compare.image_field(&cut, len.saturating_sub(from_border))?;
            compare.image_field(&cut, len.saturating_sub(HEAD))?;
        }
    }
    // Each byte changed.
    if whole.len() <= 300 {
        for i in 0..whole.len() {
            let mut changed = whole.clone();
            changed[i] ^= 1 << random.below(8);
            let changed = Piece::whole(changed);
            compare.image_read(&t, &changed)?;
            compare.image_field(&changed, i.saturating_sub(i % 3))?;
        }
    }
    for _ in 0..30 {
        let changed = Piece::whole(make::damaged(random, &raw));
        read_image(compare, random, &changed)?;
        if random.one_in(3) {
            read_fields(compare, random, &changed)?;
        }
    }
    // Random bytes, with and without a head.
    for _ in 0..6 {
        let len = random.below(90);
        let mut bytes = filler::<u8>(random, len);
        let first = first_field(random.below(10) as u32, random.below(4) as u32, 9);
        let given = random.below(first.len() + 1).min(bytes.len());
        bytes[..given].copy_from_slice(&first[..given]);
        let bytes = Piece::whole(bytes);
        read_image(compare, random, &bytes)?;
        read_fields(compare, random, &bytes)?;
    }
    // A head that asks for much: due fields far past the end.
    let mut bytes = first_field(255, 65535, 0);
    bytes.extend(layout::head(layout::MEMBER, layout::member_length(255)));
    bytes.push(0);
    read_fields(compare, random, &Piece::whole(bytes))
}
