//! The calls of the image, in place.

use super::*;

fn four(at: &mut [u8], word: u32) {
    at[0] = (word >> 24) as u8;
    at[1] = (word >> 16) as u8;
    at[2] = (word >> 8) as u8;
    at[3] = word as u8;
}

fn word(at: &[u8]) -> u32 {
    (at[0] as u32) << 24 | (at[1] as u32) << 16 | (at[2] as u32) << 8 | at[3] as u32
}

/// How many bytes the field of a member has.
fn record_of(r: usize) -> usize {
    20 + 4 * r
}

pub fn image_write(table: &[u32], image: &mut [u8]) -> Answer {
    if !formed(table, Fault::HeaderImage) {
        return no(1);
    }
    let (r, n) = (span(table), size(table));
    let record = record_of(r) - 4 * planted(Fault::ImageUncounted) as usize;
    let total = 13 + n * record;
    if image.len() < total + planted(Fault::ImageNoRoom) as usize {
        return no(10);
    }
    image[..3].copy_from_slice(&[1, 0, 7]);
    image[3] = r as u8;
    image[4] = (n >> 8) as u8;
    image[5] = n as u8;
    let sum = counts::all(table).iter().fold(0, |sum: u32, &count| sum.wrapping_add(count));
    four(&mut image[6..], if planted(Fault::ImageSum) { sum } else { 0 });
    for i in 0..n {
        let o = offset(table, i);
        let at = &mut image[10 + i * record..];
        at[0] = 2;
        at[1] = 0;
        at[2] = (record - 3 - 4 * planted(Fault::ImageOlderLength) as usize) as u8;
        four(&mut at[3..], table[o]);
        four(&mut at[7..], table[o + 1]);
        at[11] = table[o + 2] as u8;
        // Candidate, list and step count, in a row.
        for (k, &word) in table[o + 3..][..(record - 12) / 4].iter().enumerate() {
            four(&mut at[12 + 4 * k..], word);
        }
        if counts::is_stopped(table, i, Fault::StoppedBytes) {
            four(&mut at[7..], 0);
        }
        let count = record - 4..record;
        if planted(Fault::ImageLow) {
            at[count].reverse();
        } else if planted(Fault::ImageCountFirst) {
            at[16..record].rotate_right(4);
        } else if planted(Fault::ImageCountZero) {
            at[count].fill(0);
        }
    }
    image[total - 3..total].copy_from_slice(&[3, 0, 0]);
    let stopped = (0..n).filter(|&i| counts::is_stopped(table, i, Fault::StoppedImage)).count();
    yes([(total - 4 * stopped) as u32])
}

fn is_image(image: &[u8]) -> bool {
    if image.len() < 13 || image[..3] != [1, 0, 7] {
        return false;
    }
    let r = image[3] as usize;
    let n = image[4] as usize * 256 + image[5] as usize;
    let most = if planted(Fault::ImageMost) { 257 } else { 256 };
    if r < 1 || r > 8 || n > most {
        return false;
    }
    let steps = &image[6..10];
    let judged = if planted(Fault::ImageSteps) {
        &[]
    } else if planted(Fault::ImageStepsHigh) {
        &steps[..1]
    } else if planted(Fault::ImageStepsLow) {
        &steps[3..]
    } else {
        steps
    };
    if judged.iter().any(|&byte| byte > 0) && !(planted(Fault::ImageStepsEmpty) && n == 0) {
        return false;
    }
    let record = record_of(r);
    let total = 13 + n * record;
    if image.len() < total || (image.len() > total && !planted(Fault::ImageRest)) {
        return false;
    }
    for i in 0..n {
        let at = &image[10 + i * record..10 + (i + 1) * record];
        let length = at[1] as usize * 256 + at[2] as usize;
        let off = length == record - 2 && planted(Fault::ImageLength);
        if at[0] != 2 || (length != record - 3 && !off) {
            return false;
        }
        let most_pending = if planted(Fault::ImagePending) { 2 } else { 1 };
        if at[11] > most_pending || (at[11] == 0 && word(&at[12..]) != 0) {
            return false;
        }
        if i > 0 {
            let before = word(&image[10 + (i - 1) * record + 3..]);
            let own = word(&at[3..]);
            if before > own || (before == own && !planted(Fault::ImageRising)) {
                return false;
            }
        }
    }
    image[total - 3..total] == [3, 0, 0]
}

pub fn image_read(table: &mut [u32], image: &[u8]) -> Answer {
    if planted(Fault::ImageTen) && table.len() < 3 {
        return no(10);
    }
    if !is_image(image) {
        if let Some(image) = of_older(image) {
            return image_read(table, &image);
        }
        if planted(Fault::ImageHeader) && image.len() > 3 && !table.is_empty() {
            table[0] = image[3] as u32;
        }
        return no(9);
    }
    let r = image[3] as usize;
    let n = image[4] as usize * 256 + image[5] as usize;
    if table.len() < 3 + n * (r + 5) {
        return no(10);
    }
    table[0] = r as u32;
    table[1] = n as u32;
    if !planted(Fault::ReadHeader) {
        table[2] = 0;
    }
    for i in 0..n {
        let at = &image[10 + i * record_of(r) + 3..];
        let o = 3 + i * (r + 5);
        table[o] = word(at);
        table[o + 1] = word(&at[4..]);
        table[o + 2] = at[8] as u32;
        table[o + 3] = word(&at[9..]);
        for k in 0..r {
            table[o + 4 + k] = word(&at[13 + 4 * k..]);
        }
        if planted(Fault::ReadCountZero) {
            table[o + 4 + r] = 0;
        } else if !planted(Fault::ReadCountLeft) {
            table[o + 4 + r] = word(&at[13 + 4 * r..]);
        }
    }
    yes([n as u32])
}

/// The image that the bytes are in the layout before this one, if it has members, in this one;
/// by planted faults alone.
fn of_older(image: &[u8]) -> Option<Vec<u8>> {
    let fields = image.get(10..image.len().checked_sub(3)?).filter(|fields| !fields.is_empty())?;
    let counts = word(&image[6..]) != 0;
    if !planted(if counts { Fault::OlderImageCounted } else { Fault::OlderImage }) {
        return None;
    }
    let mut bytes = [&image[..6], &[0; 4]].concat();
    for field in fields.chunks(16 + 4 * image[3] as usize) {
        bytes.extend(field.get(..2)?);
        bytes.push(field.get(2)?.wrapping_add(4));
        bytes.extend(&field[3..]);
        bytes.extend([0; 4]);
    }
    bytes.extend(&image[image.len() - 3..]);
    is_image(&bytes).then_some(bytes)
}

pub fn image_field(image: &[u8], position: usize) -> Answer {
    let position = if planted(Fault::FieldNarrow) { position as u32 as usize } else { position };
    // Walks from due field to due field instead of dividing.
    let head = image.len() >= 10 && image[..3] == [1, 0, 7];
    let (tag, length) = if position == 0 {
        (1, 7)
    } else {
        if !head {
            return no(9);
        }
        let step = record_of(image[3] as usize) - 4 * planted(Fault::OlderField) as usize;
        let mut left = image[4] as usize * 256 + image[5] as usize;
        let mut at = 10;
        while at < position && left > 0 && at < image.len() {
            at += step;
            left -= 1;
        }
        if at != position && !(planted(Fault::FieldAnywhere) && position < at) {
            return no(9);
        }
        if left > 0 {
            (2, step - 3)
        } else {
            (3, 0)
        }
    };
    if position >= image.len() || image.len() - position < 3 + length {
        return no(9);
    }
    let found = &image[position..];
    if found[0] != tag && !planted(Fault::FieldTag) {
        return no(9);
    }
    if found[1] as usize * 256 + found[2] as usize != length {
        return no(9);
    }
    if planted(Fault::FieldSteps) && tag == 1 && found[6..10] != [0; 4] {
        return no(9);
    }
    if planted(Fault::FieldRest) && tag == 3 && found.len() > 3 {
        return no(9);
    }
    let next = position + 3 + length + (planted(Fault::FieldNext) && tag == 2) as usize;
    yes([tag as u32, position as u32 + 3, length as u32, next as u32])
}
