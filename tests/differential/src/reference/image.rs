//! The image of the decoded table, and its calls.

use super::*;

impl Table {
    fn image(&self) -> Vec<u8> {
        let mut image = Vec::new();
        let mut head = vec![self.r as u8];
        head.extend_from_slice(&(self.members.len() as u16).to_be_bytes());
        // "In the image the tag 1 step count is 0"
        head.extend_from_slice(&[0; 4]);
        push_field(&mut image, 1, &head);
        for m in &self.members {
            let mut record = Vec::new();
            record.extend_from_slice(&m.identifier.to_be_bytes());
            record.extend_from_slice(&m.predecessor.to_be_bytes());
            record.push(m.pending as u8);
            record.extend_from_slice(&m.candidate.to_be_bytes());
            for entry in &m.list {
                record.extend_from_slice(&entry.to_be_bytes());
            }
            record.extend_from_slice(&m.steps.to_be_bytes());
            push_field(&mut image, 2, &record);
        }
        push_field(&mut image, 3, &[]);
        image
    }

    /// The table whose writing the image is, if there is one.
    fn of_image(image: &[u8]) -> Option<Table> {
        let head = field_with(image, 0, 1, 7)?;
        let contents = &image[head.contents..head.next];
        let r = contents[0] as usize;
        let count = two_bytes(&contents[1..]) as usize;
        if four_bytes(&contents[3..]) != 0 {
            return None;
        }
        let mut position = head.next;
        let mut members = Vec::new();
        for _ in 0..count {
            let field = field_with(image, position, 2, member_contents(r))?;
            let contents = &image[field.contents..field.next];
            if contents[8] > 1 {
                return None;
            }
            members.push(Member {
                identifier: four_bytes(contents),
                predecessor: four_bytes(&contents[4..]),
                pending: contents[8] == 1,
                candidate: four_bytes(&contents[9..]),
                list: contents[13..].chunks_exact(4).take(r).map(four_bytes).collect(),
                steps: four_bytes(&contents[13 + 4 * r..]),
            });
            position = field.next;
        }
        let table = Table { r, members };
        if table.is_well_formed() && table.image() == image {
            Some(table)
        } else {
            None
        }
    }
}

/// "one-byte tag, two-byte length, contents; high byte first"
fn push_field(image: &mut Vec<u8>, tag: u8, contents: &[u8]) {
    image.push(tag);
    image.extend_from_slice(&(contents.len() as u16).to_be_bytes());
    image.extend_from_slice(contents);
}

/// "the tag 2 contents end in four more bytes, length 17 + 4r"
fn member_contents(r: usize) -> usize {
    17 + 4 * r
}

fn two_bytes(bytes: &[u8]) -> u16 {
    u16::from_be_bytes([bytes[0], bytes[1]])
}

fn four_bytes(bytes: &[u8]) -> u32 {
    u32::from_be_bytes([bytes[0], bytes[1], bytes[2], bytes[3]])
}

struct Field {
    contents: usize,
    next: usize,
}

/// The field at a position inside the image, if it is whole and has this tag
/// and this length.
fn field_with(image: &[u8], position: usize, tag: u8, length: usize) -> Option<Field> {
    let rest = image.get(position..)?;
    if rest.len() < 3 || rest[0] != tag || two_bytes(&rest[1..]) as usize != length {
        return None;
    }
    if rest.len() - 3 < length {
        return None;
    }
    Some(Field { contents: position + 3, next: position + 3 + length })
}

pub fn image_write(table: &[u32], image: &mut [u8]) -> Answer {
    let Some(t) = Table::decode(table) else {
        return decline(1);
    };
    let written = t.image();
    if image.len() < written.len() {
        return decline(10);
    }
    image[..written.len()].copy_from_slice(&written);
    accept(&[written.len() as u32])
}

pub fn image_read(table: &mut [u32], image: &[u8]) -> Answer {
    let Some(t) = Table::of_image(image) else {
        return decline(9);
    };
    if table.len() < t.length() {
        return decline(10);
    }
    t.put(table);
    accept(&[t.count()])
}

/// The field due at a position as tag and length, which follows from the tag 1
/// field alone.
fn due(image: &[u8], position: usize) -> Option<(u8, usize)> {
    if position == 0 {
        return Some((1, 7));
    }
    let head = field_with(image, 0, 1, 7)?;
    let r = image[head.contents] as usize;
    let count = two_bytes(&image[head.contents + 1..]) as usize;
    let record = member_contents(r);
    let end = head.next + count * (3 + record);
    if position == end {
        return Some((3, 0));
    }
    if position >= head.next && position < end && (position - head.next) % (3 + record) == 0 {
        return Some((2, record));
    }
    None
}

pub fn image_field(image: &[u8], position: usize) -> Answer {
    let Some((tag, length)) = due(image, position) else {
        return decline(9);
    };
    match field_with(image, position, tag, length) {
        None => decline(9),
        Some(field) => {
            accept(&[tag as u32, field.contents as u32, length as u32, field.next as u32])
        }
    }
}

#[cfg(test)]
mod layout {
    use super::*;

    /// Read into words of 9s.
    fn read(image: &[u8]) -> (Answer, Vec<u32>) {
        let mut table = vec![9; 20];
        let given = image_read(&mut table, image);
        (given, table)
    }

    #[test]
    fn own_counts() {
        let table = [1, 2, 0, 5, 9, 0, 0, 9, u32::MAX, 9, 5, 1, 6, 5, 0x0102_0304];
        let mut image = [0; 61];
        assert_eq!(image_write(&table, &mut image[..60]), decline(10));
        assert_eq!(image_write(&table, &mut image), accept(&[61]));
        assert_eq!(image[..10], [1, 0, 7, 1, 0, 2, 0, 0, 0, 0]);
        let first = [2, 0, 21, 0, 0, 0, 5, 0, 0, 0, 9, 0, 0, 0, 0, 0, 0, 0, 0, 9];
        assert_eq!(image[10..30], first);
        assert_eq!(image[30..34], [255; 4]);
        let second = [2, 0, 21, 0, 0, 0, 9, 0, 0, 0, 5, 1, 0, 0, 0, 6, 0, 0, 0, 5];
        assert_eq!(image[34..54], second);
        assert_eq!(image[54..], [1, 2, 3, 4, 3, 0, 0]);
        let (given, words) = read(&image);
        assert_eq!(given, accept(&[2]));
        assert_eq!(words[..15], table);
        assert_eq!(words[15..], [9; 5]);
        assert_eq!(image_field(&image, 34), accept(&[2, 37, 21, 58]));
        assert_eq!(image_field(&image, 58), accept(&[3, 61, 0, 61]));
        // Each byte of tag 1's step count is judged, but not by the field reader.
        for at in 6..10 {
            let mut counted = image;
            counted[at] = 1;
            assert_eq!(read(&counted), (decline(9), vec![9; 20]));
            assert_eq!(image_field(&counted, 0), accept(&[1, 3, 7, 10]));
            assert_eq!(image_field(&counted, 10), accept(&[2, 13, 21, 34]));
        }
    }

    #[test]
    fn before_own_counts() {
        // A member's field of 13 + 4r bytes, and no member.
        let old = [1, 0, 7, 1, 0, 1, 0, 0, 0, 0, 2, 0, 17, 0, 0, 0, 5, 0, 0, 0, 5, 0];
        let old = [&old[..], &[0, 0, 0, 0, 0, 0, 0, 5, 3, 0, 0]].concat();
        assert_eq!(read(&old).0, decline(9));
        assert_eq!(image_field(&old, 0), accept(&[1, 3, 7, 10]));
        assert_eq!(image_field(&old, 10), decline(9));
        let mut none = [1, 0, 7, 1, 0, 0, 0, 0, 0, 0, 3, 0, 0];
        assert_eq!(read(&none).0, accept(&[0]));
        none[9] = 1;
        assert_eq!(read(&none).0, decline(9));
    }
}
