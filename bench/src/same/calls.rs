//! The calls over the taken-apart table, and the image.

use super::*;

#[inline(never)]
pub fn new(words: &mut [u32], r: u32, ids: &[u32]) -> Answer {
    let (list, members) = (r as usize, ids.len());
    let width = record_size(list);
    if !(1..=8).contains(&r)
        || members <= list
        || members > MEMBERS_MOST
        || !ids.windows(2).all(|pair| pair[0] < pair[1])
    {
        return declined(11);
    }
    let Some(words) = words.get_mut(..HEADER + members * width) else {
        return declined(10);
    };
    let (header, records) = words.split_at_mut(HEADER);
    header.copy_from_slice(&[r, members as u32, 0]);
    // The highest r have lists that go round the end.
    let (straight, round) = records.split_at_mut((members - list) * width);
    let mut below = ids[members - 1];
    for (record, ids) in straight.chunks_exact_mut(width).zip(ids.windows(list + 1)) {
        record[..4].copy_from_slice(&[ids[0], below, 0, 0]);
        record[4..4 + list].copy_from_slice(&ids[1..]);
        record[4 + list] = 0;
        below = ids[0];
    }
    for (k, record) in (members - list..).zip(round.chunks_exact_mut(width)) {
        record[..4].copy_from_slice(&[ids[k], ids[k - 1], 0, 0]);
        let (front, back) = record[4..4 + list].split_at_mut(members - 1 - k);
        front.copy_from_slice(&ids[k + 1..]);
        back.copy_from_slice(&ids[..back.len()]);
        record[4 + list] = 0;
    }
    reply([members as u32])
}

#[inline(never)]
pub fn join(words: &mut [u32], j: u32, p: u32) -> Answer {
    let Some(t) = Table::open(words) else {
        return declined(1);
    };
    let Err(k) = t.search(j) else {
        return declined(2);
    };
    let Some(by) = t.place(p) else {
        return declined(3);
    };
    let joiner = Member {
        id: j,
        predecessor: p,
        pending: 0,
        candidate: 0,
        steps: 0,
        ..Member::read(t.record(by))
    };
    if !between(p, j, joiner.successors[0]) {
        return declined(4);
    }
    if t.place(joiner.successors[0]).is_none() {
        return declined(13);
    }
    let (at, end, width) = (t.offset(k), t.offset(t.members), t.width);
    if t.members == MEMBERS_MOST || words.len() - end < width {
        return declined(5);
    }
    words.copy_within(at..end, at + width);
    joiner.write(&mut words[at..at + width]);
    words[1] += 1;
    reply([words[1]])
}

/// The record at place k after one stabilize step, which is not counted yet, and what the step says.
#[inline(always)]
pub(super) fn stepped(t: &Table, k: usize) -> (Member, Answer) {
    let member = Member::read(t.record(k));
    let head = member.successors[0];
    if member.pending == 1 {
        let c = member.candidate;
        match t.place(c) {
            Some(s) => {
                let list = Member::read(t.record(s)).successors;
                (member.adopt(c, &list).clear_pending(), reply([2, c]))
            }
            None => (member.clear_pending(), reply([2, head])),
        }
    } else if let Some(s) = t.place(head) {
        let successor = Member::read(t.record(s));
        let c = successor.predecessor;
        let adopted = member.adopt(head, &successor.successors);
        if between(member.id, c, head) {
            (adopted.await_candidate(c), reply([1, c]))
        } else {
            (adopted, reply([2, head]))
        }
    } else {
        (member.drop_head(t.r), reply([0]))
    }
}

/// Does the member at place k take q as its predecessor?
#[inline(always)]
pub(super) fn takes(t: &Table, k: usize, q: u32) -> bool {
    let record = t.record(k);
    between(record[1], q, record[0]) || t.place(record[1]).is_none()
}

#[inline(never)]
pub fn stabilize(words: &mut [u32], n: u32) -> Answer {
    let Some(t) = Table::open(words) else {
        return declined(1);
    };
    let Some(k) = t.place(n) else {
        return declined(3);
    };
    let (member, said) = stepped(&t, k);
    let (at, width) = (t.offset(k), t.width);
    member.count_step().write(&mut words[at..at + width]);
    said
}

#[inline(never)]
pub fn rectify(words: &mut [u32], n: u32, q: u32) -> Answer {
    let Some(t) = Table::open(words) else {
        return declined(1);
    };
    let Some(k) = t.place(n) else {
        return declined(3);
    };
    if takes(&t, k, q) {
        let at = t.offset(k);
        words[at + 1] = q;
        reply([1])
    } else {
        reply([0])
    }
}

#[inline(never)]
pub fn fail(words: &mut [u32], n: u32) -> Answer {
    let Some(t) = Table::open(words) else {
        return declined(1);
    };
    let Some(k) = t.place(n) else {
        return declined(3);
    };
    let (at, end, width) = (t.offset(k), t.offset(t.members), t.width);
    remove(words, at, end, width);
    reply([words[1]])
}

#[inline(never)]
pub fn leave(words: &mut [u32], n: u32) -> Answer {
    let Some(t) = Table::open(words) else {
        return declined(1);
    };
    let Some(k) = t.place(n) else {
        return declined(3);
    };
    let (r, at, end, width) = (t.r, t.offset(k), t.offset(t.members), t.width);
    let mut copy = [0; WORDS_MOST];
    copy[..end].copy_from_slice(&words[..end]);
    remove(&mut copy, at, end, width);
    let members = t.members - 1;
    let left = Table {
        r,
        members,
        width,
        records: &copy[HEADER..end - width],
    };
    if left.best_places().0[..members].contains(&(members as u16)) {
        return declined(6);
    }
    if left.count_principals() <= r {
        return declined(7);
    }
    remove(words, at, end, width);
    reply([words[1]])
}

#[inline(never)]
pub fn lookup(words: &[u32], n: u32, k: u32) -> Answer {
    let Some(t) = Table::open(words) else {
        return declined(1);
    };
    let Some(start) = t.place(n) else {
        return declined(3);
    };
    let mut at = start;
    let mut q = n;
    let mut passed = 0;
    for moves in 0..t.members as u32 {
        let Some((next, over)) = t.best(at) else {
            return answer(8, [q]);
        };
        let b = t.id(next);
        passed += over;
        if k == b || between(q, k, b) {
            return reply([b, q, moves, passed]);
        }
        (at, q) = (next, b);
    }
    answer(8, [q])
}

/// The audit, with its way to count the principals.
#[inline(always)]
fn audit_by(words: &[u32], count: impl Fn(&Table) -> usize) -> Answer {
    let Some(t) = Table::open(words) else {
        return declined(1);
    };
    let (places, _) = t.best_places();
    let best = &places[..t.members];
    let ring = count_of(&ring_bits(best)[..t.members], 1);
    let principals = count(&t);
    let verdict = t.verdict(best, principals);
    reply([t.members as u32, principals as u32, ring as u32, verdict])
}

#[inline(never)]
pub fn audit(words: &[u32]) -> Answer {
    audit_by(words, |t| t.count_principals())
}

/// The audit, with the principals counted one by one.
#[inline(never)]
pub fn audit_early(words: &[u32]) -> Answer {
    audit_by(words, |t| t.count_principals_early())
}

/// Are all words of the records equal but the last, a step count? Each r has its own copy of this, which knows the width; each of
/// the two parts is short enough to be compared without a call of `bcmp`.
fn records_alike<const WIDTH: usize>(a: &[u32], b: &[u32]) -> bool {
    let (a, b) = (a.as_chunks::<WIDTH>().0, b.as_chunks::<WIDTH>().0);
    a.iter()
        .zip(b)
        .all(|(x, y)| x[..4] == y[..4] && x[4..WIDTH - 1] == y[4..WIDTH - 1])
}

#[inline(never)]
pub fn alike(a: &[u32], b: &[u32]) -> Answer {
    let (Some(a), Some(b)) = (Table::open(a), Table::open(b)) else {
        return declined(1);
    };
    let by_width = match a.r {
        1 => records_alike::<6>,
        2 => records_alike::<7>,
        3 => records_alike::<8>,
        4 => records_alike::<9>,
        5 => records_alike::<10>,
        6 => records_alike::<11>,
        7 => records_alike::<12>,
        _ => records_alike::<13>,
    };
    let alike = a.r == b.r && a.members == b.members && by_width(a.records, b.records);
    reply([u32::from(alike)])
}

#[cfg(feature = "whole")]
pub use whole::{findings, held, image_read, image_write, principal};

#[cfg(feature = "whole")]
mod whole {
    use super::*;

    const FIRST: usize = 10;
    const LAST: usize = 3;

    /// One more than the moves to the ring from each place, where at first only the places on it are known: each is found once.
    /// The member count where a walk never comes there.
    fn settle(best: &[u16], known: &mut [u16], k: usize) {
        if known[k] > 0 {
            return;
        }
        let (mut at, mut steps, mut value) = (k, 0, best.len());
        while steps < best.len() {
            at = usize::from(best[at]);
            steps += 1;
            match known.get(at) {
                None => break,
                Some(0) => (),
                Some(&v) => {
                    value = usize::from(v) - 1;
                    break;
                }
            }
        }
        at = k;
        for left in (1..=steps).rev() {
            known[at] = (value + left).min(best.len()) as u16 + 1;
            at = usize::from(best[at]);
        }
    }

    fn declined_runs(number: u32) -> Runs {
        Runs {
            number,
            ..Runs::default()
        }
    }

    #[inline(never)]
    pub fn held(words: &[u32], n: u32, keys: &[u32]) -> Runs {
        let Some(t) = Table::open(words) else {
            return declined_runs(1);
        };
        let Some(k) = t.place(n) else {
            return declined_runs(3);
        };
        if !keys.windows(2).all(|pair| pair[0] < pair[1]) {
            return declined_runs(12);
        }
        // How many keys stand at or below x, by halves.
        let up_to = |x: u32| keys.partition_point(|&key| key <= x);
        let before = t.id(k.checked_sub(1).unwrap_or(t.members - 1));
        let (from, to) = (up_to(before), up_to(n));
        let (runs, start, end) = if k == 0 {
            (2, [from, 0], [keys.len(), to])
        } else {
            (1, [from, 0], [to, 0])
        };
        Runs {
            number: 0,
            runs,
            start,
            end,
        }
    }

    #[inline(never)]
    pub fn principal(words: &[u32], n: u32) -> Answer {
        let Some(t) = Table::open(words) else {
            return declined(1);
        };
        if t.place(n).is_none() {
            return declined(3);
        }
        match t.first_skip(n) {
            Some(taken) => reply([0, taken as u32]),
            None => reply([1, (t.members * t.r) as u32]),
        }
    }

    #[inline(never)]
    pub fn findings(words: &[u32], findings: &mut [Finding]) -> Answer {
        let Some(t) = Table::open(words) else {
            return declined(1);
        };
        let Some(findings) = findings.get_mut(..t.members) else {
            return declined(10);
        };
        let (places, _) = t.best_places();
        let best = &places[..t.members];
        let mut bits = ring_bits(best);
        let known = &mut bits[..t.members];
        let ring = count_of(known, 1);
        let principal = t.principal_bits();
        for (k, (finding, record)) in findings.iter_mut().zip(t.records()).enumerate() {
            settle(best, known, k);
            *finding = Finding {
                id: record[0],
                principal: u32::from(principal[k]),
                moves: u32::from(known[k] - 1),
            };
        }
        let principals = findings.iter().filter(|f| f.principal == 1).count();
        let verdict = t.verdict(best, principals);
        reply([t.members as u32, principals as u32, ring as u32, verdict])
    }

    fn image_size(r: usize, members: usize) -> usize {
        FIRST + members * field_size(r) + LAST
    }

    /// The bytes of a member's field: four for each word of its record. Pending takes one of its four; the head takes the others.
    fn field_size(r: usize) -> usize {
        4 * record_size(r)
    }

    fn number2(bytes: &[u8], at: usize) -> usize {
        usize::from(u16::from_be_bytes(bytes[at..at + 2].try_into().unwrap()))
    }

    fn number4(bytes: &[u8], at: usize) -> u32 {
        u32::from_be_bytes(bytes[at..at + 4].try_into().unwrap())
    }

    fn put2(bytes: &mut [u8], at: usize, x: usize) {
        bytes[at..at + 2].copy_from_slice(&(x as u16).to_be_bytes());
    }

    fn put4(bytes: &mut [u8], at: usize, x: u32) {
        bytes[at..at + 4].copy_from_slice(&x.to_be_bytes());
    }

    #[inline(never)]
    pub fn image_write(words: &[u32], image: &mut [u8]) -> Answer {
        let Some(t) = Table::open(words) else {
            return declined(1);
        };
        let size = image_size(t.r, t.members);
        let Some(image) = image.get_mut(..size) else {
            return declined(10);
        };
        let (first, rest) = image.split_at_mut(FIRST);
        let (fields, last) = rest.split_at_mut(size - FIRST - LAST);
        first[0] = 1;
        put2(first, 1, 7);
        first[3] = t.r as u8;
        put2(first, 4, t.members);
        put4(first, 6, 0);
        for (field, record) in fields.chunks_exact_mut(field_size(t.r)).zip(t.records()) {
            field[0] = 2;
            put2(field, 1, field_size(t.r) - 3);
            put4(field, 3, record[0]);
            put4(field, 7, record[1]);
            field[11] = record[2] as u8;
            for (bytes, word) in field[12..].chunks_exact_mut(4).zip(&record[3..]) {
                bytes.copy_from_slice(&word.to_be_bytes());
            }
        }
        last.copy_from_slice(&[3, 0, 0]);
        reply([size as u32])
    }

    /// r and the member count, if the bytes are the writing of a well-formed table.
    fn judged(image: &[u8]) -> Option<(usize, usize)> {
        if image.len() < FIRST + LAST || image[..3] != [1, 0, 7] {
            return None;
        }
        let (r, members) = (usize::from(image[3]), number2(image, 4));
        if !(1..=8).contains(&r)
            || members > MEMBERS_MOST
            || number4(image, 6) != 0
            || image.len() != image_size(r, members)
        {
            return None;
        }
        let (fields, last) = image[FIRST..].split_at(image.len() - FIRST - LAST);
        let mut lowest = 0;
        for field in fields.chunks_exact(field_size(r)) {
            let (id, pending, candidate) =
                (u64::from(number4(field, 3)), field[11], number4(field, 12));
            if field[0] != 2
                || number2(field, 1) != field_size(r) - 3
                || id < lowest
                || pending > 1
                || (pending == 0 && candidate != 0)
            {
                return None;
            }
            lowest = id + 1;
        }
        (last == [3, 0, 0]).then_some((r, members))
    }

    #[inline(never)]
    pub fn image_read(words: &mut [u32], image: &[u8]) -> Answer {
        let Some((r, members)) = judged(image) else {
            return declined(9);
        };
        let width = record_size(r);
        let Some(words) = words.get_mut(..HEADER + members * width) else {
            return declined(10);
        };
        let (header, records) = words.split_at_mut(HEADER);
        header.copy_from_slice(&[r as u32, members as u32, 0]);
        let fields = image[FIRST..].chunks_exact(field_size(r));
        for (record, field) in records.chunks_exact_mut(width).zip(fields) {
            record[0] = number4(field, 3);
            record[1] = number4(field, 7);
            record[2] = u32::from(field[11]);
            for (word, bytes) in record[3..].iter_mut().zip(field[12..].chunks_exact(4)) {
                *word = u32::from_be_bytes(bytes.try_into().unwrap());
            }
        }
        reply([members as u32])
    }
}
