//! The calls over the decoded table.

use super::steps::Step;
use super::*;

pub fn new(table: &mut [u32], r: u32, ids: &[u32]) -> Answer {
    let rising = ids.windows(2).all(|pair| pair[0] < pair[1]);
    if !(1..=8).contains(&r) || !rising || ids.len() < r as usize + 1 || ids.len() > MOST {
        return decline(11);
    }
    let (r, n) = (r as usize, ids.len());
    let members = (0..n)
        .map(|i| {
            let list = (1..=r).map(|ahead| ids[(i + ahead) % n]).collect();
            Member::starting(ids[i], ids[(i + n - 1) % n], list)
        })
        .collect();
    let made = Table { r, members };
    if table.len() < made.length() {
        return decline(10);
    }
    made.put(table);
    accept(&[made.count()])
}

pub fn join(table: &mut [u32], j: u32, p: u32) -> Answer {
    let Some(mut t) = Table::decode(table) else {
        return decline(1);
    };
    if t.is_live(j) {
        return decline(2);
    }
    let Some(by) = t.member(p).cloned() else {
        return decline(3);
    };
    if !between(p, j, by.first_entry()) {
        return decline(4);
    }
    // "A join is now declined if p's first entry is no member."
    if !t.is_live(by.first_entry()) {
        return decline(13);
    }
    if t.members.len() == MOST || table.len() - t.length() < t.width() {
        return decline(5);
    }
    let place = t.members.iter().filter(|m| m.identifier < j).count();
    t.members.insert(place, Member::starting(j, p, by.list));
    t.put(table);
    accept(&[t.count()])
}

pub fn stabilize(table: &mut [u32], n: u32) -> Answer {
    let Some(mut t) = Table::decode(table) else {
        return decline(1);
    };
    let Some(place) = t.place(n) else {
        return decline(3);
    };
    let reply = match t.step(place) {
        Step::Again => accept(&[0]),
        Step::Look(c) => accept(&[1, c]),
        Step::Done(h) => accept(&[2, h]),
    };
    t.put(table);
    reply
}

pub fn rectify(table: &mut [u32], n: u32, q: u32) -> Answer {
    let Some(mut t) = Table::decode(table) else {
        return decline(1);
    };
    let Some(place) = t.place(n) else {
        return decline(3);
    };
    let written = t.notice(place, q);
    t.put(table);
    accept(&[written as u32])
}

/// Takes out the record at a place and zeroes the words it frees.
fn put_without(table: &mut [u32], mut t: Table, place: usize) -> Answer {
    t.members.remove(place);
    t.put(table);
    table[t.length()..t.length() + t.width()].fill(0);
    accept(&[t.count()])
}

pub fn fail(table: &mut [u32], n: u32) -> Answer {
    let Some(t) = Table::decode(table) else {
        return decline(1);
    };
    let Some(place) = t.place(n) else {
        return decline(3);
    };
    put_without(table, t, place)
}

pub fn leave(table: &mut [u32], n: u32) -> Answer {
    let Some(t) = Table::decode(table) else {
        return decline(1);
    };
    let Some(place) = t.place(n) else {
        return decline(3);
    };
    let mut afterwards = t.clone();
    afterwards.members.remove(place);
    if !afterwards.all_have_a_live_entry() {
        return decline(6);
    }
    if afterwards.principal_count() < t.r + 1 {
        return decline(7);
    }
    put_without(table, t, place)
}

/// "Find adds these up over the members it stood at and replies the sum as one more
/// number."
pub fn lookup(table: &[u32], n: u32, k: u32) -> Answer {
    let Some(t) = Table::decode(table) else {
        return decline(1);
    };
    let Some(mut at) = t.member(n) else {
        return decline(3);
    };
    let mut moves = 0;
    let mut passed = 0;
    loop {
        let q = at.identifier;
        let Some((b, over)) = t.search(at) else {
            return answer(8, &[q]);
        };
        passed += over;
        if k == b || between(q, k, b) {
            return accept(&[b, q, moves, passed]);
        }
        at = t.member(b).expect("a live entry names a member");
        moves += 1;
        assert!(moves < t.count(), "moves made are fewer than the members");
    }
}

/// "It starts at the number of keys at or below the member before it; the
/// lowest member's second run starts at 0, and its first ends at the list's
/// length. Every run but that one ends at the number of keys at or below its
/// member."
pub fn held(table: &[u32], n: u32, keys: &[u32]) -> Runs {
    let Some(t) = Table::decode(table) else {
        return runs(1, &[]);
    };
    let Some(place) = t.place(n) else {
        return runs(3, &[]);
    };
    if !keys.windows(2).all(|pair| pair[0] < pair[1]) {
        return runs(12, &[]);
    }
    let at_or_below = |m: &Member| keys.iter().filter(|&&key| key <= m.identifier).count();
    let own = at_or_below(&t.members[place]);
    if place > 0 {
        runs(0, &[(at_or_below(&t.members[place - 1]), own)])
    } else {
        let last = &t.members[t.members.len() - 1];
        runs(0, &[(at_or_below(last), keys.len()), (0, own)])
    }
}

/// All pairs in order, one after the other, up to the first that skips n; that
/// one counts too. Where none does, members times r are taken.
pub fn principal(table: &[u32], n: u32) -> Answer {
    let Some(t) = Table::decode(table) else {
        return decline(1);
    };
    if !t.is_live(n) {
        return decline(3);
    }
    let mut taken = 0;
    for (a, b) in t.pairs() {
        taken += 1;
        if between(a, n, b) {
            return accept(&[0, taken]);
        }
    }
    accept(&[1, t.count() * t.r as u32])
}

/// The identifiers of the members, if the table is well-formed.
pub fn members(table: &[u32]) -> Option<Vec<u32>> {
    Table::decode(table).map(|t| t.members.iter().map(|m| m.identifier).collect())
}

/// "A key is held by the first member at or above it; keys above the last
/// member belong to the lowest." There is a member.
pub fn holder(members: &[u32], key: u32) -> u32 {
    members.iter().copied().find(|&id| id >= key).unwrap_or(members[0])
}

/// Is the verdict 1 or 2?
pub fn is_sound(table: &[u32]) -> bool {
    Table::decode(table).is_some_and(|t| t.is_sound())
}

/// Is the verdict 2?
pub fn is_sound_and_ideal(table: &[u32]) -> bool {
    Table::decode(table).is_some_and(|t| t.is_ideal() && t.is_sound())
}

pub fn audit(table: &[u32]) -> Answer {
    match Table::decode(table) {
        None => decline(1),
        Some(t) => t.audit(),
    }
}

pub fn findings(table: &[u32], findings: &mut [Finding]) -> Answer {
    let Some(t) = Table::decode(table) else {
        return decline(1);
    };
    if findings.len() < t.members.len() {
        return decline(10);
    }
    let principals = t.principals();
    let moves = t.moves_to_ring();
    for (i, m) in t.members.iter().enumerate() {
        findings[i] =
            Finding { id: m.identifier, principal: principals[i] as u32, moves: moves[i] };
    }
    t.audit()
}

/// "Alike now means equal in r, members, predecessors, pending, candidates and whole lists;
/// step counts don't matter."
pub fn alike(a: &[u32], b: &[u32]) -> Answer {
    let (Some(a), Some(b)) = (Table::decode(a), Table::decode(b)) else {
        return decline(1);
    };
    let same = |a: &Member, b: &Member| {
        a.identifier == b.identifier
            && a.predecessor == b.predecessor
            && a.pending == b.pending
            && a.candidate == b.candidate
            && a.list == b.list
    };
    let members = a.members.len() == b.members.len()
        && a.members.iter().zip(&b.members).all(|(a, b)| same(a, b));
    accept(&[(a.r == b.r && members) as u32])
}

pub fn take_over(own: u32, h: u32, c: u32, h_list: &[u32], c_list: &[u32]) -> Answer {
    let from_c = !c_list.is_empty() && between(own, c, h);
    let list = if from_c { c_list } else { h_list };
    let part = match list.split_last() {
        None => list,
        Some((_, part)) => part,
    };
    accept(&[from_c as u32, part.len() as u32, (part.len() >> 32) as u32])
}

#[cfg(test)]
mod joins {
    use super::*;

    /// The answer to a join, and whether the table stayed as it was.
    fn tried(table: &[u32], j: u32, p: u32) -> (Answer, bool) {
        let mut after = table.to_vec();
        let given = join(&mut after, j, p);
        (given, after == table)
    }

    #[test]
    fn behind_a_dead_neighbour() {
        let mut table = [9; 38];
        new(&mut table, 2, &[10, 20, 30, 40, 50]);
        fail(&mut table, 20);
        let declined = |number| (decline(number), true);
        assert_eq!(tried(&table, 15, 10), declined(13));
        assert_eq!(tried(&table, 15, 40), declined(4));
        // 2, 3 and 4 come first: 25 is past the dead 20.
        assert_eq!(tried(&table, 30, 10), declined(2));
        assert_eq!(tried(&table, 15, 20), declined(3));
        assert_eq!(tried(&table, 25, 10), declined(4));
        // 5 comes after it: one word fewer than a record takes.
        assert_eq!(tried(&table[..37], 15, 10), declined(13));
        assert_eq!(tried(&table[..37], 35, 30), declined(5));
        assert_eq!(tried(&table[..30], 15, 10), declined(1));
        // Only 10 stands before the dead one.
        assert_eq!(tried(&table, 35, 30), (accept(&[5]), false));
        // One step clears it.
        assert_eq!(stabilize(&mut table, 10), accept(&[0]));
        assert_eq!(join(&mut table, 15, 10), accept(&[5]));
        assert_eq!(table[3..10], [10, 50, 0, 0, 30, 31, 1]);
        assert_eq!(table[10..17], [15, 10, 0, 0, 30, 31, 0]);
        // The new member clears no dead entry: it looks at the lost 20, and is done.
        assert_eq!(stabilize(&mut table, 15), accept(&[1, 20]));
        assert_eq!(stabilize(&mut table, 15), accept(&[2, 30]));
    }

    #[test]
    fn joined_again() {
        let mut table = [9; 31];
        new(&mut table, 2, &[10, 20, 30]);
        assert_eq!([table[9], table[16], table[23]], [0; 3]);
        (table[9], table[16], table[23]) = (5, u32::MAX, 7);
        // Those above move with their counts, the new one starts at 0, each time.
        let joined = [25, 20, 0, 0, 30, 10, 0];
        for _ in 0..2 {
            assert_eq!(join(&mut table, 25, 20), accept(&[4]));
            assert_eq!(table[..3], [2, 4, 0]);
            assert_eq!(table[17..24], joined);
            assert_eq!([table[9], table[16], table[30]], [5, u32::MAX, 7]);
            assert_eq!(stabilize(&mut table, 25), accept(&[2, 30]));
            assert_eq!(table[23], 1);
            assert_eq!(fail(&mut table, 25), accept(&[3]));
            assert_eq!([table[9], table[16], table[23]], [5, u32::MAX, 7]);
            assert_eq!(table[24..], [0; 7]);
        }
    }

    #[test]
    fn full_table() {
        let ids: Vec<u32> = (0..256).map(|i| 4 * i).collect();
        let mut table = vec![0; 3 + 257 * 13];
        new(&mut table, 8, &ids);
        assert_eq!(tried(&table, 1, 0), (decline(5), true));
        table[7] = 2;
        assert_eq!(tried(&table, 1, 0), (decline(13), true));
        assert_eq!(tried(&table, 3, 0), (decline(4), true));
        assert_eq!(tried(&table, 5, 4), (decline(5), true));
        // The last member's first entry is the lowest, round the end.
        assert_eq!(tried(&table, 1021, 1020), (decline(5), true));
        table[3 + 255 * 13 + 4] = u32::MAX;
        assert_eq!(tried(&table, 1021, 1020), (decline(13), true));
    }
}

#[cfg(test)]
mod finds {
    use super::*;

    #[test]
    fn entries_passed() {
        let mut table = [0; 75];
        new(&mut table, 3, &[10, 20, 30, 40, 50, 60, 70, 80, 90]);
        assert_eq!(lookup(&table, 10, 10), accept(&[10, 90, 8, 0]));
        for gone in [30, 60, 70] {
            fail(&mut table, gone);
        }
        // 20 passes 30 over, 50 two; 10's and 40's dead entries stand after live ones.
        assert_eq!(lookup(&table, 20, 25), accept(&[40, 20, 0, 1]));
        assert_eq!(lookup(&table, 20, 30), accept(&[40, 20, 0, 1]));
        assert_eq!(lookup(&table, 10, 15), accept(&[20, 10, 0, 0]));
        assert_eq!(lookup(&table, 10, 40), accept(&[40, 20, 1, 1]));
        assert_eq!(lookup(&table, 10, 45), accept(&[50, 40, 2, 1]));
        assert_eq!(lookup(&table, 10, 55), accept(&[80, 50, 3, 3]));
        assert_eq!(lookup(&table, 10, 10), accept(&[10, 90, 5, 3]));
        assert_eq!(lookup(&table, 80, 25), accept(&[40, 20, 3, 1]));
        // 50 has no live entry left: 8 tells it alone.
        fail(&mut table, 80);
        assert_eq!(lookup(&table, 20, 55), answer(8, &[50]));
        assert_eq!(lookup(&table, 20, 45), accept(&[50, 40, 1, 1]));
        // One dead entry twice in a list is passed over twice; a count is no entry.
        let mut lone = [3, 1, 0, 7, 7, 0, 0, 5, 5, 7, 7];
        assert_eq!(lookup(&lone, 7, 5), accept(&[7, 7, 0, 2]));
        lone[9] = 5;
        assert_eq!(lookup(&lone, 7, 5), answer(8, &[7]));
    }
}

#[cfg(test)]
mod verdicts {
    use super::*;

    #[test]
    fn whole_lists() {
        let mut table = crate::reference::steps::settled::session();
        assert_eq!(audit(&table), accept(&[5, 4, 5, 1]));
        assert_eq!(stabilize(&mut table, 10), accept(&[2, 20]));
        assert_eq!(audit(&table), accept(&[5, 5, 5, 2]));
        // The highest member's last entry, round the end, dead or another member.
        for entry in [15, 25] {
            let mut late = table;
            late[36] = entry;
            assert_eq!(audit(&late).values[3], 1);
        }
        // r or fewer members repeat, and are never sound.
        assert!(Table::decode(&[3, 1, 0, 7, 7, 0, 0, 7, 7, 7, 1]).unwrap().is_ideal());
        let two = [3, 2, 0, 5, 7, 0, 0, 7, 5, 7, 1, 7, 5, 0, 0, 5, 7, 5, 9];
        assert!(Table::decode(&two).unwrap().is_ideal());
        assert_eq!(audit(&two), accept(&[2, 2, 2, 0]));
        assert!(Table::decode(&[3, 0, 0]).unwrap().is_ideal());
        assert_eq!(audit(&[3, 0, 0]), accept(&[0, 0, 0, 0]));
    }

    #[test]
    fn withdrawals() {
        let ids = [10, 20, 30, 40, 50, 60];
        let mut table = [0; 51];
        new(&mut table, 2, &ids);
        assert_eq!(leave(&mut table, 20), accept(&[5]));
        assert_eq!(leave(&mut table, 30), decline(6));
        // r - 1 neighbours, round the end.
        new(&mut table, 3, &ids);
        assert_eq!(leave(&mut table, 60), accept(&[5]));
        assert_eq!(leave(&mut table, 10), accept(&[4]));
        assert_eq!(leave(&mut table, 20), decline(6));
        assert_eq!(leave(&mut table, 30), decline(7));
    }
}

#[cfg(test)]
mod pairs {
    use super::*;

    /// Two tables that no list of calls tells apart, by their candidates: there is no room for
    /// a shelf that joins.
    #[test]
    fn no_room() {
        let of = |candidate: u32| [1, 2, 0, 0, 1, 0, 0, 1, 7, 1, 0, 1, candidate, 0, 9];
        let (mut a, mut b) = (of(2), of(3));
        assert_eq!(alike(&a, &b), accept(&[0]));
        assert_eq!(join(&mut a, 2, 1), decline(5));
        for t in [&mut a, &mut b] {
            assert_eq!(stabilize(t, 1), accept(&[2, 0]));
        }
        assert_eq!(alike(&a, &b), accept(&[1]));
    }

    /// Two more: there is room, but 13 declines who would join before the dead first entry.
    #[test]
    fn room() {
        let of = |candidate: u32| {
            let mut words = vec![2, 3, 0, 0, 5, 1, candidate, 3, 4, 7, 4, 0, 0, 0, 5, 0, 8];
            words.extend([5, 4, 0, 0, 0, 4, 9, 1, 2, 3, 4, 5, 6, 7]);
            words
        };
        let (mut a, mut b) = (of(1), of(2));
        assert_eq!(alike(&a, &b), accept(&[0]));
        for j in [1, 2] {
            assert_eq!([0, 4, 5].map(|p| join(&mut a, j, p)), [13, 4, 4].map(decline));
        }
        for t in [&mut a, &mut b] {
            assert_eq!(stabilize(t, 0), accept(&[2, 3]));
        }
        assert_eq!(alike(&a, &b), accept(&[1]));
    }

    /// Step counts, words after the last record and lengths do not matter, all else does.
    #[test]
    fn each_word() {
        let words = [1, 2, 0, 0, 1, 0, 0, 1, 7, 1, 0, 1, 2, 0, 9, 5, 6];
        assert_eq!(alike(&words, &words[..15]), accept(&[1]));
        for i in 0..words.len() {
            let mut other = words;
            // The higher identifier goes up, all else changes in its lowest bit.
            other[i] = if i == 9 { 3 } else { words[i] ^ 1 };
            let due = match i {
                8 | 14.. => accept(&[1]),
                // r = 0, three members, a header that counts, two equal identifiers, a candidate
                // without pending, twice.
                0..=3 | 6 | 11 => decline(1),
                _ => accept(&[0]),
            };
            assert_eq!(alike(&words, &other), due, "word {i}");
            assert_eq!(alike(&other, &words), due, "word {i}");
        }
    }
}
