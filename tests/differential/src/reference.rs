//! The ring table, written from the papers' sentences: a table is decoded into
//! members, the step is done on them, and the result is encoded back.
//! A refusal changes no buffer, and only the words a call writes change.

mod calls;
mod hours;
mod image;
mod steps;

pub use calls::*;
pub use hours::{is_open, next_open, settle_at};
pub use image::{image_field, image_read, image_write};
pub use steps::{round, settle};

/// `number` is 0 or the number that declines; `count` values are there, unused ones are 0.
#[repr(C)]
#[derive(Clone, Copy, PartialEq, Eq, Debug)]
pub struct Answer {
    pub number: u32,
    pub values: [u32; 4],
    pub count: u32,
}

/// One record of the audit's list.
#[repr(C)]
#[derive(Clone, Copy, PartialEq, Eq, Debug)]
pub struct Finding {
    pub id: u32,
    pub principal: u32,
    pub moves: u32,
}

/// What held answers: `number` as above; `runs` runs of positions are there, unused ones are 0.
#[repr(C)]
#[derive(Clone, Copy, PartialEq, Eq, Debug)]
pub struct Runs {
    pub number: u32,
    pub runs: u32,
    pub start: [usize; 2],
    pub end: [usize; 2],
}

/// An answer with its list of values.
fn answer(number: u32, list: &[u32]) -> Answer {
    let mut values = [0; 4];
    values[..list.len()].copy_from_slice(list);
    Answer { number, values, count: list.len() as u32 }
}

fn accept(values: &[u32]) -> Answer {
    answer(0, values)
}

fn decline(number: u32) -> Answer {
    answer(number, &[])
}

/// An answer with its list of runs.
fn runs(number: u32, list: &[(usize, usize)]) -> Runs {
    let (mut start, mut end) = ([0; 2], [0; 2]);
    for (i, &run) in list.iter().enumerate() {
        (start[i], end[i]) = run;
    }
    Runs { number, runs: list.len() as u32, start, end }
}

/// "if a < b then a < n and n < b; else a < n or n < b"
pub fn between(a: u32, n: u32, b: u32) -> bool {
    if a < b {
        a < n && n < b
    } else {
        a < n || n < b
    }
}

/// "The identifier after n is n + 1, and the one after 4294967295 is 0."
fn after(n: u32) -> u32 {
    if n == u32::MAX {
        0
    } else {
        n + 1
    }
}

const HEADER: usize = 3;
const MOST: usize = 256;

#[derive(Clone, PartialEq)]
struct Member {
    identifier: u32,
    predecessor: u32,
    pending: bool,
    candidate: u32,
    list: Vec<u32>,
    steps: u32,
}

impl Member {
    /// A shelf that becomes a member: nothing pending, and its own step count "0 on joining
    /// and by new".
    fn starting(identifier: u32, predecessor: u32, list: Vec<u32>) -> Member {
        Member { identifier, predecessor, pending: false, candidate: 0, list, steps: 0 }
    }

    fn extended_list(&self) -> Vec<u32> {
        let mut all = vec![self.identifier];
        all.extend_from_slice(&self.list);
        all
    }

    fn first_entry(&self) -> u32 {
        self.list[0]
    }

    /// "the list becomes h, then h's list without its last entry"
    fn adopt(&mut self, other: &Member) {
        let mut list = vec![other.identifier];
        list.extend_from_slice(&other.list[..other.list.len() - 1]);
        self.list = list;
    }

    /// "drop h, append the identifier after the last entry (with r = 1, after h)"
    fn drop_head(&mut self) {
        let last = self.list[self.list.len() - 1];
        self.list.remove(0);
        self.list.push(after(last));
    }

    /// "Each accepted stabilize step adds 1 to its own member's count, which stops at
    /// 4294967295."
    fn count_step(&mut self) {
        if self.steps < u32::MAX {
            self.steps += 1;
        }
    }
}

#[derive(Clone, PartialEq)]
struct Table {
    r: usize,
    members: Vec<Member>,
}

impl Table {
    /// The table in the slice; nothing if it is not well-formed or longer than
    /// its slice.
    fn decode(words: &[u32]) -> Option<Table> {
        if words.len() < HEADER {
            return None;
        }
        let (r, count, steps) = (words[0], words[1], words[2]);
        // "The header's step count becomes 0 always. A header with another number there is
        // not well-formed."
        if !(1..=8).contains(&r) || count > MOST as u32 || steps != 0 {
            return None;
        }
        let (r, count) = (r as usize, count as usize);
        let records = &words[HEADER..];
        if records.len() < count * (r + 5) {
            return None;
        }
        let mut members = Vec::new();
        for record in records.chunks_exact(r + 5).take(count) {
            if record[2] > 1 {
                return None;
            }
            members.push(Member {
                identifier: record[0],
                predecessor: record[1],
                pending: record[2] == 1,
                candidate: record[3],
                list: record[4..4 + r].to_vec(),
                steps: record[4 + r],
            });
        }
        let table = Table { r, members };
        if table.is_well_formed() {
            Some(table)
        } else {
            None
        }
    }

    /// What remains to be asked of decoded records.
    fn is_well_formed(&self) -> bool {
        (1..=8).contains(&self.r)
            && self.members.len() <= MOST
            && self.members.iter().all(|m| m.list.len() == self.r)
            && self.members.iter().all(|m| m.pending || m.candidate == 0)
            && self.members.windows(2).all(|pair| pair[0].identifier < pair[1].identifier)
    }

    fn encode(&self) -> Vec<u32> {
        let mut words = vec![self.r as u32, self.members.len() as u32, 0];
        for m in &self.members {
            words.push(m.identifier);
            words.push(m.predecessor);
            words.push(m.pending as u32);
            words.push(m.candidate);
            words.extend_from_slice(&m.list);
            words.push(m.steps);
        }
        words
    }

    /// "Record width is r + 5"
    fn width(&self) -> usize {
        self.r + 5
    }

    fn length(&self) -> usize {
        HEADER + self.members.len() * self.width()
    }

    fn count(&self) -> u32 {
        self.members.len() as u32
    }

    fn place(&self, identifier: u32) -> Option<usize> {
        self.members.binary_search_by_key(&identifier, |m| m.identifier).ok()
    }

    fn member(&self, identifier: u32) -> Option<&Member> {
        self.place(identifier).map(|i| &self.members[i])
    }

    /// "An entry is live if it is a member's identifier."
    fn is_live(&self, entry: u32) -> bool {
        self.place(entry).is_some()
    }

    /// "The search for a first live entry now tells how many entries it passed over."
    fn search(&self, member: &Member) -> Option<(u32, u32)> {
        for (passed, &entry) in (0..).zip(&member.list) {
            if self.is_live(entry) {
                return Some((entry, passed));
            }
        }
        None
    }

    /// "a move going to the first live entry"
    fn first_live(&self, member: &Member) -> Option<u32> {
        self.search(member).map(|(entry, _)| entry)
    }

    /// "no two neighbouring entries (a, b) in any member's extended list have
    /// between(a, member, b)", for each member.
    fn principals(&self) -> Vec<bool> {
        let lists: Vec<Vec<u32>> = self.members.iter().map(Member::extended_list).collect();
        self.members
            .iter()
            .map(|m| {
                !lists
                    .iter()
                    .any(|list| list.windows(2).any(|pair| between(pair[0], m.identifier, pair[1])))
            })
            .collect()
    }

    /// The pairs of neighbours of all extended lists, record by record, each list
    /// from its front.
    fn pairs(&self) -> Vec<(u32, u32)> {
        let mut pairs = Vec::new();
        for m in &self.members {
            pairs.extend(m.extended_list().windows(2).map(|pair| (pair[0], pair[1])));
        }
        pairs
    }

    fn principal_count(&self) -> usize {
        self.principals().iter().filter(|&&p| p).count()
    }

    fn all_have_a_live_entry(&self) -> bool {
        self.members.iter().all(|m| self.first_live(m).is_some())
    }

    fn is_sound(&self) -> bool {
        self.all_have_a_live_entry()
            && self.principal_count() >= self.r + 1
            && self
                .members
                .iter()
                .all(|m| !m.pending || between(m.identifier, m.candidate, m.first_entry()))
    }

    /// "each first entry is the next member up, each predecessor the next
    /// down, round the end", and "also needs each list to be the next r members
    /// in order"; of r or fewer members they repeat, the member itself included.
    fn is_ideal(&self) -> bool {
        let n = self.members.len();
        let next = |i: usize, k: usize| self.members[(i + k) % n].identifier;
        (0..n).all(|i| {
            let member = &self.members[i];
            let list: Vec<u32> = (1..=self.r).map(|k| next(i, k)).collect();
            member.first_entry() == next(i, 1)
                && member.predecessor == next(i, n - 1)
                && member.list == list
        })
    }

    /// The move from each member, by place.
    fn all_moves(&self) -> Vec<Option<usize>> {
        self.members.iter().map(|m| self.first_live(m).and_then(|b| self.place(b))).collect()
    }

    /// "the set of members that come back to themselves by one or more moves"
    fn ring(&self) -> Vec<bool> {
        let moves = self.all_moves();
        (0..moves.len())
            .map(|start| {
                let mut at = moves[start];
                for _ in 0..moves.len() {
                    match at {
                        None => return false,
                        Some(place) if place == start => return true,
                        Some(place) => at = moves[place],
                    }
                }
                false
            })
            .collect()
    }

    /// "moves to the ring (0 on it; the member count if the walk never comes
    /// there)", for each member.
    fn moves_to_ring(&self) -> Vec<u32> {
        let moves = self.all_moves();
        let ring = self.ring();
        (0..moves.len())
            .map(|start| {
                let mut at = start;
                for made in 0..moves.len() {
                    if ring[at] {
                        return made as u32;
                    }
                    match moves[at] {
                        None => return self.count(),
                        Some(next) => at = next,
                    }
                }
                self.count()
            })
            .collect()
    }

    fn audit(&self) -> Answer {
        let ring = self.ring().iter().filter(|&&on| on).count();
        let verdict = match (self.is_sound(), self.is_ideal()) {
            (false, _) => 0,
            (true, false) => 1,
            (true, true) => 2,
        };
        accept(&[self.count(), self.principal_count() as u32, ring as u32, verdict])
    }

    /// Writes the table to the front of the slice; the other words stay.
    fn put(&self, words: &mut [u32]) {
        let own = self.encode();
        words[..own.len()].copy_from_slice(&own);
    }
}

#[cfg(test)]
mod settled {
    use super::*;

    #[test]
    fn examples() {
        assert!(between(20, 25, 30)); // (a)
        assert!(between(40, 5, 10)); // (b)
        assert!(!between(10, 10, 10)); // (c)
        assert!(between(10, 11, 10)); // (d)
        assert!(!between(10, 20, 20)); // (e)

        // (f), (g): the list after a dead head is dropped.
        let mut table = [2, 1, 0, 5, 5, 0, 0, 100, u32::MAX, 6];
        assert_eq!(stabilize(&mut table, 5), accept(&[0]));
        assert_eq!(table, [2, 1, 0, 5, 5, 0, 0, u32::MAX, 0, 7]);
        let mut table = [1, 1, 0, 5, 5, 0, 0, 7, 0];
        assert_eq!(stabilize(&mut table, 5), accept(&[0]));
        assert_eq!(table, [1, 1, 0, 5, 5, 0, 0, 8, 1]);

        // (h), (i), (j)
        let mut table = [0; 24];
        assert_eq!(new(&mut table, 2, &[10, 20, 30]), accept(&[3]));
        assert_eq!(audit(&table), accept(&[3, 3, 3, 2]));
        assert_eq!(leave(&mut table, 10), decline(7));
        assert_eq!(new(&mut table, 2, &[10, 20]), decline(11));
    }

    #[test]
    fn own_counts() {
        // Any word may stand as a member's count, 0 alone in the header.
        for count in [1, 77, u32::MAX] {
            assert_eq!(members(&[1, 1, 0, 5, 5, 0, 0, 5, count]), Some(vec![5]));
            assert_eq!(members(&[1, 1, count, 5, 5, 0, 0, 5, 0]), None);
            assert_eq!(members(&[1, 0, count]), None);
        }
        // Two records of the layout before this one, read as 5 and 7.
        let older = [1, 2, 0, 5, 9, 0, 0, 9, 9, 7, 0, 0, 0, 3, 4];
        assert_eq!(members(&older), Some(vec![5, 7]));
        assert_eq!(members(&older[..14]), None);
    }

    #[test]
    fn held_keys() {
        let mut table = [0; 31];
        new(&mut table, 2, &[10, 20, 30, 40]);
        let keys = [0, 10, 11, 20, 35, 40, 41, u32::MAX];
        assert_eq!(held(&table, 10, &keys), runs(0, &[(6, 8), (0, 2)]));
        assert_eq!(held(&table, 20, &keys), runs(0, &[(2, 4)]));
        assert_eq!(held(&table, 30, &keys), runs(0, &[(4, 4)]));
        assert_eq!(held(&table, 40, &keys), runs(0, &[(4, 6)]));
        assert_eq!(held(&table, 15, &[1, 1]), runs(3, &[]));
        assert_eq!(held(&table, 20, &[1, 1]), runs(12, &[]));
        assert_eq!(held(&table[..30], 20, &keys), runs(1, &[]));
    }

    #[test]
    fn pairs_taken() {
        let mut table = [0; 38];
        new(&mut table, 2, &[10, 20, 30, 40]);
        assert_eq!(principal(&table, 10), accept(&[1, 8]));
        assert_eq!(principal(&table, 25), decline(3));
        // The second pair of 10's list skips 25, and no pair another member.
        join(&mut table, 25, 20);
        assert_eq!(principal(&table, 25), accept(&[0, 2]));
        assert_eq!(principal(&table, 20), accept(&[1, 10]));
        assert_eq!(principal(&table[..37], 50), decline(1));
        // Each pair skips another member, the last one 10; a count is no entry.
        let mut two = vec![1, 4, 0];
        for (id, entry, steps) in [(10, 30, 25), (20, 40, 15), (30, 10, 45), (40, 20, 5)] {
            two.extend([id, entry, 0, 0, entry, steps]);
        }
        for (n, taken) in [(20, 1), (30, 2), (40, 3), (10, 4)] {
            assert_eq!(principal(&two, n), accept(&[0, taken]));
        }
    }
}
