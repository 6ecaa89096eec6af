//! The two steps of a member, and rounds of them, over the decoded table.

use super::*;

/// What a stabilize step replies.
pub enum Step {
    Again,
    Look(u32),
    Done(u32),
}

impl Table {
    /// One accepted stabilize step of the member at a place.
    pub fn step(&mut self, place: usize) -> Step {
        let mut member = self.members[place].clone();
        let n = member.identifier;
        let h = member.first_entry();
        let reply;
        if member.pending {
            if let Some(candidate) = self.member(member.candidate) {
                member.adopt(candidate);
            }
            member.pending = false;
            member.candidate = 0;
            reply = Step::Done(member.first_entry());
        } else if let Some(head) = self.member(h) {
            member.adopt(head);
            let c = head.predecessor;
            if between(n, c, h) {
                member.pending = true;
                member.candidate = c;
                reply = Step::Look(c);
            } else {
                reply = Step::Done(h);
            }
        } else {
            member.drop_head();
            reply = Step::Again;
        }
        member.count_step();
        self.members[place] = member;
        reply
    }

    /// The member at a place takes a notice from q: "if between(predecessor, q, n), or
    /// the predecessor is no member, it becomes q". Says whether that wrote q.
    pub fn notice(&mut self, place: usize, q: u32) -> bool {
        let member = &self.members[place];
        let predecessor = member.predecessor;
        let writes = between(predecessor, q, member.identifier) || !self.is_live(predecessor);
        if writes {
            self.members[place].predecessor = q;
        }
        writes
    }

    /// "takes stabilize steps until "done" and delivers that notice"; "A notice to a
    /// non-member is lost." The table is sound, so r + 1 steps are enough.
    fn steps_until_done(&mut self, place: usize) {
        for _ in 0..=self.r {
            if let Step::Done(h) = self.step(place) {
                let n = self.members[place].identifier;
                if let Some(told) = self.place(h) {
                    self.notice(told, n);
                }
                return;
            }
        }
        panic!("more than r + 1 steps of a member of a sound table");
    }

    /// "In a round each member, by rising identifier, first finishes a pending step and
    /// delivers its notice, then takes stabilize steps until "done" and delivers that
    /// notice." A step that finishes a pending one is always done.
    pub fn run_round(&mut self) {
        for place in 0..self.members.len() {
            if self.members[place].pending {
                self.steps_until_done(place);
            }
            self.steps_until_done(place);
        }
    }

    pub fn is_at_two(&self) -> bool {
        self.is_ideal() && self.is_sound()
    }

    /// What the searches of all members pass over, on a table that is sound.
    pub fn passed_by_all(&self) -> u32 {
        self.members.iter().map(|m| self.search(m).expect("a live entry").1).sum()
    }

    /// The verdict of a table that is sound.
    pub fn one_or_two(&self) -> u32 {
        assert!(self.is_sound(), "a round leaves a table that is not sound");
        1 + self.is_at_two() as u32
    }
}

/// "One single round may also be called and replies the verdict after it. Refused: 14,
/// the table is not sound, after 1."
pub fn round(table: &mut [u32]) -> Answer {
    let Some(mut t) = Table::decode(table) else {
        return decline(1);
    };
    if !t.is_sound() {
        return decline(14);
    }
    t.run_round();
    t.put(table);
    accept(&[t.one_or_two()])
}

/// "Settle runs rounds until the verdict is 2 or a given limit is reached, and reports
/// the rounds run and the verdict. The verdict is looked at before each round, so an
/// ideal table gets none." "Settle's report gains the sum over all members of the table
/// as it began."
pub fn settle(table: &mut [u32], limit: u32) -> Answer {
    let Some(mut t) = Table::decode(table) else {
        return decline(1);
    };
    if !t.is_sound() {
        return decline(14);
    }
    let passed = t.passed_by_all();
    let enough = 2 * t.members.len() * t.members.len() + t.r + 1;
    let mut rounds = 0;
    while !t.is_at_two() && rounds < limit {
        assert!((rounds as usize) < enough, "not ideal within 2 * s * s + r + 1 rounds");
        t.run_round();
        rounds += 1;
    }
    t.put(table);
    accept(&[rounds, t.one_or_two(), passed])
}

#[cfg(test)]
pub(super) mod settled {
    use super::*;

    /// Line 7 of document 01's session: the second entry of 10 is still 30.
    pub fn session() -> [u32; 38] {
        let mut table = [0; 38];
        new(&mut table, 2, &[10, 20, 30, 40]);
        join(&mut table, 25, 20);
        stabilize(&mut table, 25);
        rectify(&mut table, 30, 25);
        stabilize(&mut table, 20);
        stabilize(&mut table, 20);
        table
    }

    /// The step counts of a table of r = 2.
    fn counts(table: &[u32]) -> Vec<u32> {
        table[3..].chunks_exact(7).take(table[1] as usize).map(|record| record[6]).collect()
    }

    #[test]
    fn limits() {
        let start = session();
        for (limit, told) in [(0, [0, 1]), (1, [1, 2]), (2, [1, 2]), (u32::MAX, [1, 2])] {
            let mut table = start;
            assert_eq!(settle(&mut table, limit), accept(&[told[0], told[1], 0]));
            assert_eq!(table == start, limit == 0);
            assert_eq!(settle(&mut table, 0), accept(&[0, told[1], 0]));
        }
        // One step a member, each counted by its own, and a count stops.
        assert_eq!(counts(&start), [0, 2, 1, 0, 0]);
        let mut table = start;
        assert_eq!(round(&mut table), accept(&[2]));
        assert_eq!(counts(&table), [1, 3, 2, 1, 1]);
        (table[9], table[16]) = (u32::MAX - 1, u32::MAX);
        assert_eq!(round(&mut table), accept(&[2]));
        assert_eq!(counts(&table), [u32::MAX, u32::MAX, 3, 2, 2]);
        assert_eq!(table[..3], [2, 5, 0]);
    }

    #[test]
    fn pending_steps() {
        // 10 awaits a candidate that was lost, and stands behind a dead first entry: its
        // notice is lost, then it clears the entry.
        let mut table = [0; 31];
        new(&mut table, 2, &[10, 20, 30, 40]);
        (table[5], table[6]) = (1, 15);
        (table[9], table[16], table[23], table[30]) = (100, 200, 300, 400);
        assert_eq!(settle(&mut table, 9), accept(&[0, 2, 0]));
        assert_eq!(table[5], 1);
        fail(&mut table, 20);
        assert_eq!(counts(&table), [100, 300, 400]);
        assert_eq!(table[24..], [0; 7]);
        assert_eq!(round(&mut table), accept(&[2]));
        // 10: done, again, look at 20, done; 30: done; 40: done.
        assert_eq!(table[3..10], [10, 40, 0, 0, 30, 40, 104]);
        assert_eq!(table[10..17], [30, 10, 0, 0, 40, 10, 301]);
        // The highest takes the list of the lowest, which had its turn before.
        assert_eq!(table[17..24], [40, 30, 0, 0, 10, 30, 401]);
        assert_eq!(settle(&mut table, 9), accept(&[0, 2, 0]));
    }

    #[test]
    fn as_it_began() {
        // 20 passes one entry over, 50 two, as they are before the first round.
        let mut start = [0; 75];
        new(&mut start, 3, &[10, 20, 30, 40, 50, 60, 70, 80, 90]);
        for gone in [30, 60, 70] {
            fail(&mut start, gone);
        }
        for (limit, told) in [(0, [0, 1]), (1, [1, 1]), (2, [2, 1]), (9, [3, 2])] {
            let mut table = start;
            assert_eq!(settle(&mut table, limit), accept(&[told[0], told[1], 3]));
            let again = if limit == 0 { 3 } else { 0 };
            assert_eq!(settle(&mut table, 0), accept(&[0, told[1], again]));
        }
    }

    #[test]
    fn refusals() {
        let mut table = session();
        assert_eq!(round(&mut table[..37]), decline(1));
        assert_eq!(settle(&mut table[..37], 0), decline(1));
        assert_eq!(table, session());
        for steps in [1, u32::MAX] {
            let mut counted = session();
            counted[2] = steps;
            let before = counted;
            assert_eq!(round(&mut counted), decline(1));
            assert_eq!(settle(&mut counted, 0), decline(1));
            assert_eq!(counted, before);
        }
        table[1] = 2;
        let few = table;
        assert_eq!(round(&mut table), decline(14));
        assert_eq!(settle(&mut table, 0), decline(14));
        assert_eq!(table, few);
    }

    #[test]
    fn as_many_as_members_but_one() {
        // The others have joined by the highest of r + 1 members.
        for r in 1..=8 {
            let mut table = vec![0; 3 + 20 * (r as usize + 5)];
            let ids: Vec<u32> = (0..=r).collect();
            new(&mut table, r, &ids);
            for j in r + 1..20 {
                assert_eq!(join(&mut table, j, r).number, 0);
            }
            assert_eq!(audit(&table).values[..2], [20, r + 1]);
            assert_eq!(settle(&mut table, u32::MAX), accept(&[19, 2, 0]));
        }
    }
}
