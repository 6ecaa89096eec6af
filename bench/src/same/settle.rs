//! A round, and settle. The table is judged once; then each turn is taken in place, on a table known to be well-formed and
//! sound, and after a round only the ideal is looked at. hours.rs has settle with windows.

use super::*;

/// What a table is like, whatever its records are.
#[derive(Clone, Copy)]
pub(super) struct Shape {
    r: usize,
    members: usize,
    width: usize,
}

impl Shape {
    /// The shape of the table in the words, and how many entries the searches of its members pass over; or the number that
    /// declines a round.
    fn of_sound(words: &[u32]) -> Result<(Shape, u32), u32> {
        Shape::if_sound(&Table::open(words).ok_or(1u32)?).ok_or(14)
    }

    /// The same of a well-formed table, if it is sound.
    #[inline(always)]
    pub(super) fn if_sound(t: &Table) -> Option<(Shape, u32)> {
        let (best, passed) = t.best_places();
        let shape = Shape {
            r: t.r,
            members: t.members,
            width: t.width,
        };
        t.is_sound(&best[..t.members], t.count_principals())
            .then_some((shape, passed))
    }

    #[inline(always)]
    fn table(self, words: &[u32]) -> Table<'_> {
        Table {
            r: self.r,
            members: self.members,
            width: self.width,
            records: &words[HEADER..HEADER + self.members * self.width],
        }
    }

    pub(super) fn is_ideal(self, words: &[u32]) -> bool {
        self.table(words).is_ideal()
    }

    /// Steps up to the first done, after the one that finishes a pending step; each notice at once.
    #[inline(always)]
    fn turn(self, words: &mut [u32], k: usize) {
        let at = HEADER + k * self.width;
        let mut due = 1 + words[at + 2];
        while due > 0 {
            let (member, said) = stepped(&self.table(words), k);
            member.count_step().write(&mut words[at..at + self.width]);
            let [2, h, ..] = said.values else {
                continue;
            };
            due -= 1;
            let t = self.table(words);
            if let Some(to) = t.place(h) {
                if takes(&t, to, member.id) {
                    words[HEADER + to * self.width + 1] = member.id;
                }
            }
        }
    }

    pub(super) fn round(self, words: &mut [u32]) {
        for k in 0..self.members {
            self.turn(words, k);
        }
    }
}

#[inline(never)]
pub fn round(words: &mut [u32]) -> Answer {
    let shape = match Shape::of_sound(words) {
        Ok((shape, _)) => shape,
        Err(number) => return declined(number),
    };
    shape.round(words);
    reply([1 + u32::from(shape.is_ideal(words))])
}

#[inline(never)]
pub fn settle(words: &mut [u32], limit: u32) -> Answer {
    let (shape, passed) = match Shape::of_sound(words) {
        Ok(sound) => sound,
        Err(number) => return declined(number),
    };
    let mut rounds = 0;
    let mut ideal = shape.is_ideal(words);
    while rounds < limit && !ideal {
        shape.round(words);
        rounds += 1;
        ideal = shape.is_ideal(words);
    }
    reply([rounds, 1 + u32::from(ideal), passed])
}
