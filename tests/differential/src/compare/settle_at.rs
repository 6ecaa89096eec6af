//! Settle with windows: one call on both sides, and what a run must meet of it, read off the
//! words and the lists.

use super::shapes::Shapes;
use super::{Compare, Outcome, Piece, Result};
use crate::layout::{records, COUNT, PENDING, R, WEEK};
use crate::reference::{self, Answer};
use std::collections::BTreeSet;

/// What declined calls must meet; what is alone is all that declines the call.
const DECLINED: [&str; 24] = [
    "1 alone",
    "1 where 15 applies too",
    "1 where 16 applies too",
    "1 where 15 and 16 apply too",
    "15 alone",
    "15 where 16 applies too",
    "15 where 14 applies too",
    "15 where 16 and 14 apply too",
    "15 on an ideal table",
    "15, no minute listed",
    "16 alone",
    "16 where 14 applies too",
    "16 on an ideal table",
    "16, equal neighbours alone",
    "16, falling neighbours alone",
    "16, the first pair of several alone",
    "16, the last pair of several alone",
    "16, 4294967295 alone",
    "16, 4294967295 the only minute",
    "16, no window",
    "16, closed minutes alone",
    "16, after enough open minutes for verdict 2",
    "14 alone",
    "14, no minute listed",
];

/// What accepted calls must meet, by the listed minutes that are open and closed.
const ACCEPTED: [&str; 38] = [
    "no minute listed, verdict 1",
    "no minute listed, verdict 2",
    "minutes listed, no window",
    "closed minutes alone, verdict 1",
    "closed minutes alone, verdict 2",
    "open minutes alone",
    "the first one closed, rounds run",
    "the first one open, a closed one, rounds after it",
    "an ideal table, open minutes",
    "an ideal table with a pending step, open minutes",
    "rounds at all open minutes, verdict 1",
    "rounds at all open minutes, verdict 2",
    "rounds at all open minutes, verdict 2, closed ones after them",
    "stops before an open minute",
    "stops before several open minutes",
    "members - principals + r open minutes",
    "members - principals + r open minutes, a round at each",
    "one open minute fewer than needed, verdict 1",
    "members - principals + r open minutes but one, verdict 1",
    "members - 1 rounds",
    "rounds on both sides of a week's end",
    "a round before a week's end, the next minute closed",
    "a round after a week's end, the minute before closed",
    "a round in the first week",
    "a round at 10080",
    "rounds in several weeks",
    "two rounds at one minute of the week",
    "rounds at minutes next to each other",
    "a round at a minute of 2147483648 or more",
    "a round at 4294967294",
    "4294967294 closed",
    "16 windows, rounds run",
    "more than 1000 minutes",
    "more than 65536 minutes",
    "256 members, rounds run",
    "255 rounds",
    "entries passed over, no round",
    "entries passed over, rounds run",
];

/// Of tables with more members than this is not asked what they lack or need.
const MANY: u32 = 40;

/// The calls so far.
pub struct SettlesAt {
    declined: Shapes<{ DECLINED.len() }>,
    accepted: Shapes<{ ACCEPTED.len() }>,
}

/// Which of the minutes are open.
fn open(windows: &[u32], minutes: &[u32]) -> Vec<bool> {
    let is_open = |&minute: &u32| reference::is_open(windows, minute % WEEK).values[0] == 1;
    minutes.iter().map(is_open).collect()
}

fn count(open: &[bool]) -> u32 {
    open.iter().filter(|&&open| open).count() as u32
}

impl SettlesAt {
    pub fn new() -> SettlesAt {
        SettlesAt { declined: Shapes::new(DECLINED), accepted: Shapes::new(ACCEPTED) }
    }

    pub fn never_met(&self) -> Option<&'static str> {
        self.declined.never_met().or(self.accepted.never_met())
    }

    pub fn told(&self) -> String {
        format!("{}; declined: {}", self.accepted.told(), self.declined.told())
    }

    fn count_declined(&mut self, table: &[u32], windows: &[u32], minutes: &[u32], number: u32) {
        let fifteen = reference::is_open(windows, 0).number == 15;
        let pairs: Vec<_> = minutes.windows(2).map(|pair| pair[0].cmp(&pair[1])).collect();
        let [equal, falling] =
            [0, 1].map(|is| pairs.iter().filter(|&&pair| pair as i32 == is).count());
        let largest = minutes.contains(&u32::MAX);
        let sixteen = equal + falling > 0 || largest;
        let [one, by_15, by_16, by_14] = [1, 15, 16, 14].map(|known| number == known);
        let asked = !one && table[COUNT] <= MANY;
        let sound = asked && !by_14 && reference::is_sound(table);
        let unsound = asked && !sound;
        let ideal = sound && reference::is_sound_and_ideal(table);
        let first = pairs.iter().position(|pair| pair.is_ge());
        let only = by_16 && sound && equal + falling == 1 && !largest && pairs.len() > 1;
        // The minutes before the first pair that does not rise would be enough.
        let enough = only
            && first.is_some_and(|at| {
                let limit = count(&open(windows, &minutes[..=at]));
                reference::settle(&mut table.to_vec(), limit).values[1] == 2
            });
        let shut = || count(&open(windows, minutes)) == 0;
        self.declined.count([
            one && !fifteen && !sixteen,
            one && fifteen && !sixteen,
            one && !fifteen && sixteen,
            one && fifteen && sixteen,
            by_15 && !sixteen && sound,
            by_15 && sixteen && sound,
            by_15 && !sixteen && unsound,
            by_15 && sixteen && unsound,
            by_15 && !sixteen && ideal,
            by_15 && minutes.is_empty() && sound,
            by_16 && sound,
            by_16 && unsound,
            by_16 && ideal,
            by_16 && sound && equal > 0 && falling == 0 && !largest,
            by_16 && sound && equal == 0 && falling > 0 && !largest,
            only && first == Some(0),
            only && first == Some(pairs.len() - 1),
            by_16 && sound && equal + falling == 0 && minutes.len() > 1,
            by_16 && sound && minutes == [u32::MAX],
            by_16 && sound && windows.is_empty(),
            by_16 && sound && !windows.is_empty() && shut(),
            enough && !ideal,
            by_14,
            by_14 && minutes.is_empty(),
        ]);
    }

    fn count_accepted(
        &mut self,
        before: &[u32],
        windows: &[u32],
        minutes: &[u32],
        answer: &Answer,
    ) {
        let [ran, verdict, passed, _] = answer.values;
        let open = open(windows, minutes);
        let some = count(&open);
        let (none, alone) = (some == 0, some as usize == open.len());
        let ideal = ran == 0 && verdict == 2;
        let pending = ideal && records(before).any(|m| m[PENDING] == 1);
        let full = before[COUNT] == 256;
        let asked = ran > 0 && before[COUNT] <= MANY;
        let enough = match asked {
            true => before[COUNT] - reference::audit(before).values[1] + before[R],
            false => 0,
        };
        let more = || reference::settle(&mut before.to_vec(), ran + 1).values[1] == 2;
        let fewer = asked && ran == some && verdict == 1 && more();
        // The minutes at which rounds were run.
        let at = |i: &usize| open[*i];
        let rounds: Vec<usize> = (0..open.len()).filter(at).take(ran as usize).collect();
        let run: Vec<u32> = rounds.iter().map(|&i| minutes[i]).collect();
        let last = rounds.last().map_or(0, |&i| i + 1);
        let weeks: BTreeSet<u32> = run.iter().map(|minute| minute / WEEK).collect();
        let of_week: BTreeSet<u32> = run.iter().map(|minute| minute % WEEK).collect();
        let next = |is: &dyn Fn(u32) -> bool, states: [bool; 2]| {
            let pair = |i: usize| {
                let (a, b) = (minutes[i], minutes[i + 1]);
                a + 1 == b && is(b) && [open[i], open[i + 1]] == states && i < last
            };
            (0..open.len().saturating_sub(1)).any(pair)
        };
        let border = |minute: u32| minute % WEEK == 0;
        self.accepted.count([
            open.is_empty() && verdict == 1,
            open.is_empty() && verdict == 2,
            !open.is_empty() && windows.is_empty(),
            none && !open.is_empty() && !windows.is_empty() && verdict == 1,
            none && !open.is_empty() && !windows.is_empty() && verdict == 2,
            alone && ran > 0,
            ran > 0 && !open[0],
            ran > 1 && open[0] && open[..last].contains(&false),
            ideal && !none,
            pending && !none,
            ran > 0 && ran == some && verdict == 1,
            ran > 0 && ran == some && verdict == 2,
            ran > 0 && ran == some && verdict == 2 && last < open.len(),
            ran > 0 && ran + 1 == some,
            ran > 0 && ran + 1 < some,
            asked && some == enough,
            asked && some == enough && ran == enough,
            fewer,
            fewer && some + 1 == enough,
            ran > 0 && verdict == 2 && ran == before[COUNT] - 1,
            run.windows(2).any(|pair| pair[0] + 1 == pair[1] && border(pair[1])),
            next(&border, [true, false]),
            next(&border, [false, true]),
            run.first().is_some_and(|&minute| minute < WEEK),
            run.contains(&WEEK),
            weeks.len() > 2,
            of_week.len() < run.len(),
            run.windows(2).any(|pair| pair[0] + 1 == pair[1]),
            run.last().is_some_and(|&minute| minute >= 1 << 31),
            run.last() == Some(&(u32::MAX - 1)),
            minutes.last() == Some(&(u32::MAX - 1)) && !open[open.len() - 1],
            ran > 0 && windows.len() == 32,
            open.len() > 1000,
            open.len() > 1 << 16,
            full && ran > 0,
            ran == 255,
            ran == 0 && passed > 0,
            ran > 0 && passed > 0,
        ]);
    }
}

impl Compare {
    /// Both lists stand in one slice, each with what stands after it. The numbers tell how many
    /// words the windows have, where the minutes begin, and how many they are.
    pub fn settle_at(
        &mut self,
        table: &Piece<u32>,
        windows: &Piece<u32>,
        minutes: &Piece<u32>,
    ) -> Result<Outcome<u32, u32>> {
        let (words, from, listed) = (windows.len, windows.all.len(), minutes.len);
        let both = Piece::whole([&windows.all[..], &minutes.all[..]].concat());
        let arguments = [words, from, listed].map(|number| number as u64);
        let outcome = self.on_table("settle_at", &arguments, table, &both, |c, t, both| {
            (c.settle_at)(t, &both[..words], &both[from..][..listed])
        })?;
        let (before, windows, minutes) = (table.slice(), windows.slice(), minutes.slice());
        match outcome.answer.number {
            0 => self.settles_at.count_accepted(before, windows, minutes, &outcome.answer),
            number => self.settles_at.count_declined(before, windows, minutes, number),
        }
        Ok(outcome)
    }
}
