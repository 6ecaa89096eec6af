//! Settle with windows: the open minutes of the week are marked, the listed ones that are open
//! counted, and no more rounds run than that.

use super::hours::{are_windows, marks, WEEK};
use super::plant::fault;
use super::settle::{declined, refusal, run_round, settled, verdict_of, ROUNDS};
use super::*;
use std::collections::BTreeSet;

/// The place of a listed minute among the marks of the week.
fn place(minute: u32) -> usize {
    let place = match fault() {
        Fault::HoursDay => minute % 1440,
        Fault::HoursShort => minute % (WEEK - 1),
        Fault::HoursLong => minute % (WEEK + 1),
        Fault::HoursNoWeek => minute,
        Fault::HoursNarrow => (minute & 0xffff) % WEEK,
        Fault::HoursSigned => (minute as i32).rem_euclid(WEEK as i32) as u32,
        _ => minute % WEEK,
    };
    place as usize
}

/// Do minutes rise, and is the last one not too large?
fn rise(minutes: &[u32]) -> bool {
    let asked = if planted(Fault::SixteenPast) { one_more(minutes) } else { minutes };
    let from = 1 + planted(Fault::SixteenFirstPair) as usize;
    let to = asked.len() - (planted(Fault::SixteenLastPair) && asked.len() > 1) as usize;
    let rising = (from..to).all(|i| {
        asked[i - 1] < asked[i] || (asked[i - 1] == asked[i] && planted(Fault::SixteenEqual))
    });
    let largest = minutes.iter().copied().max().unwrap_or(0);
    let most = match planted(Fault::SixteenLast) {
        true => u32::MAX - 2,
        false => u32::MAX - 1,
    };
    rising
        && (largest <= most || planted(Fault::SixteenLargest))
        && !(planted(Fault::SixteenNone) && minutes.is_empty())
        && !(planted(Fault::SixteenOver) && largest >= WEEK)
}

/// How many minutes from the front on are listed as they must be.
fn rising(minutes: &[u32]) -> usize {
    (0..minutes.len())
        .take_while(|&i| minutes[i] < u32::MAX && (i == 0 || minutes[i - 1] < minutes[i]))
        .count()
}

/// Which listed minutes are open.
fn open(windows: &[u32], minutes: &[u32]) -> Vec<bool> {
    let marks = marks(windows);
    minutes.iter().map(|&m| marks.get(place(m)).copied().unwrap_or(false)).collect()
}

/// How many rounds may be run.
fn due(open: &[bool], minutes: &[u32]) -> usize {
    let count = |open: &[bool]| open.iter().filter(|&&open| open).count();
    let some = count(open);
    let closed = open.len() - some;
    match fault() {
        Fault::HoursNot => closed,
        Fault::HoursEvery => open.len(),
        Fault::HoursClosed => some + closed.min(1),
        Fault::HoursMore => some + 1,
        Fault::HoursBreaks => open.iter().take_while(|&&open| open).count(),
        Fault::HoursNotFirst => count(open.get(1..).unwrap_or(&[])),
        Fault::HoursNotLast => count(&open[..open.len().saturating_sub(1)]),
        Fault::HoursStretch => {
            let after = |i: usize| minutes[i - 1].wrapping_add(1) == minutes[i];
            let next = |i: usize| i > 0 && open[i - 1] && after(i);
            (0..open.len()).filter(|&i| open[i] && !next(i)).count()
        }
        Fault::HoursAgain => {
            let places = minutes.iter().zip(open).filter(|listed| *listed.1);
            places.map(|(&minute, _)| place(minute)).collect::<BTreeSet<_>>().len()
        }
        _ => some,
    }
}

/// Runs rounds, as many at most: how many were run.
fn run(table: &mut [u32], most: usize) -> u32 {
    let most = most.min(ROUNDS as usize) as u32;
    let mut rounds = 0;
    while rounds < most && (!settled(table) || (planted(Fault::HoursAfter) && rounds == 0)) {
        run_round(table);
        rounds += 1;
    }
    if planted(Fault::HoursLate) && rounds > 0 && rounds < most {
        run_round(table);
        rounds += 1;
    }
    rounds
}

/// Would it stop before the first minute that is not listed as it must be?
fn stops_before(table: &[u32], most: usize) -> bool {
    let mut table = table.to_vec();
    run(&mut table, most);
    settled(&table)
}

/// The number that declines a call, 0 if none does. `own` is what the table alone gives.
/// `open` tells which of the minutes are.
fn cause(table: &[u32], windows: &[u32], minutes: &[u32], open: &[bool], own: u32) -> u32 {
    let ideal = || own == 0 && settled(table);
    let fifteen = !are_windows(windows)
        && !(planted(Fault::FifteenUnlisted) && minutes.is_empty())
        && !(planted(Fault::FifteenIdeal) && ideal());
    let listed = planted(Fault::FifteenListed) && minutes.iter().any(|&minute| minute >= WEEK);
    let front = || rising(minutes);
    let opened = || minutes.iter().zip(open).filter(|listed| *listed.1).map(|listed| *listed.0);
    let sixteen = !rise(minutes)
        && !(planted(Fault::SixteenWindows) && windows.is_empty())
        && !(planted(Fault::SixteenClosed) && rise(&opened().collect::<Vec<_>>()))
        && !(planted(Fault::SixteenUpTo)
            && own == 0
            && stops_before(table, due(&open[..front()], &minutes[..front()])));
    let causes = [(1, own == 1), (15, fifteen || listed), (16, sixteen), (14, own == 14)];
    let order = match fault() {
        Fault::FourteenFifteen => [1, 14, 15, 16],
        Fault::FourteenSixteen => [1, 15, 14, 16],
        Fault::SixteenFifteen => [1, 16, 15, 14],
        Fault::FifteenOne => [15, 1, 16, 14],
        Fault::SixteenOne => [16, 1, 15, 14],
        _ => [1, 15, 16, 14],
    };
    let applies = |number: &u32| causes.contains(&(*number, true));
    order.into_iter().find(applies).unwrap_or(0)
}

/// What is reported as the rounds run.
fn told(rounds: u32, open: &[bool]) -> u32 {
    // The minutes up to the last round's, all of them where the list has ended.
    let ran = open.iter().scan(0, |seen, &open| {
        *seen += open as u32;
        Some(*seen)
    });
    let looked = ran.take_while(|&seen| seen <= rounds).count() as u32;
    match fault() {
        Fault::HoursListed => open.len() as u32,
        Fault::HoursClosedCounted => looked,
        _ => rounds,
    }
}

pub fn settle_at(table: &mut [u32], windows: &[u32], minutes: &[u32]) -> Answer {
    let open = open(windows, minutes);
    let most = due(&open, minutes);
    let own = declined(table, most as u32, Fault::HeaderSettleAt);
    let number = cause(table, windows, minutes, &open, own);
    if number != 0 {
        let writes = (number == 15 && planted(Fault::FifteenWrites))
            || (number == 16 && planted(Fault::SixteenWrites));
        if own == 0 && writes {
            run(table, most.max(1));
        }
        return refusal(number);
    }
    let began = table.to_vec();
    let rounds = run(table, most);
    let ended: &[u32] = table;
    let judged = if planted(Fault::HoursVerdict) { &began } else { ended };
    let verdict = verdict_of(judged);
    let sum = match planted(Fault::HoursPassedEnd) {
        true => passed::by_all(ended),
        false if planted(Fault::HoursPassedUnrun) && rounds == 0 => 0,
        false => passed::by_all(&began),
    };
    let rounds = told(rounds, &open);
    if planted(Fault::HoursSwapped) {
        return yes([verdict, rounds, sum]);
    }
    let mut said = yes([rounds, verdict, sum]);
    said.count -= planted(Fault::HoursUncounted) as u32;
    said
}
