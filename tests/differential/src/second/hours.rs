//! The windows of a week, each as the minutes ahead of its start, and what is open by them.

use super::plant::fault;
use super::*;

pub(super) const WEEK: u32 = 10_080;

/// The minutes from one minute of the week up to another, going round.
fn ahead(from: u32, to: u32) -> u32 {
    (to % WEEK + WEEK - from % WEEK) % WEEK
}

/// What a window holds: its first minute, and how many from there on.
fn stretch(window: &[u32]) -> (u32, u32) {
    let (start, end) = (window[0] % WEEK, window[1] % WEEK);
    let count = ahead(start, end);
    let over = end < start;
    match fault() {
        Fault::WindowEnd => (start, count + 1),
        Fault::WindowStart if count > 0 => (start + 1, count - 1),
        Fault::WindowOverNone if over => (start, 0),
        Fault::WindowOverInside if over => (end, start - end),
        Fault::WindowOverFirst if over => (start, WEEK - start),
        Fault::WindowOverSecond if over => (0, end),
        Fault::FifteenEqualWhole if count == 0 => (start, WEEK),
        _ => (start, count),
    }
}

/// The stretches of all windows that are looked at.
fn stretches(windows: &[u32]) -> Vec<(u32, u32)> {
    let windows = match fault() {
        Fault::FifteenPast if windows.len() % 2 == 1 => one_more(windows),
        _ => windows,
    };
    let mut all: Vec<(u32, u32)> = windows.chunks_exact(2).map(stretch).collect();
    match fault() {
        Fault::WindowFirst => all.truncate(1),
        Fault::WindowNotLast => all.truncate(all.len().saturating_sub(1)),
        Fault::WindowSixteenth => all.truncate(15),
        _ => {}
    }
    all
}

/// The open minutes of the week, marked one stretch after the other.
pub(super) fn marks(windows: &[u32]) -> Vec<bool> {
    let mut marks = vec![false; WEEK as usize];
    for (start, count) in stretches(windows) {
        let (from, to) = ((start % WEEK) as usize, (start % WEEK + count) as usize);
        // Up to the week's end, and round it.
        for part in [from..to.min(marks.len()), 0..to.saturating_sub(marks.len())] {
            let part = &mut marks[part];
            match planted(Fault::WindowTwice) {
                true => part.iter_mut().for_each(|mark| *mark = !*mark),
                false => part.fill(true),
            }
        }
    }
    marks
}

fn is_held(windows: &[u32], minute: u32) -> bool {
    let held = |&&(start, count): &&(u32, u32)| ahead(start, minute) < count;
    match stretches(windows).iter().filter(held).count() {
        0 => false,
        1 => true,
        count => !planted(Fault::WindowTwice) || count % 2 == 1,
    }
}

/// Is this window left unjudged by the planted fault? `last` is the last one's place.
fn is_unjudged(place: usize, last: usize) -> bool {
    (planted(Fault::FifteenFirst) && place == 0) || (planted(Fault::FifteenLast) && place == last)
}

/// Is a window as it must be?
fn is_window(window: &[u32]) -> bool {
    let seen = |word: u32| match fault() {
        Fault::FifteenLow => word & 0xffff,
        Fault::FifteenRemainder => word % WEEK,
        _ => word,
    };
    let [start, end] = [seen(window[0]), seen(window[1])];
    let most = |fault: Fault| WEEK - 1 + planted(fault) as u32;
    let differ =
        start != end || planted(Fault::FifteenEqualWhole) || planted(Fault::FifteenEqualNone);
    start <= most(Fault::FifteenStart)
        && end <= most(Fault::FifteenEnd)
        && differ
        && !(planted(Fault::FifteenOver) && end < start)
}

/// Do two windows hold one minute?
fn overlap(a: (u32, u32), b: (u32, u32)) -> bool {
    ahead(a.0, b.0) < a.1 || ahead(b.0, a.0) < b.1
}

/// Windows that are as they must be, and that a planted fault declines.
fn is_declined(windows: &[u32]) -> bool {
    let all: Vec<(u32, u32)> = windows.chunks_exact(2).map(stretch).collect();
    let pairs = || (0..all.len()).flat_map(|i| (0..i).map(move |k| (i, k)));
    (planted(Fault::FifteenNone) && all.is_empty())
        || (planted(Fault::FifteenMost) && all.len() == 16)
        || (planted(Fault::FifteenOverlap) && pairs().any(|(i, k)| overlap(all[i], all[k])))
        || (planted(Fault::FifteenOrder) && all.windows(2).any(|pair| pair[0].0 >= pair[1].0))
}

/// Are there as many windows as there may be, and each as it must be?
pub(super) fn are_windows(windows: &[u32]) -> bool {
    let odd = windows.len() % 2 == 1;
    let most = if planted(Fault::FifteenMore) { 34 } else { 32 };
    let taken = match odd {
        true if planted(Fault::FifteenPast) => one_more(windows),
        true if !planted(Fault::FifteenOdd) => return false,
        _ => windows,
    };
    let last = (taken.len() / 2).saturating_sub(1);
    let mut each = taken.chunks_exact(2).enumerate();
    windows.len() <= most
        && each.all(|(place, window)| is_unjudged(place, last) || is_window(window))
        && !is_declined(windows)
}

fn fifteen(minute: u32) -> Answer {
    let mut said = no(15);
    if planted(Fault::FifteenValue) {
        (said.values[0], said.count) = (minute, 1);
    }
    said
}

/// The minute that is asked for, or what the call is given without a look at the windows.
fn asked(windows: &[u32], minute: u32) -> Result<u32, Answer> {
    if !are_windows(windows) {
        return Err(fifteen(minute));
    }
    match minute {
        0..WEEK => Ok(minute),
        _ if planted(Fault::AskedRemainder) => Ok(minute % WEEK),
        WEEK if planted(Fault::AskedWeek) => Ok(0),
        _ if planted(Fault::AskedClosed) => Err(yes([0])),
        _ => Err(fifteen(minute)),
    }
}

pub fn is_open(windows: &[u32], minute: u32) -> Answer {
    if planted(Fault::FifteenUpTo) && minute < WEEK && windows.len() % 2 == 0 {
        let mut seen = windows.chunks_exact(2).take_while(|window| is_window(window));
        if seen.any(|window| is_held(window, minute)) {
            return yes([1]);
        }
    }
    match asked(windows, minute) {
        Ok(minute) => yes([(is_held(windows, minute) != planted(Fault::OpenNot)) as u32]),
        Err(said) => said,
    }
}

/// The first marked minute of these.
fn first(windows: &[u32], mut minutes: impl Iterator<Item = u32>) -> Option<u32> {
    let marks = marks(windows);
    minutes.find(|minute| marks[(minute % WEEK) as usize]).map(|minute| minute % WEEK)
}

/// The next open minute as a planted fault takes it.
fn mistaken(windows: &[u32], minute: u32) -> Option<Option<u32>> {
    let starts = || stretches(windows).into_iter().map(|stretch| stretch.0);
    let next_start = || starts().min_by_key(|&start| ahead(minute, start));
    Some(match fault() {
        Fault::NextLowest => first(windows, 0..WEEK),
        Fault::NextDown => first(windows, (minute + 1..=minute + WEEK).rev()),
        Fault::NextNoTurn => first(windows, minute..WEEK),
        Fault::NextAfter => first(windows, minute + 1..=minute + WEEK),
        Fault::WindowTwice => first(windows, minute..minute + WEEK),
        Fault::NextFirst => starts().next(),
        Fault::NextStart => next_start(),
        _ => return None,
    })
}

/// The windows that hold the minute are 0 minutes ahead, any other as far as its start is.
fn next(windows: &[u32], minute: u32) -> Option<u32> {
    if let Some(next) = mistaken(windows, minute) {
        return next;
    }
    let far = |(start, count): (u32, u32)| match ahead(start, minute) < count {
        true => 0,
        false => ahead(minute, start),
    };
    let some = stretches(windows).into_iter().filter(|&(_, count)| count > 0);
    some.map(far).min().map(|far| match planted(Fault::NextAhead) {
        true => far,
        false => (minute + far) % WEEK,
    })
}

pub fn next_open(windows: &[u32], minute: u32) -> Answer {
    let minute = match asked(windows, minute) {
        Ok(minute) => minute,
        Err(said) => return said,
    };
    match next(windows, minute) {
        Some(next) => {
            let mut said = yes([1, next]);
            said.count -= planted(Fault::NextUncounted) as u32;
            said
        }
        None if planted(Fault::NextNone) => yes([1, 0]),
        None if planted(Fault::NextNoneAsked) => yes([0, minute]),
        None => yes([0]),
    }
}
