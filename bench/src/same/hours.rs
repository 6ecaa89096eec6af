//! Service hours: windows of the week, whether a minute is open, the next open one, and settle at the open minutes of a list.
//! Windows are few: each look goes over all of them, in vector registers, which an early end would not allow.

use super::settle::Shape;
use super::*;

const WEEK: u32 = 10080;
const WINDOWS_MOST: usize = 16;

/// Start and end.
type Window = [u32; 2];

/// The windows in the words, if they are no more than may be, each between two different minutes of the week.
#[inline(always)]
fn windows_in(words: &[u32]) -> Option<&[Window]> {
    let (windows, []) = words.as_chunks() else {
        return None;
    };
    let right = windows.iter().fold(true, |right, &[start, end]| {
        right & (start != end) & (start < WEEK) & (end < WEEK)
    });
    (windows.len() <= WINDOWS_MOST && right).then_some(windows)
}

/// Does the window hold the minute of the week? By distances from its start, which go round.
#[inline(always)]
fn holds([start, end]: Window, minute: u32) -> bool {
    minute.wrapping_sub(start) < end.wrapping_sub(start)
}

/// Does one of the windows hold it?
#[inline(always)]
fn open(windows: &[Window], minute: u32) -> bool {
    let or = |open, &window| open | holds(window, minute);
    windows.iter().fold(false, or)
}

/// How many minutes there are from this one to the first that the window holds, going round.
#[inline(always)]
fn wait(window: Window, minute: u32) -> u32 {
    let [start, _] = window;
    if holds(window, minute) {
        0
    } else if minute <= start {
        start - minute
    } else {
        start + WEEK - minute
    }
}

#[inline(never)]
pub fn is_open(windows: &[u32], minute: u32) -> Answer {
    match windows_in(windows) {
        Some(windows) if minute < WEEK => reply([u32::from(open(windows, minute))]),
        _ => declined(15),
    }
}

#[inline(never)]
pub fn next_open(windows: &[u32], minute: u32) -> Answer {
    let windows = match windows_in(windows) {
        Some(windows) if minute < WEEK => windows,
        _ => return declined(15),
    };
    let sooner = |least: u32, &window| least.min(wait(window, minute));
    match windows.iter().fold(WEEK, sooner) {
        WEEK => reply([0]),
        least => reply([1, (minute + least) % WEEK]),
    }
}

#[inline(never)]
pub fn settle_at(words: &mut [u32], windows: &[u32], minutes: &[u32]) -> Answer {
    let Some(t) = Table::open(words) else {
        return declined(1);
    };
    let Some(windows) = windows_in(windows) else {
        return declined(15);
    };
    // Where they rise, only the last can be the largest number.
    if !minutes.windows(2).all(|pair| pair[0] < pair[1]) || minutes.last() == Some(&u32::MAX) {
        return declined(16);
    }
    let Some((shape, passed)) = Shape::if_sound(&t) else {
        return declined(14);
    };
    // As many as there may be; those from 0 to 0 hold nothing.
    let mut all = [[0; 2]; WINDOWS_MOST];
    all[..windows.len()].copy_from_slice(windows);
    let mut rounds = 0;
    let mut ideal = shape.is_ideal(words);
    for &minute in minutes {
        if ideal {
            break;
        }
        if open(&all, minute % WEEK) {
            shape.round(words);
            rounds += 1;
            ideal = shape.is_ideal(words);
        }
    }
    reply([rounds, 1 + u32::from(ideal), passed])
}
