//! The members' own step counts, the header's that is 0 always, and the faults in both.

use super::*;
use std::cell::RefCell;

/// Where the step count of the member at a place stands: last in its record.
pub(super) fn at(t: &[u32], i: usize) -> usize {
    offset(t, i + 1) - 1
}

/// Does a call stop short of a member whose count is at the largest word? By this fault alone.
pub(super) fn is_stopped(t: &[u32], i: usize, fault: Fault) -> bool {
    planted(fault) && t[at(t, i)] == u32::MAX
}

/// The counts by place.
pub(super) fn all(t: &[u32]) -> Vec<u32> {
    (0..size(t)).map(|i| t[at(t, i)]).collect()
}

/// Writes counts by place, from one place on.
pub(super) fn put(t: &mut [u32], from: usize, counts: &[u32]) {
    for (i, &count) in (from..size(t)).zip(counts) {
        let own = at(t, i);
        t[own] = count;
    }
}

/// One more than a count, which stops at the largest word.
fn more(count: u32) -> u32 {
    if planted(Fault::StepWraps) {
        count.wrapping_add(1)
    } else if planted(Fault::CountSoon) {
        count.max(count.saturating_add(1).min(u32::MAX - 1))
    } else if planted(Fault::CountNarrow) {
        count.wrapping_add(1) & 0xffff
    } else if planted(Fault::CountSigned) {
        count.max(count.saturating_add(1).min(i32::MAX as u32))
    } else {
        count.saturating_add(1)
    }
}

/// Raises the count of the member at a place.
pub(super) fn raise(t: &mut [u32], i: usize) {
    let own = at(t, i);
    t[own] = more(t[own]);
}

/// An accepted step of the member at place i is counted. `said` is what it replies.
pub(super) fn step(t: &mut [u32], i: usize, said: [u32; 4]) {
    let n = size(t);
    let uncounted = planted(Fault::StepNotCounted)
        || (planted(Fault::AgainNotCounted) && said[0] == 0)
        || (planted(Fault::LookNotCounted) && said[0] == 1);
    if uncounted {
        return;
    }
    if planted(Fault::CountHeader) || planted(Fault::CountBoth) {
        t[2] = t[2].saturating_add(1);
    }
    if planted(Fault::CountHeader) {
        return;
    }
    if planted(Fault::CountAll) {
        (0..n).for_each(|k| raise(t, k));
        return;
    }
    let by = if planted(Fault::CountNextUp) {
        (i + 1) % n
    } else if planted(Fault::CountNextDown) {
        (i + n - 1) % n
    } else if planted(Fault::CountLowest) {
        0
    } else if planted(Fault::CountNamed) && said[0] > 0 {
        find(t, said[1]).unwrap_or(i)
    } else {
        i
    };
    raise(t, by);
}

/// A list was taken over from the member at one place by that at another.
pub(super) fn taken(t: &mut [u32], from: usize, to: usize, last: u32) {
    let own = at(t, to);
    if planted(Fault::CountTaken) {
        t[own] = t[at(t, from)];
    }
    if planted(Fault::CountShifted) {
        t[own] = last;
    }
}

thread_local! {
    /// What the last loss left, who was lost, and its count; kept by a planted fault alone.
    static LOST: RefCell<(Vec<u32>, u32, u32)> = const { RefCell::new((Vec::new(), 0, 0)) };
}

/// The member n of this count was lost, and this is left.
pub(super) fn lost(t: &[u32], n: u32, count: u32) {
    if planted(Fault::JoinAgain) {
        LOST.with(|lost| lost.replace((t.to_vec(), n, count)));
    }
}

/// The count that j starts at, which joins by the member at a place. `left` is what stands in
/// its words.
pub(super) fn of_joiner(before: &[u32], j: u32, by: usize, left: u32) -> u32 {
    if planted(Fault::JoinCountTaken) {
        before[at(before, by)]
    } else if planted(Fault::JoinCountLeft) {
        left
    } else if planted(Fault::JoinCountOne) {
        1
    } else if planted(Fault::JoinAgain) {
        LOST.with(|lost| match &*lost.borrow() {
            (table, n, count) if *n == j && table == before => *count,
            _ => 0,
        })
    } else {
        0
    }
}

/// The records from a place on have moved up, after one has joined there. `before` are the
/// counts by place.
pub(super) fn moved_up(t: &mut [u32], place: usize, before: &[u32]) {
    if planted(Fault::MovedUp) {
        put(t, place + 1, &before[(place + 1).min(before.len())..]);
    }
    if planted(Fault::MovedUpLost) {
        put(t, place + 1, &vec![0; size(t)]);
    }
}

/// The records above a place have moved down to it.
pub(super) fn moved_down(t: &mut [u32], place: usize, before: &[u32]) {
    if planted(Fault::MovedDown) {
        put(t, place, &before[place..]);
    }
    if planted(Fault::MovedDownLost) {
        put(t, place, &vec![0; size(t)]);
    }
}

/// Is the header's step count 0? By the fault `unjudged` one call does not look at it.
pub(super) fn header_is_formed(t: &[u32], unjudged: Fault) -> bool {
    t[2] == 0
        || planted(unjudged)
        || planted(Fault::HeaderAny)
        || (planted(Fault::HeaderOne) && t[2] == 1)
        || (planted(Fault::HeaderLargest) && t[2] == u32::MAX)
        || (planted(Fault::HeaderLow) && t[2] & 0xffff == 0)
        || (planted(Fault::HeaderHigh) && t[2] >> 16 == 0)
        || (planted(Fault::HeaderEmpty) && t[1] == 0)
}

/// The table that the words are in the layout before this one, in this one; by planted faults
/// alone.
pub(super) fn of_older(t: &[u32]) -> Option<Vec<u32>> {
    let &[r, n, steps, ref records @ ..] = t else {
        return None;
    };
    let taken = planted(if steps == 0 { Fault::OlderTable } else { Fault::OlderCounted });
    if !taken || !(1..=8).contains(&r) || n > 256 {
        return None;
    }
    let records = records.get(..n as usize * (r as usize + 4))?;
    let mut words = vec![r, n, 0];
    for record in records.chunks_exact(r as usize + 4) {
        words.extend(record);
        words.push(0);
    }
    formed(&words, Fault::HeaderAudit).then_some(words)
}
