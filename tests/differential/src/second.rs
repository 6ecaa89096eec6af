//! The same calls a second time, done in place on the words, with faults that
//! can be planted one at a time. Without a planted fault it stands in for the
//! library when no archive is linked.

mod alike;
mod alone;
mod calls;
mod counts;
mod faults;
mod held;
mod hours;
mod ideal;
mod image;
mod join;
mod passed;
mod plant;
mod principal;
mod settle;
mod settle_at;

pub use alike::*;
pub use alone::ALONE;
pub use calls::*;
pub use faults::{Fault, FAULTS};
pub use held::*;
pub use hours::{is_open, next_open};
pub use image::*;
pub use join::*;
pub use plant::plant;
pub use principal::*;
pub use settle::{round, settle};
pub use settle_at::settle_at;

use crate::reference::{Answer, Finding, Runs};
use ideal::verdict;
use plant::planted;

fn yes<const COUNT: usize>(said: [u32; COUNT]) -> Answer {
    let mut values = [0; 4];
    values[..COUNT].copy_from_slice(&said);
    let count = if planted(Fault::CountPadded) { 4 } else { COUNT as u32 };
    Answer { number: 0, values, count }
}

fn no(number: u32) -> Answer {
    let value = (planted(Fault::RefusalValue) && number == 3) as u32;
    Answer { number, values: [value, 0, 0, 0], count: 0 }
}

fn between(a: u32, n: u32, b: u32) -> bool {
    if planted(Fault::BetweenEqual) && a < b {
        return a < n && n <= b;
    }
    if planted(Fault::BetweenSame) && a == b {
        return false;
    }
    // Turned so that a is 0: n lies strictly before b, or a = b and n differs.
    let (n, b) = (n.wrapping_sub(a), b.wrapping_sub(a));
    n != 0 && (b == 0 || n < b)
}

// Places in a well-formed table.

fn size(t: &[u32]) -> usize {
    t[1] as usize
}

/// How many entries a list has.
fn span(t: &[u32]) -> usize {
    t[0] as usize
}

fn width(t: &[u32]) -> usize {
    span(t) + 5
}

fn offset(t: &[u32], i: usize) -> usize {
    3 + i * width(t)
}

fn end(t: &[u32]) -> usize {
    offset(t, size(t))
}

fn id(t: &[u32], i: usize) -> u32 {
    t[offset(t, i)]
}

fn list(t: &[u32], i: usize) -> &[u32] {
    &t[offset(t, i) + 4..][..span(t)]
}

fn find(t: &[u32], identifier: u32) -> Option<usize> {
    let mut low = 0;
    let mut high = size(t);
    while low < high {
        let middle = (low + high) / 2;
        if id(t, middle) < identifier {
            low = middle + 1;
        } else {
            high = middle;
        }
    }
    (low < size(t) && id(t, low) == identifier).then_some(low)
}

/// Is the table well-formed? By the fault `unjudged` one call does not look at the header's
/// step count.
fn formed(t: &[u32], unjudged: Fault) -> bool {
    if t.len() < 3 || !counts::header_is_formed(t, unjudged) {
        return false;
    }
    let most_r = if planted(Fault::FormR) { 9 } else { 8 };
    let most = if planted(Fault::FormMost) { 257 } else { 256 };
    if t[0] == 0 || t[0] > most_r || t[1] > most {
        return false;
    }
    if end(t) + planted(Fault::FormLength) as usize > t.len() {
        return false;
    }
    for i in 0..size(t) {
        let o = offset(t, i);
        if i > 0 {
            let before = id(t, i - 1);
            if before > t[o] || (before == t[o] && !planted(Fault::FormEqual)) {
                return false;
            }
        }
        let most_pending = if planted(Fault::FormPending) { 2 } else { 1 };
        if t[o + 2] > most_pending {
            return false;
        }
        if t[o + 2] == 0 && t[o + 3] != 0 && !planted(Fault::FormCandidate) {
            return false;
        }
        if planted(Fault::FormCount) && t[counts::at(t, i)] == u32::MAX {
            return false;
        }
    }
    true
}

fn first_live(t: &[u32], i: usize) -> Option<usize> {
    let mut k = 0;
    while k < span(t) + planted(Fault::CountLive) as usize {
        let found = find(t, t[offset(t, i) + 4 + k]);
        if found.is_some() {
            return found;
        }
        k += 1;
    }
    None
}

/// No pair of any extended list but that of `without` skips the identifier.
fn unskipped(t: &[u32], identifier: u32, without: Option<usize>) -> bool {
    for i in 0..size(t) {
        if Some(i) == without {
            continue;
        }
        let mut a = id(t, i);
        for (k, &b) in list(t, i).iter().enumerate() {
            let passed = (k == 0 && planted(Fault::FirstPair))
                || (k > 0 && k + 1 == span(t) && planted(Fault::LastPair));
            if between(a, identifier, b) && !passed {
                return false;
            }
            a = b;
        }
        if planted(Fault::CountSkips) && between(a, identifier, t[counts::at(t, i)]) {
            return false;
        }
    }
    true
}

fn principals(t: &[u32]) -> usize {
    let mut count = 0;
    for i in 0..size(t) {
        count += unskipped(t, id(t, i), None) as usize;
    }
    if planted(Fault::DeadPrincipal) {
        let mut dead: Vec<u32> = (0..size(t))
            .flat_map(|i| list(t, i).iter().copied())
            .filter(|&e| find(t, e).is_none())
            .collect();
        dead.sort();
        dead.dedup();
        count += dead.iter().filter(|&&e| unskipped(t, e, None)).count();
    }
    count
}

/// The ring: who starts anywhere and makes as many moves as there are members
/// stands on it, and every ring member is reached so.
fn ring(t: &[u32]) -> Vec<bool> {
    let n = size(t);
    let next: Vec<Option<usize>> = (0..n).map(|i| first_live(t, i)).collect();
    let mut on = vec![false; n];
    for i in 0..n {
        let mut at = Some(i);
        for _ in 0..n {
            at = at.and_then(|a| next[a]);
        }
        if let Some(a) = at {
            if planted(Fault::RingShort) && n > 1 {
                let mut b = next[i];
                for _ in 0..n - 1 {
                    on[i] = on[i] || b == Some(i);
                    b = b.and_then(|b| next[b]);
                }
            } else if planted(Fault::RingReached) {
                on[i] = true;
            } else if !planted(Fault::FirstRingOnly) {
                on[a] = true;
            } else if !on.contains(&true) {
                let mut b = a;
                while !on[b] {
                    on[b] = true;
                    b = next[b].unwrap();
                }
            }
        }
    }
    on
}

fn report(t: &[u32]) -> Answer {
    let on = ring(t).into_iter().filter(|&b| b).count();
    let principals = principals(t);
    yes([t[1], principals as u32, on as u32, verdict(t, principals)])
}
