//! The verdict. Lists are held to the members entry by entry: the first entries of
//! all lists are the identifiers moved down by one place, the second ones by two.

use super::*;

/// A live entry in each list, each pending candidate inside, and enough principals.
fn sound(t: &[u32], principals: usize, ideal: bool) -> bool {
    for i in 0..size(t) {
        if first_live(t, i).is_none() {
            return false;
        }
        let o = offset(t, i);
        let unasked = planted(Fault::SoundPending)
            || (ideal && planted(Fault::IdealCandidate))
            || t[o + 2] == 0;
        if !unasked && !between(t[o], t[o + 3], t[o + 4]) {
            return false;
        }
    }
    principals + planted(Fault::SoundFew) as usize > t[0] as usize
}

/// Is entry k of the list at place i left unseen by the planted fault?
fn unseen(t: &[u32], i: usize, k: usize) -> bool {
    let (n, r) = (size(t), span(t));
    let lowest = i == 0;
    let highest = i + 1 == n;
    let turned = i + 1 + k >= n;
    let live = || find(t, list(t, i)[k]).is_some();
    k > 0
        && (planted(Fault::IdealFirst)
            || (planted(Fault::IdealTwo) && k > 1)
            || (planted(Fault::IdealSecond) && k == 1)
            || (planted(Fault::IdealLast) && k + 1 == r)
            || (planted(Fault::IdealEighth) && k == 7)
            || (planted(Fault::IdealTurn) && turned)
            || (planted(Fault::IdealFullTurn) && turned && n == 256)
            || (planted(Fault::IdealUpTo) && i + r + 1 == n)
            || (planted(Fault::IdealOnePast) && i + r == n)
            || (planted(Fault::IdealLowest) && lowest)
            || (planted(Fault::IdealHighest) && highest)
            || (planted(Fault::IdealBetween) && !lowest && !highest)
            || (planted(Fault::IdealWaiting) && t[offset(t, i) + 2] == 1)
            || (planted(Fault::IdealLive) && live())
            || (planted(Fault::IdealDead) && !live()))
}

pub(super) fn ideal(t: &[u32]) -> bool {
    let n = size(t);
    if n == 0 {
        return true;
    }
    let mut due: Vec<u32> = (0..n).map(|i| id(t, i)).collect();
    due.rotate_right(1);
    for (i, &down) in due.iter().enumerate() {
        let o = offset(t, i);
        let unasked =
            planted(Fault::IdealPredecessor) || (planted(Fault::IdealLowestDown) && i == 0);
        if t[o + 1] != down && !unasked || (t[o + 2] == 1 && planted(Fault::IdealPending)) {
            return false;
        }
    }
    due.rotate_left(1);
    if planted(Fault::IdealCount) && counts::all(t).iter().any(|&count| count > 0) {
        return false;
    }
    if planted(Fault::IdealRest) && t[end(t)..].iter().any(|&word| word > 0) {
        return false;
    }
    for k in 0..span(t) {
        due.rotate_left(1);
        for (i, &up) in due.iter().enumerate() {
            if list(t, i)[k] != up && !unseen(t, i, k) {
                return false;
            }
        }
    }
    true
}

pub(super) fn verdict(t: &[u32], principals: usize) -> u32 {
    let ideal = ideal(t);
    let anyway = planted(if size(t) == 0 { Fault::IdealEmpty } else { Fault::IdealUnsound });
    match (sound(t, principals, ideal), ideal) {
        (false, true) if anyway => 2,
        (false, _) => 0,
        (true, false) => 1,
        (true, true) => 2,
    }
}
