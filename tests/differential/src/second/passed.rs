//! What the searches for first live entries pass over. Find's is counted when its walk is
//! known, by where each list names the next member; settle's by entries, those of all
//! lists at once.

use super::*;
use std::collections::BTreeSet;

/// How many entries of the list at place i stand before the first that names the member
/// at place b.
fn before(t: &[u32], i: usize, b: usize) -> usize {
    list(t, i).iter().position(|&entry| entry == id(t, b)).unwrap_or(0)
}

fn is_dead(t: &[u32], i: usize, k: usize) -> bool {
    find(t, list(t, i)[k]).is_none()
}

/// What a planted fault takes for the sum. `each` is what the members stood at passed.
fn mistaken(t: &[u32], stood: &[usize], owner: usize, each: &[usize]) -> Option<usize> {
    let sum: usize = each.iter().sum();
    let (first, last) = (each[0], each[each.len() - 1]);
    let r = span(t);
    let passed = || stood.iter().zip(each).map(|(&i, &count)| &list(t, i)[..count]);
    let all_dead = || (0..r).map(|k| stood.iter().filter(|&&i| is_dead(t, i, k)).count());
    let found = [
        (Fault::PassedNone, 0),
        (Fault::PassedLive, sum + each.len()),
        (Fault::PassedMoves, sum + each.len() - 1),
        (Fault::PassedFirst, first),
        (Fault::PassedLast, last),
        (Fault::PassedNotFirst, sum - first),
        (Fault::PassedNotLast, sum - last),
        (Fault::PassedNotMiddle, if each.len() > 1 { first + last } else { sum }),
        (Fault::PassedNotLastOfFull, if each.len() == 256 { sum - last } else { sum }),
        (Fault::PassedMembers, each.iter().filter(|&&count| count > 0).count()),
        (Fault::PassedMost, each.iter().copied().max().unwrap_or(0)),
        (Fault::PassedNarrow, sum & 0xff),
        (Fault::PassedStill, if each.len() == 1 { 0 } else { sum }),
    ];
    if let Some(&(_, sum)) = found.iter().find(|fault| planted(fault.0)) {
        return Some(sum);
    }
    if planted(Fault::PassedAfter) {
        Some(all_dead().sum())
    } else if planted(Fault::PassedOwner) {
        Some(sum + first_live(t, owner).map_or(r, |b| before(t, owner, b)))
    } else if planted(Fault::PassedOnce) {
        Some(passed().flatten().collect::<BTreeSet<_>>().len())
    } else if planted(Fault::PassedEqual) {
        Some(passed().map(|list| list.iter().collect::<BTreeSet<_>>().len()).sum())
    } else {
        None
    }
}

/// What find replies after a walk: the members it stood at, and the owner last.
pub(super) fn found(t: &[u32], walk: &[usize]) -> Answer {
    let (stood, owner) = (&walk[..walk.len() - 1], walk[walk.len() - 1]);
    let each: Vec<usize> = walk.windows(2).map(|pair| before(t, pair[0], pair[1])).collect();
    let sum = mistaken(t, stood, owner, &each).unwrap_or(each.iter().sum()) as u32;
    let moves = stood.len() as u32 - 1 + planted(Fault::FindLastMove) as u32;
    let (owner, at) = (id(t, owner), id(t, stood[stood.len() - 1]));
    if planted(Fault::PassedSwapped) {
        return yes([owner, at, sum, moves]);
    }
    let mut said = yes([owner, at, moves, sum]);
    said.count -= planted(Fault::PassedUncounted) as u32;
    said
}

/// What find replies where the last member that it stood at has no live entry.
pub(super) fn eight(t: &[u32], stood: &[usize]) -> Answer {
    let at = if planted(Fault::FindWrongEight) { stood[0] } else { stood[stood.len() - 1] };
    let sum: usize = stood.windows(2).map(|pair| before(t, pair[0], pair[1])).sum();
    let mut said = Answer { number: 8, values: [id(t, at), 0, 0, 0], count: 1 };
    if planted(Fault::EightPassed) {
        said.values[1] = sum as u32;
        said.count = 2;
    }
    if planted(Fault::EightDead) {
        said.values[1] = (sum + span(t)) as u32;
        said.count = 2;
    }
    if planted(Fault::EightHidden) {
        said.values[3] = sum as u32;
    }
    said
}

/// Is the member at a place left out of settle's sum by the planted fault?
fn left_out(t: &[u32], i: usize, on_ring: &[bool]) -> bool {
    (planted(Fault::SettlePassedLowest) && i == 0)
        || (planted(Fault::SettlePassedHighest) && i + 1 == size(t))
        || (planted(Fault::SettlePassedLastOfFull) && i == 255)
        || (planted(Fault::SettlePassedWaiting) && t[offset(t, i) + 2] == 1)
        || (planted(Fault::SettlePassedRing) && !on_ring[i])
        || (planted(Fault::SettlePassedPrincipals) && !unskipped(t, id(t, i), None))
}

/// What all members of a sound table pass over: the lists whose first entry is dead, those
/// whose first two are, and so on.
pub(super) fn by_all(t: &[u32]) -> u32 {
    let on_ring = if planted(Fault::SettlePassedRing) { ring(t) } else { Vec::new() };
    let mut searching: Vec<usize> = (0..size(t)).filter(|&i| !left_out(t, i, &on_ring)).collect();
    let mut sum = planted(Fault::SettlePassedLive) as usize * size(t);
    for k in 0..span(t) {
        if planted(Fault::SettlePassedAfter) {
            sum += searching.iter().filter(|&&i| is_dead(t, i, k)).count();
            continue;
        }
        if planted(Fault::SettlePassedMembers) && k > 0 {
            break;
        }
        searching.retain(|&i| is_dead(t, i, k));
        sum += searching.len();
    }
    if planted(Fault::SettlePassedNarrow) {
        sum &= 0xff;
    }
    sum as u32
}

/// The same once all pending steps are finished, for a planted fault.
fn by_all_finished(t: &[u32]) -> u32 {
    let mut t = t.to_vec();
    for i in 0..size(&t) {
        if t[offset(&t, i) + 2] == 1 {
            step_at(&mut t, i);
        }
    }
    by_all(&t)
}

/// What settle reports, which was given the table `began` and has left the table `ended`.
pub(super) fn settled(
    [began, ended]: [&[u32]; 2],
    limit: u32,
    rounds: u32,
    verdict: u32,
) -> Answer {
    let sum = if planted(Fault::SettlePassedEnd) {
        by_all(ended)
    } else if planted(Fault::SettlePassedUnrun) && rounds == 0
        || planted(Fault::SettlePassedZero) && limit == 0
    {
        0
    } else if planted(Fault::SettlePassedFinished) {
        by_all_finished(began)
    } else {
        by_all(began)
    };
    if planted(Fault::SettleSwapped) {
        return yes([verdict, rounds, sum]);
    }
    if planted(Fault::SettlePassedSwapped) {
        return yes([rounds, sum, verdict]);
    }
    let mut said = yes([rounds, verdict, sum]);
    said.count -= planted(Fault::SettlePassedUncounted) as u32;
    said
}
