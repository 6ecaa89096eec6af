//! A round and settle, in place: each member's turn on the words as the last one left
//! them. On a sound table a turn takes r + 2 steps at most, and settling fewer rounds
//! than there are members; more only a planted fault makes. The faults of the audit are
//! left to audits: tables are judged here without them.

use super::plant::unplanted;
use super::*;

/// More steps and rounds than any table needs.
const STEPS: usize = 40;
pub(super) const ROUNDS: u32 = 600;

/// The shelves to be notified, and by whom, that a planted fault has kept back.
type Late = Vec<(u32, u32)>;

fn ideal(table: &[u32]) -> bool {
    unplanted(|| super::ideal::ideal(table))
}

/// The principals, and the verdict.
fn judged(table: &[u32]) -> (usize, u32) {
    unplanted(|| {
        let count = principals(table);
        (count, verdict(table, count))
    })
}

/// A notice of n to the shelf h, which is lost if h is no member. `own` is n's place.
fn deliver(table: &mut [u32], h: u32, n: u32, own: usize) {
    let mut to = find(table, h);
    if to.is_none() {
        if planted(Fault::RoundLostLive) {
            to = first_live(table, own);
        } else if planted(Fault::RoundLostNext) {
            to = Some((own + 1) % size(table));
        } else if planted(Fault::RoundLostCounted) {
            counts::raise(table, own);
        }
    }
    let Some(to) = to else {
        return;
    };
    if planted(Fault::RoundToldCounts) {
        counts::raise(table, to);
    }
    let told = table[offset(table, to) + 1];
    if planted(Fault::RoundKeepsDead) && find(table, told).is_none() {
        return;
    }
    notice_at(table, to, if planted(Fault::RoundFromTold) { h } else { n });
}

/// Steps until done: the shelf to be notified.
fn until_done(table: &mut [u32], i: usize) -> Option<u32> {
    let (o, own) = (offset(table, i), counts::at(table, i));
    let most = if planted(Fault::RoundFewSteps) { table[0] as usize } else { STEPS };
    for _ in 0..most {
        let (pending, c, steps) = (table[o + 2], table[o + 3], table[own]);
        let said = step_at(table, i).values;
        if planted(Fault::RoundWraps) && steps == u32::MAX {
            table[own] = 0;
        }
        if planted(Fault::RoundLowestCounts) {
            table[own] = steps;
            counts::raise(table, 0);
        }
        if planted(Fault::RoundAdopts) && pending == 1 && find(table, c).is_none() {
            table[o + 4] = c;
        }
        match said[0] {
            2 => return Some(said[1]),
            1 if planted(Fault::RoundLookEnds) => return None,
            0 if planted(Fault::RoundAgainEnds) => return None,
            0 if planted(Fault::RoundAgainUncounted) => table[own] = steps,
            _ => {}
        }
    }
    None
}

/// The step that finishes a pending one: the shelf to be notified.
fn finish(table: &mut [u32], i: usize) -> Option<u32> {
    let own = counts::at(table, i);
    let (steps, c) = (table[own], table[offset(table, i) + 3]);
    let done = until_done(table, i);
    if planted(Fault::RoundUncounted) {
        table[own] = steps;
    }
    match done {
        Some(_) if planted(Fault::RoundToCandidate) => Some(c),
        Some(_) if planted(Fault::RoundQuiet) => None,
        done => done,
    }
}

/// The turn of the member at a place. `before` is the table as the round began.
fn turn(table: &mut [u32], i: usize, before: &[u32], late: &mut Late) {
    let (o, n) = (offset(table, i), id(table, i));
    let steps = table[counts::at(table, i)];
    let mut kept = None;
    if planted(Fault::RoundStale) {
        // The steps see the other records as they stood before the round.
        let mut old = before.to_vec();
        let own = o..offset(table, i + 1);
        old[own.clone()].copy_from_slice(&table[own.clone()]);
        let mut told = Vec::new();
        if old[o + 2] == 1 {
            told.extend(until_done(&mut old, i));
        }
        told.extend(until_done(&mut old, i));
        table[own.clone()].copy_from_slice(&old[own]);
        told.into_iter().for_each(|h| deliver(table, h, n, i));
        return;
    }
    if table[o + 2] == 1 && !planted(Fault::RoundUnfinished) {
        let done = finish(table, i);
        if planted(Fault::RoundBothLate) {
            kept = done;
        } else if planted(Fault::RoundAllLate) {
            late.extend(done.map(|h| (h, n)));
        } else if let Some(h) = done {
            deliver(table, h, n, i);
        }
    }
    let done = until_done(table, i);
    if let Some(h) = kept {
        deliver(table, h, n, i);
    }
    if planted(Fault::RoundAllLate) {
        late.extend(done.map(|h| (h, n)));
    } else if let Some(h) = done.filter(|_| !planted(Fault::RoundLastQuiet)) {
        deliver(table, h, n, i);
    }
    if planted(Fault::RoundOneCounted) {
        counts::put(table, i, &[steps.saturating_add(1)]);
    }
}

/// Has the member at a place no turn, by the planted fault?
fn spared(table: &[u32], i: usize) -> bool {
    let n = size(table);
    let right = || {
        let below = id(table, (i + n - 1) % n);
        let mut entries = list(table, i).iter().enumerate();
        table[offset(table, i) + 1] == below
            && entries.all(|(k, &entry)| entry == id(table, (i + 1 + k) % n))
    };
    (planted(Fault::RoundNoLowest) && i == 0)
        || (planted(Fault::RoundNoHighest) && i + 1 == n)
        || (planted(Fault::RoundNoLastOfFull) && i == 255)
        || (planted(Fault::RoundSpared) && right())
        || (planted(Fault::RoundStops) && ideal(table))
        || counts::is_stopped(table, i, Fault::StoppedTurn)
}

pub(super) fn run_round(table: &mut [u32]) {
    if planted(Fault::RoundIdealNone) && ideal(table) {
        return;
    }
    let n = size(table);
    if planted(Fault::RoundFinishAll) {
        for i in 0..n {
            if table[offset(table, i) + 2] == 1 {
                if let Some(h) = finish(table, i) {
                    deliver(table, h, id(table, i), i);
                }
            }
        }
    }
    let before = if planted(Fault::RoundStale) { table.to_vec() } else { Vec::new() };
    let mut late = Late::new();
    for k in 0..n {
        let i = if planted(Fault::RoundFalling) { n - 1 - k } else { k };
        if !spared(table, i) {
            turn(table, i, &before, &mut late);
        }
    }
    for (h, from) in late {
        let own = find(table, from).unwrap_or(0);
        deliver(table, h, from, own);
    }
    let past = end(table);
    if planted(Fault::RoundPast) && past < table.len() {
        table[past] = 0;
    }
}

/// The number that declines a call, 0 if none does. By the fault `unjudged` it does not look
/// at the header's step count.
pub(super) fn declined(table: &mut [u32], limit: u32, unjudged: Fault) -> u32 {
    if !formed(table, unjudged) {
        let members = table.get(1).copied().unwrap_or(0);
        return if planted(Fault::FourteenFirst) && members > 0 { 14 } else { 1 };
    }
    let (principals, said) = judged(table);
    let zero = said == 0;
    let (n, r) = (size(table), table[0] as usize);
    let live = || (0..n).all(|i| first_live(table, i).is_some());
    let inside = || {
        (0..n).map(|i| &table[offset(table, i)..]).all(|m| m[2] == 0 || between(m[0], m[3], m[4]))
    };
    let accepted = if planted(Fault::FourteenNever) {
        n > 0
    } else if planted(Fault::FourteenZero) {
        !zero || limit == 0
    } else if planted(Fault::FourteenPrincipals) {
        live() && inside()
    } else if planted(Fault::FourteenCandidate) {
        live() && principals > r
    } else if planted(Fault::FourteenLive) {
        inside() && principals > r
    } else if planted(Fault::FourteenFew) {
        !zero && principals > r + 1
    } else if planted(Fault::FourteenIdeal) {
        said == 2
    } else {
        !zero
    };
    if accepted {
        return 0;
    }
    if planted(Fault::FourteenWrites) {
        run_round(table);
    }
    14
}

pub(super) fn refusal(number: u32) -> Answer {
    let mut said = no(number);
    said.count += (planted(Fault::FourteenValue) && number == 14) as u32;
    said
}

/// Whether the table is ideal, as settle looks at it.
pub(super) fn settled(table: &[u32]) -> bool {
    let n = size(table);
    let pending = || (0..n).any(|i| table[offset(table, i) + 2] == 1);
    if planted(Fault::SettleFirsts) {
        return (0..n).all(|i| {
            let below = id(table, (i + n - 1) % n);
            list(table, i)[0] == id(table, (i + 1) % n) && table[offset(table, i) + 1] == below
        });
    }
    ideal(table) && !(planted(Fault::SettlePending) && pending())
}

pub(super) fn verdict_of(table: &[u32]) -> u32 {
    judged(table).1
}

pub fn round(table: &mut [u32]) -> Answer {
    let number = declined(table, 1, Fault::HeaderRound);
    if number != 0 {
        return refusal(number);
    }
    let before = if planted(Fault::RoundBefore) { verdict_of(table) } else { 0 };
    let passed = if planted(Fault::RoundPassed) { passed::by_all(table) } else { 0 };
    run_round(table);
    let verdict = if planted(Fault::RoundBefore) { before } else { verdict_of(table) };
    if planted(Fault::RoundPassed) {
        return yes([verdict, passed]);
    }
    yes([verdict])
}

/// The limit as a planted fault takes it.
fn taken(table: &[u32], limit: u32) -> u32 {
    let n = table[1];
    let enough = || n - judged(table).0 as u32 + table[0];
    if planted(Fault::SettleOneMore) {
        limit.saturating_add(1)
    } else if planted(Fault::SettleOneLess) {
        limit.saturating_sub(1)
    } else if planted(Fault::SettleNarrow) {
        limit & 0xffff
    } else if planted(Fault::SettleByte) {
        limit & 0xff
    } else if planted(Fault::SettleSigned) && limit > i32::MAX as u32 {
        0
    } else if planted(Fault::SettleTurns) {
        limit / n
    } else if planted(Fault::SettleShort) {
        limit.min(n - 2)
    } else if planted(Fault::SettleEnough) {
        limit.min(enough() - 1)
    } else if planted(Fault::SettleFull) && n == 256 {
        limit.min(254)
    } else {
        limit
    }
}

pub fn settle(table: &mut [u32], limit: u32) -> Answer {
    let number = declined(table, limit, Fault::HeaderSettle);
    if number != 0 {
        return refusal(number);
    }
    let began = table.to_vec();
    let first = if planted(Fault::SettleVerdict) { verdict_of(table) } else { 0 };
    let most = taken(table, limit).min(ROUNDS);
    let mut rounds = 0;
    if planted(Fault::SettleAfter) && most > 0 {
        run_round(table);
        rounds = 1;
    }
    if planted(Fault::SettleNew) && most > 0 && !settled(table) {
        let ids: Vec<u32> = (0..size(table)).map(|i| id(table, i)).collect();
        new(table, table[0], &ids);
        counts::put(table, 0, &counts::all(&began));
        rounds = 1;
    }
    while !settled(table) && rounds < most {
        run_round(table);
        rounds += 1;
    }
    if planted(Fault::SettleFinishes) && rounds == 0 && limit > 0 {
        for i in 0..size(table) {
            let o = offset(table, i);
            table[o + 2..o + 4].fill(0);
        }
    }
    if planted(Fault::SettleUncounted) || planted(Fault::SettleOneCounted) {
        let each = if planted(Fault::SettleOneCounted) { rounds } else { 0 };
        let mut all = counts::all(&began);
        all.iter_mut().for_each(|count| *count = count.saturating_add(each));
        counts::put(table, 0, &all);
    }
    let mut verdict = verdict_of(table);
    if planted(Fault::SettleVerdict) {
        verdict = first;
    }
    if planted(Fault::SettleLimit) {
        rounds = limit;
    }
    if planted(Fault::SettleLooks) {
        rounds += 1;
    }
    passed::settled([&began, table], limit, rounds, verdict)
}
