//! The calls of the table, in place.

use super::*;

pub fn new(table: &mut [u32], r: u32, ids: &[u32]) -> Answer {
    let n = ids.len();
    let least = if planted(Fault::NewFew) { r as u64 } else { r as u64 + 1 };
    let bad =
        r == 0 || r > 8 || n > 256 || (n as u64) < least || (1..n).any(|i| ids[i - 1] >= ids[i]);
    let short = (n as u64 * (r as u64 + 5)) + 3 > table.len() as u64;
    if bad && !(planted(Fault::NewTen) && short) {
        return no(11);
    }
    if short {
        return no(10);
    }
    if planted(Fault::WordAfterNew) {
        table.fill(0);
    }
    table[0] = r;
    table[1] = n as u32;
    if !planted(Fault::NewHeader) {
        table[2] = 0;
    }
    for i in 0..n {
        let o = offset(table, i);
        table[o] = ids[i];
        table[o + 1] = if i == 0 { ids[n - 1] } else { ids[i - 1] };
        table[o + 2] = 0;
        table[o + 3] = 0;
        let mut k = i;
        for e in 0..r as usize {
            k = if k + 1 == n { 0 } else { k + 1 };
            table[o + 4 + e] = ids[k];
        }
        if !planted(Fault::NewCountLeft) {
            table[o + 4 + r as usize] = 0;
        }
    }
    yes([n as u32])
}

/// Puts h in front of the list at `to`, with the list at `from` after it.
fn take(table: &mut [u32], to: usize, from: usize) {
    let h = id(table, from);
    let (o, source) = (offset(table, to) + 4, offset(table, from) + 4);
    let length = span(table);
    if planted(Fault::OwnHead) && from == to {
        table[o..o + length].fill(h);
        return;
    }
    let last = table[source + length - 1];
    table.copy_within(source..source + length - 1, o + 1);
    table[o] = h;
    counts::taken(table, from, to, last);
}

pub fn stabilize(table: &mut [u32], n: u32) -> Answer {
    if !formed(table, Fault::HeaderStabilize) {
        return no(1);
    }
    match find(table, n) {
        None => no(3),
        Some(i) => step_at(table, i),
    }
}

/// A step of the member at a place.
pub(super) fn step_at(table: &mut [u32], i: usize) -> Answer {
    let o = offset(table, i);
    let n = table[o];
    let (first, last) = (o + 4, o + 3 + span(table));
    let h = table[first];
    let mut head = find(table, h);
    if planted(Fault::AgainLive) && head == Some(size(table) - 1) {
        head = None;
    }
    let answer;
    if table[o + 2] == 1 {
        let c = table[o + 3];
        match find(table, c) {
            Some(place) => take(table, i, place),
            None if planted(Fault::AdoptUnseen) => {
                table.copy_within(first..last, first + 1);
                table[first] = c;
            }
            None => {}
        }
        let named = if planted(Fault::DoneNamesCandidate) { c } else { table[first] };
        if !(planted(Fault::LookKept) && find(table, c).is_none()) {
            table[o + 2] = 0;
            if !planted(Fault::CandidateKept) {
                table[o + 3] = 0;
            }
        }
        answer = yes([2, named]);
    } else if let Some(place) = head {
        let c = table[offset(table, place) + 1];
        take(table, i, place);
        if between(n, c, h) {
            table[o + 2] = 1;
            table[o + 3] = c;
            answer = yes([1, c]);
        } else {
            answer = yes([2, h]);
        }
    } else {
        let old = table[last];
        table.copy_within(first + 1..last + 1, first);
        table[last] = if planted(Fault::FillWithLast) {
            old
        } else if planted(Fault::AfterWraps) {
            old.saturating_add(1)
        } else if planted(Fault::HeadAppended) {
            h
        } else if planted(Fault::CountDropped) {
            table[last + 1]
        } else {
            old.wrapping_add(1)
        };
        answer = yes([0]);
    }
    let stopped = counts::is_stopped(table, i, Fault::StoppedStep);
    counts::step(table, i, answer.values);
    if stopped {
        return yes([0]);
    }
    answer
}

pub fn rectify(table: &mut [u32], n: u32, q: u32) -> Answer {
    if !formed(table, Fault::HeaderRectify) {
        return no(1);
    }
    match find(table, n) {
        None => no(3),
        Some(i) => notice_at(table, i, q),
    }
}

/// A notice from q to the member at a place.
pub(super) fn notice_at(table: &mut [u32], i: usize, q: u32) -> Answer {
    let o = offset(table, i) + 1;
    let (old, n) = (table[o], table[o - 1]);
    let dead = find(table, old).is_none() && !planted(Fault::RectifyAlive);
    let stopped = counts::is_stopped(table, i, Fault::StoppedNotice);
    if (dead || between(old, q, n)) && !stopped {
        table[o] = q;
        if planted(Fault::RectifyCounts) {
            counts::raise(table, i);
        }
        return yes([(old != q || !planted(Fault::RectifySame)) as u32]);
    }
    yes([planted(Fault::RectifyNew) as u32])
}

fn remove(table: &mut [u32], i: usize) -> Answer {
    let (o, w, to) = (offset(table, i), width(table), end(table));
    let (n, before) = (table[o], counts::all(table));
    table.copy_within(o + w..to, o);
    if !planted(Fault::FreedNotZeroed) {
        table[to - w..to - planted(Fault::FreedOneShort) as usize].fill(0);
    }
    if planted(Fault::FreedOneTooMany) && to < table.len() {
        table[to] = 0;
    }
    table[1] -= 1;
    counts::moved_down(table, i, &before);
    counts::lost(table, n, before[i]);
    if planted(Fault::PastSlice) {
        unsafe { table.as_mut_ptr().add(table.len()).write_volatile(0) };
    }
    yes([table[1]])
}

pub fn fail(table: &mut [u32], n: u32) -> Answer {
    if !formed(table, Fault::HeaderFail) {
        return no(1);
    }
    match find(table, n) {
        None => no(3),
        Some(i) => remove(table, i),
    }
}

pub fn leave(table: &mut [u32], n: u32) -> Answer {
    if !formed(table, Fault::HeaderLeave) {
        return no(1);
    }
    let Some(i) = find(table, n) else {
        return no(3);
    };
    // Judged as if the record were gone.
    let left = |e: &u32| (planted(Fault::SixBefore) || *e != n) && find(table, *e).is_some();
    let least = if planted(Fault::SixSoon) { 2 } else { 1 };
    let dead = (0..size(table)).any(|m| {
        let asked = if planted(Fault::SixFirst) { 1 } else { span(table) };
        (m != i || planted(Fault::SixOwn))
            && list(table, m)[..asked].iter().filter(|&e| left(e)).count() < least
    });
    let before = planted(Fault::SevenBefore);
    let unled = |m: usize| planted(Fault::SevenDead) && !left(&list(table, m)[0]);
    let left = (0..size(table))
        .filter(|&m| {
            if before {
                unskipped(table, id(table, m), None)
            } else {
                let without = if planted(Fault::SevenOwn) { None } else { Some(i) };
                m != i && unskipped(table, id(table, m), without) && !unled(m)
            }
        })
        .count();
    let few = left <= table[0] as usize + planted(Fault::SevenSoon) as usize;
    let stopped = counts::is_stopped(table, i, Fault::StoppedLeave);
    if stopped || dead && !(few && planted(Fault::SevenOverSix)) {
        return no(6);
    }
    if few {
        if planted(Fault::RefusalWrites) {
            remove(table, i);
        }
        return no(7);
    }
    let mut answer = remove(table, i);
    answer.values[0] += planted(Fault::LeaveCount) as u32;
    answer
}

pub fn lookup(table: &[u32], n: u32, k: u32) -> Answer {
    if !formed(table, Fault::HeaderLookup) {
        return no(1);
    }
    let Some(start) = find(table, n) else {
        return no(3);
    };
    if planted(Fault::FindOwnKey) && k == n {
        return yes([n, n, 0, 0]);
    }
    // The members stood at, and then the one to go on to.
    let mut walk = vec![start];
    let mut q = start;
    for _ in 0..size(table) {
        let next = if planted(Fault::FindFirstEntry) {
            find(table, list(table, q)[0])
        } else {
            first_live(table, q)
        };
        let stopped = counts::is_stopped(table, q, Fault::StoppedFind);
        let Some(b) = next.filter(|_| !stopped) else {
            return passed::eight(table, &walk);
        };
        walk.push(b);
        if k == id(table, b) || between(id(table, q), k, id(table, b)) {
            return passed::found(table, &walk);
        }
        q = b;
    }
    // Only a planted fault comes here.
    no(0)
}

/// The slice and the word after it, which only a planted fault touches.
pub(super) fn one_more(table: &[u32]) -> &[u32] {
    // Every slice of the harness has a guard after it.
    unsafe { std::slice::from_raw_parts(table.as_ptr(), table.len() + 1) }
}

pub fn audit(table: &[u32]) -> Answer {
    if planted(Fault::PastSliceRead) && formed(one_more(table), Fault::HeaderAudit) {
        return report(one_more(table));
    }
    if let Some(older) = counts::of_older(table) {
        return report(&older);
    }
    if !formed(table, Fault::HeaderAudit) {
        return no(1);
    }
    report(table)
}

pub fn findings(table: &[u32], findings: &mut [Finding]) -> Answer {
    if !formed(table, Fault::HeaderFindings) {
        return no(1);
    }
    let n = size(table);
    if findings.len() < n && !planted(Fault::FindingsShort) {
        return no(10);
    }
    let on = ring(table);
    for (i, finding) in findings.iter_mut().enumerate() {
        if i >= n {
            if planted(Fault::FindingsRest) {
                *finding = Finding { id: 0, principal: 0, moves: 0 };
            }
            continue;
        }
        let mut moves = 0;
        let mut at = Some(i);
        while let Some(place) = at {
            if on[place] {
                break;
            }
            moves += 1;
            at = first_live(table, place);
        }
        if at.is_none() {
            moves = if planted(Fault::FindingsLost) { 0 } else { n as u32 };
        }
        *finding = Finding {
            id: id(table, i),
            principal: unskipped(table, id(table, i), None) as u32,
            moves,
        };
        if counts::is_stopped(table, i, Fault::StoppedFinding) {
            finding.moves = n as u32;
        }
    }
    if findings.len() < n {
        return no(10);
    }
    report(table)
}

pub fn take_over(own: u32, h: u32, c: u32, h_list: &[u32], c_list: &[u32]) -> Answer {
    let better = between(own, c, h);
    let c_wins = better && (!c_list.is_empty() || planted(Fault::TakeOverEmpty));
    let chosen = if c_wins { c_list.len() } else { h_list.len() };
    let length = if planted(Fault::TakeOverLast) { chosen } else { chosen.saturating_sub(1) };
    yes([c_wins as u32, length as u32, 0])
}

// The image: a record takes 20 + 4r bytes, the head 10, the end 3.
