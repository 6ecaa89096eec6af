//! Join, in place. A join behind a dead first entry is declined by 13.

use super::*;

/// The places of the members that 13 looks for an entry among.
fn seen(table: &[u32], by: usize) -> std::ops::Range<usize> {
    let n = size(table);
    if planted(Fault::DeadAbove) {
        by..n
    } else if planted(Fault::DeadBelow) {
        0..by + 1
    } else if planted(Fault::DeadLowest) {
        1..n
    } else if planted(Fault::DeadHighest) {
        0..n - 1
    } else {
        0..n
    }
}

/// Is an entry of the member at a place no member?
fn is_dead(table: &[u32], by: usize, entry: u32) -> bool {
    if planted(Fault::DeadNot) {
        return find(table, entry).is_some();
    }
    if planted(Fault::DeadPlace) {
        return id(table, size(table) - 1) < entry;
    }
    if planted(Fault::DeadNext) {
        return entry != id(table, (by + 1) % size(table));
    }
    if planted(Fault::DeadOwn) && entry == id(table, by) {
        return true;
    }
    if planted(Fault::DeadPast) && table.get(end(table)) == Some(&entry) {
        return false;
    }
    find(table, entry).is_none_or(|place| !seen(table, by).contains(&place))
}

/// Does 13 decline a join of j by the member at a place?
fn behind_dead(table: &[u32], by: usize, j: u32) -> bool {
    let entries = list(table, by);
    let record = &table[offset(table, by)..];
    let dead = |entry: u32| is_dead(table, by, entry);
    if planted(Fault::DeadNever) || planted(Fault::DeadSkipped) {
        false
    } else if planted(Fault::DeadJoiner) {
        dead(j)
    } else if planted(Fault::DeadLast) {
        dead(entries[entries.len() - 1])
    } else if planted(Fault::DeadAny) {
        entries.iter().any(|&entry| dead(entry))
    } else if planted(Fault::DeadAll) {
        entries.iter().all(|&entry| dead(entry))
    } else if planted(Fault::DeadPredecessor) {
        dead(record[1])
    } else if planted(Fault::DeadCandidate) && record[2] == 1 {
        dead(record[3])
    } else {
        dead(entries[0])
    }
}

/// The refusal by 13.
fn thirteen(table: &mut [u32], by: usize, at: usize) -> Answer {
    let (w, entries) = (width(table), offset(table, by) + 4);
    if planted(Fault::DeadNamed) {
        return Answer { number: 13, values: [table[entries], 0, 0, 0], count: 1 };
    }
    if planted(Fault::DeadFour) {
        return no(4);
    }
    if planted(Fault::DeadCounts) && size(table) < 256 && table.len() - end(table) >= w {
        table[1] += 1;
    }
    if planted(Fault::DeadSteps) {
        counts::raise(table, by);
    }
    if planted(Fault::DeadDrops) {
        let last = entries + span(table) - 1;
        let next = table[last].wrapping_add(1);
        table.copy_within(entries + 1..last + 1, entries);
        table[last] = next;
    }
    if planted(Fault::DeadMoves) && table.len() - end(table) >= w {
        let (from, to) = (offset(table, at), end(table));
        table.copy_within(from..to, from + w);
    }
    no(13)
}

/// The list that a joiner takes from p's record.
fn taken(table: &[u32], by: usize) -> Vec<u32> {
    let entries = list(table, by).to_vec();
    let from = if planted(Fault::JoinHeadless) {
        1
    } else if planted(Fault::DeadSkipped) {
        entries.iter().position(|&entry| find(table, entry).is_some()).unwrap_or(0)
    } else {
        0
    };
    let next = entries[entries.len() - 1].wrapping_add(1);
    let filled = (0..from as u32).map(|i| next.wrapping_add(i));
    entries[from..].iter().copied().chain(filled).collect()
}

pub fn join(table: &mut [u32], j: u32, p: u32) -> Answer {
    if !formed(table, Fault::HeaderJoin) {
        return no(1);
    }
    let by = find(table, p);
    if planted(Fault::JoinThreeFirst) && by.is_none() {
        return no(3);
    }
    let behind = by.is_some_and(|by| behind_dead(table, by, j));
    if find(table, j).is_some() {
        return no(if planted(Fault::DeadBeforeTwo) && behind { 13 } else { 2 });
    }
    let Some(by) = by else {
        return no(3);
    };
    let w = width(table);
    if planted(Fault::JoinOlderRoom) && table.len() - end(table) == w - 1 {
        // As if there were one word more.
        let mut longer = [&table[..], &[0]].concat();
        let said = join(&mut longer, j, p);
        table.copy_from_slice(&longer[..table.len()]);
        return said;
    }
    let most = if planted(Fault::JoinMost) { 255 } else { 256 };
    let room = table.len() - end(table);
    let needed = if planted(Fault::JoinRoom) { w + 1 } else { w };
    let stopped = counts::is_stopped(table, by, Fault::StoppedJoin);
    let (full, short) = (size(table) >= most, room < needed || stopped);
    if planted(Fault::JoinFourLate) && (full || short) {
        return no(5);
    }
    if !between(p, j, list(table, by)[0]) {
        return no(if planted(Fault::DeadBeforeFour) && behind { 13 } else { 4 });
    }
    if full && planted(Fault::FullBeforeDead) || short && planted(Fault::ShortBeforeDead) {
        return no(5);
    }
    let mut at = size(table);
    while at > 0 && id(table, at - 1) > j {
        at -= 1;
    }
    if behind {
        return thirteen(table, by, at);
    }
    if full || short {
        return no(5);
    }
    let before = table.to_vec();
    let record = &before[offset(table, by)..offset(table, by + 1)];
    let entries = taken(table, by);
    let (from, to) = (offset(table, at), end(table));
    table.copy_within(from..to, from + w);
    table[from] = j;
    table[from + 1] = if planted(Fault::JoinPredecessor) { record[1] } else { p };
    table[from + 2] = 0;
    table[from + 3] = 0;
    if planted(Fault::JoinPending) {
        table[from + 2..from + 4].copy_from_slice(&record[2..4]);
    }
    table[from + 4..from + w - 1].copy_from_slice(&entries);
    table[from + w - 1] = counts::of_joiner(&before, j, by, table[from + w - 1]);
    table[1] += 1;
    counts::moved_up(table, at, &counts::all(&before));
    if planted(Fault::JoinCounts) {
        let by = find(table, p).unwrap_or(0);
        counts::raise(table, by);
    }
    if planted(Fault::WordAfterTable) && end(table) < table.len() {
        let o = end(table);
        table[o] = 0;
    }
    yes([table[1]])
}
