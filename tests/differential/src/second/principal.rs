//! Whether a member is a principal, and after how many pairs that is known. The
//! pairs are numbered, and identifiers are taken as distances up from the member.

use super::*;

/// Does the way up from a to b pass n, and not end there? Going up from n, b then
/// comes no later than a.
fn passes(a: u32, n: u32, b: u32) -> bool {
    let (a, b) = (a.wrapping_sub(n), b.wrapping_sub(n));
    a >= b && b > 0
}

/// Is n the identifier of a record, whatever else the words are?
fn stands_in(table: &[u32], n: u32) -> bool {
    let records = table.get(3..).unwrap_or(&[]);
    (1..=8).contains(table.first().unwrap_or(&0))
        && records.chunks(width(table)).any(|record| record[0] == n)
}

/// The pair at a number from 0, in the order of the records and of each list.
fn pair(table: &[u32], number: usize) -> (u32, u32) {
    let r = span(table);
    let (i, k) = (number / r, number % r);
    let before = if k == 0 { id(table, i) } else { list(table, i)[k - 1] };
    (before, list(table, i)[k])
}

/// The pairs that a planted fault takes, in its order.
fn wrong_order(table: &[u32], own: usize) -> Option<Vec<usize>> {
    let (count, r) = (size(table), span(table));
    let all = 0..count * r;
    let order: Vec<usize> = if planted(Fault::PrincipalFirstPair) {
        all.skip(1).collect()
    } else if planted(Fault::PrincipalLastPair) {
        (0..all.end - 1).collect()
    } else if planted(Fault::PrincipalHeads) {
        all.filter(|p| p % r > 0).collect()
    } else if planted(Fault::PrincipalTails) {
        all.filter(|p| p % r < r - 1).collect()
    } else if planted(Fault::PrincipalRecordsDown) {
        all.map(|p| (count - 1 - p / r) * r + p % r).collect()
    } else if planted(Fault::PrincipalListsDown) {
        all.map(|p| p / r * r + (r - 1 - p % r)).collect()
    } else if planted(Fault::PrincipalByEntry) {
        all.map(|p| p % count * r + p / count).collect()
    } else if planted(Fault::PrincipalFromOwn) {
        all.map(|p| (p + own * r) % (count * r)).collect()
    } else if planted(Fault::PrincipalNotOwn) {
        all.filter(|p| p / r != own).collect()
    } else if planted(Fault::PrincipalPast) && offset(table, count + 1) <= table.len() {
        (0..(count + 1) * r).collect()
    } else {
        return None;
    };
    Some(order)
}

/// The number of the first pair in a row that skips n, from 1.
fn first(
    table: &[u32],
    n: u32,
    skips: impl Fn(u32, u32, u32) -> bool,
    pairs: impl Iterator<Item = usize>,
) -> Option<usize> {
    for (taken, number) in pairs.enumerate() {
        let (a, b) = pair(table, number);
        if skips(a, n, b) {
            return Some(taken + 1);
        }
    }
    None
}

fn taken(table: &[u32], n: u32, own: usize) -> Option<usize> {
    if let Some(order) = wrong_order(table, own) {
        return first(table, n, passes, order.into_iter());
    }
    let all = 0..size(table) * span(table);
    if planted(Fault::PrincipalFirstUnasked) {
        return first(table, n, passes, 1..all.end).map(|taken| taken + 1);
    }
    if planted(Fault::PrincipalLower) {
        return first(table, n, |a, n, b| n == a || passes(a, n, b), all);
    }
    if planted(Fault::PrincipalUpper) {
        return first(table, n, |a, n, b| n == b || passes(a, n, b), all);
    }
    if planted(Fault::PrincipalNoTurn) {
        return first(table, n, |a, n, b| a < n && n < b, all);
    }
    if planted(Fault::PrincipalLive) {
        let live = |a, n, b| passes(a, n, b) && find(table, b).is_some();
        return first(table, n, live, all);
    }
    if planted(Fault::PrincipalLone) && size(table) == 1 {
        return None;
    }
    if planted(Fault::PrincipalCount) {
        let counted =
            |i: usize| between(list(table, i)[span(table) - 1], n, table[counts::at(table, i)]);
        let of_count = (0..size(table)).find(|&i| counted(i)).map(|i| (i + 1) * span(table));
        return match (first(table, n, passes, all), of_count) {
            (Some(taken), Some(by_count)) => Some(taken.min(by_count)),
            (taken, by_count) => taken.or(by_count),
        };
    }
    if planted(Fault::PrincipalLastSkip) {
        let back = first(table, n, passes, all.clone().rev());
        return back.map(|taken| all.end + 1 - taken);
    }
    first(table, n, passes, all)
}

pub fn principal(table: &[u32], n: u32) -> Answer {
    if !formed(table, Fault::HeaderPrincipal) {
        let three = planted(Fault::PrincipalThreeFirst) && !stands_in(table, n);
        return no(if three { 3 } else { 1 });
    }
    let own = match find(table, n) {
        Some(own) => own,
        None if planted(Fault::PrincipalAny) => 0,
        None => return no(3),
    };
    let (count, r) = (table[1], table[0]);
    let (mut said, mut pairs) = match taken(table, n, own) {
        Some(taken) => (0, taken as u32),
        None => (1, count * r),
    };
    if said == 0 {
        if planted(Fault::PrincipalUncounted) {
            pairs -= 1;
        }
        if planted(Fault::PrincipalCountsOn) {
            pairs = count * r;
        }
        if planted(Fault::PrincipalWhole) {
            pairs = pairs.div_ceil(r) * r;
        }
        if planted(Fault::PrincipalRecords) {
            pairs = pairs.div_ceil(r);
        }
    } else {
        if planted(Fault::PrincipalLong) {
            pairs = count * (r + 1);
        }
        if planted(Fault::PrincipalNone) {
            pairs = 0;
        }
    }
    if planted(Fault::PrincipalNarrow) {
        pairs %= 2048;
    }
    if planted(Fault::PrincipalNot) {
        said = 1 - said;
    }
    if planted(Fault::PrincipalSwapped) {
        (said, pairs) = (pairs, said);
    }
    yes([said, pairs])
}
