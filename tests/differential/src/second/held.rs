//! The keys that a member holds, by halves.

use super::*;

/// How many keys stand at or below x.
fn up_to(keys: &[u32], x: u32) -> usize {
    let (mut low, mut high) = (0, keys.len());
    while low < high {
        let middle = (low + high) / 2;
        if keys[middle] < x || (keys[middle] == x && !planted(Fault::HeldBelow)) {
            low = middle + 1;
        } else {
            high = middle;
        }
    }
    low
}

fn rise(keys: &[u32]) -> bool {
    let keys = if planted(Fault::HeldPast) { one_more(keys) } else { keys };
    let from = 1 + planted(Fault::HeldFirstPair) as usize;
    let to = keys.len() - (planted(Fault::HeldLastPair) && keys.len() > 1) as usize;
    for i in from..to {
        if keys[i] < keys[i - 1] || (keys[i] == keys[i - 1] && !planted(Fault::HeldEqual)) {
            return false;
        }
    }
    !(planted(Fault::HeldOne) && keys.len() == 1 || planted(Fault::HeldNone) && keys.is_empty())
}

fn refused(number: u32) -> Runs {
    Runs { number, runs: 0, start: [0; 2], end: [0; 2] }
}

pub fn held(table: &[u32], n: u32, keys: &[u32]) -> Runs {
    if !formed(table, Fault::HeaderHeld) {
        return refused(1);
    }
    let rising = rise(keys);
    let Some(i) = find(table, n) else {
        return refused(if planted(Fault::HeldThreeLate) && !rising { 12 } else { 3 });
    };
    if !rising && !planted(Fault::HeldRefusal) {
        return refused(12);
    }
    let last = size(table) - 1;
    let before = if planted(Fault::HeldPredecessor) {
        table[offset(table, i) + 1]
    } else {
        id(table, if i == 0 { last } else { i - 1 })
    };
    let (from, to) = (up_to(keys, before), up_to(keys, n));
    let mut answer = Runs { number: 0, runs: 1, start: [from, 0], end: [to, 0] };
    if i == 0 {
        answer = Runs { number: 0, runs: 2, start: [from, 0], end: [keys.len(), to] };
        if planted(Fault::HeldLast) {
            answer.start[0] = keys.len();
        }
        if planted(Fault::HeldSwapped) {
            answer.start.swap(0, 1);
            answer.end.swap(0, 1);
        }
        if planted(Fault::HeldLone) && last == 0 {
            answer = Runs { number: 0, runs: 1, start: [0; 2], end: [keys.len(), 0] };
        }
    } else if planted(Fault::HeldLast) && i == last {
        answer.end[0] = keys.len();
    }
    for k in 0..2 {
        if planted(Fault::HeldEmpty) && answer.start[k] == answer.end[k] {
            (answer.start[k], answer.end[k]) = (0, 0);
        }
        if planted(Fault::HeldNarrow) {
            answer.start[k] %= 1 << 16;
            answer.end[k] %= 1 << 16;
        }
    }
    if !rising {
        answer.number = 12;
    }
    answer
}
