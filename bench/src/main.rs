//! The library and the same algorithms in Rust, measured side by side. See README.md.

mod calls;
mod cases;
mod library;
mod same;
mod tables;
#[cfg(feature = "whole")]
mod weeks;

use calls::{Call, Side, CALLS, OTHERS};
use cases::{agree, Case};
use std::process::exit;
use std::time::{Duration, Instant};
use tables::Lists;

const LISTS: [u32; 2] = [8, 2];

/// How long one batch of calls lasts, and how many batches each side gets.
struct Effort {
    batch: Duration,
    rounds: usize,
}

const USUAL: Effort = Effort {
    batch: Duration::from_micros(500),
    rounds: 151,
};
const QUICK: Effort = Effort {
    batch: Duration::from_micros(200),
    rounds: 15,
};

fn time(call: Call, r: u32, side: Side, times: u64) -> Duration {
    let mut case = Case::new(call, r);
    let start = Instant::now();
    let last = case.run(call, side, times);
    let took = start.elapsed();
    assert_eq!(last, case.expected);
    took
}

/// How many calls fill a batch: by the best of some tries, as the machine may be busy.
fn batch(call: Call, r: u32, length: Duration) -> u64 {
    let mut times = 1;
    loop {
        let took = (0..5).map(|_| time(call, r, Side::Rust, times)).min();
        let took = took.unwrap_or_default().max(Duration::from_nanos(1));
        if took * 2 >= length || times >= 1 << 20 {
            let more = length.as_secs_f64() / took.as_secs_f64();
            return ((times as f64 * more) as u64).clamp(1, 1 << 20);
        }
        times *= 2;
    }
}

struct Times(Vec<f64>);

impl Times {
    fn best(&self) -> f64 {
        self.0.iter().copied().fold(f64::INFINITY, f64::min)
    }

    fn median(&self) -> f64 {
        let mut sorted = self.0.clone();
        sorted.sort_by(f64::total_cmp);
        sorted[sorted.len() / 2]
    }
}

/// The times of each side's call, taken in turns.
fn measure<const COUNT: usize>(
    sides: [(Call, Side); COUNT],
    r: u32,
    effort: &Effort,
) -> [Times; COUNT] {
    let batches = sides.map(|(call, _)| batch(call, r, effort.batch));
    let mut all = [(); COUNT].map(|_| Times(Vec::new()));
    for round in 0..effort.rounds {
        for turn in 0..COUNT {
            let i = (round + turn) % COUNT;
            let ((call, side), times) = (sides[i], batches[i]);
            let each = time(call, r, side, times).as_nanos() as f64 / times as f64;
            all[i].0.push(each);
        }
    }
    all
}

/// The table of the calls named, or of all; nothing if a name is unknown.
fn report(effort: &Effort, names: &[String]) -> Option<()> {
    let known = |name: &String| CALLS.iter().any(|(known, _)| known == name);
    if !names.iter().all(known) {
        return None;
    }
    println!(
        "{:<18} {:>1} {:>12} {:>12} {:>7} {:>12} {:>12} {:>7}",
        "call", "r", "library ns", "Rust ns", "ratio", "library med", "Rust med", "ratio"
    );
    for &(name, call) in CALLS {
        if !names.is_empty() && !names.iter().any(|given| given == name) {
            continue;
        }
        for r in LISTS {
            agree(name, call, r);
            let [ours, theirs] = measure([(call, Side::Library), (call, Side::Rust)], r, effort);
            println!(
                "{name:<18} {r:>1} {:>12.1} {:>12.1} {:>7.2} {:>12.1} {:>12.1} {:>7.2}",
                ours.best(),
                theirs.best(),
                ours.best() / theirs.best(),
                ours.median(),
                theirs.median(),
                ours.median() / theirs.median(),
            );
        }
    }
    Some(())
}

/// The audit with what the lists skip marked as ranges, beside the one that tests each member by itself up to the first pair
/// that skips it.
fn early(effort: &Effort) {
    println!(
        "{:<13} {:>1} {:>12} {:>12} {:>12} {:>14}",
        "lists", "r", "library ns", "ranges ns", "early ns", "early / ranges"
    );
    for (name, lists) in [
        ("settled", Lists::Settled),
        ("half settled", Lists::Half),
        ("random", Lists::Random),
    ] {
        for r in LISTS {
            let (ranges, early) = (Call::Audit(lists), Call::AuditEarly(lists));
            agree(name, ranges, r);
            agree(name, early, r);
            let sides = [
                (ranges, Side::Library),
                (ranges, Side::Rust),
                (early, Side::Rust),
            ];
            let [library, ranges, early] = measure(sides, r, effort).map(|times| times.best());
            println!(
                "{name:<13} {r:>1} {library:>12.1} {ranges:>12.1} {early:>12.1} {:>14.2}",
                early / ranges
            );
        }
    }
}

/// The rounds that each settling runs, beside those that are enough by the audit.
#[cfg(feature = "whole")]
fn rounds() {
    println!(
        "{:<13} {:>1} {:>8} {:>11} {:>7} {:>25} {:>12}",
        "call", "r", "members", "principals", "rounds", "members - principals + r", "members - 1"
    );
    for &(name, call) in CALLS {
        if !matches!(call, Call::Settle(_)) {
            continue;
        }
        for r in LISTS {
            agree(name, call, r);
            let case = Case::new(call, r);
            let [members, principals, ..] = same::audit(&case.table).values;
            println!(
                "{name:<13} {r:>1} {members:>8} {principals:>11} {:>7} {:>25} {:>12}",
                case.expected.values[0],
                members - principals + r,
                members - 1
            );
        }
    }
}

/// One call on one side only, so often: for a counter of instructions.
fn count(words: &[String]) -> Option<()> {
    let [name, r, side, times] = words else {
        return None;
    };
    let &(_, call) = CALLS.iter().chain(OTHERS).find(|(n, _)| n == name)?;
    let r = r.parse().ok().filter(|r| (1..=8).contains(r))?;
    let side = match side.as_str() {
        "library" => Side::Library,
        "rust" => Side::Rust,
        _ => return None,
    };
    let times: u64 = times.parse().ok().filter(|&t| t > 0)?;
    let mut case = Case::new(call, r);
    assert_eq!(case.run(call, side, times), case.expected);
    Some(())
}

fn main() {
    let words: Vec<String> = std::env::args().skip(1).collect();
    let done = match words.first().map(String::as_str) {
        Some("--quick") => report(&QUICK, &words[1..]),
        Some("--count") => count(&words[1..]),
        Some("--early") if words.len() == 1 => {
            early(&USUAL);
            Some(())
        }
        #[cfg(feature = "whole")]
        Some("--rounds") if words.len() == 1 => {
            rounds();
            Some(())
        }
        Some("--calls") if words.len() == 1 => {
            CALLS.iter().for_each(|(name, _)| println!("{name}"));
            Some(())
        }
        _ => report(&USUAL, &words),
    };
    if done.is_none() {
        eprintln!(
            "bench [--quick] [CALL...] | --early | --rounds | --calls | --count CALL R library|rust TIMES"
        );
        exit(2);
    }
}
