//! Compares the library under test with the reference.
//!
//! differential [ROUNDS [SEED]]        all rounds, or the first ROUNDS
//! differential --round NUMBER [SEED]  one round again
//! differential --trace NUMBER [SEED]  one round again, telling each call
//! differential --self-test            faults planted one at a time

use differential::calls::{LIBRARY, SECOND};
use differential::compare::{under_way, Compare, NAMES};
use differential::ffi;
use differential::rounds::{alone, round};
use differential::second::{plant, Fault, ALONE, FAULTS};
use std::process::ExitCode;
use std::sync::atomic::{AtomicU64, Ordering};
use std::time::Instant;

const ROUNDS: u64 = 14_000;
const SEED: u64 = 1;

/// From so many rounds on, every number of every call must have come up.
const ENOUGH: u64 = 1_000;

/// Rounds a planted fault may need, and those run without one.
const SELF_TEST_ROUNDS: u64 = 2_000;

fn usage() -> ExitCode {
    eprintln!(
        "usage: differential [ROUNDS [SEED]] | --round NUMBER [SEED] | --trace NUMBER [SEED] | --self-test"
    );
    ExitCode::from(2)
}

fn report(compare: &Compare, rounds: u64, seed: u64) {
    let calls: Vec<String> =
        NAMES.iter().zip(compare.counts).map(|(name, count)| format!("{name} {count}")).collect();
    println!(
        "equal: {} comparisons in {rounds} rounds, seed {seed}: {}; {}",
        compare.total(),
        calls.join(", "),
        compare.parts()
    );
}

/// The round under way.
static ROUND: AtomicU64 = AtomicU64::new(0);

/// Has a panic tell the round and the call, since it ends the program.
fn tell_panics(seed: u64) {
    let usual = std::panic::take_hook();
    std::panic::set_hook(Box::new(move |info| {
        let number = ROUND.load(Ordering::Relaxed);
        match under_way() {
            Some(name) => println!("PANIC of the library in {name}, round {number}, seed {seed}"),
            None => println!("PANIC of the harness, round {number}, seed {seed}"),
        }
        usual(info);
        std::process::exit(1);
    }));
}

fn differential(numbers: std::ops::Range<u64>, seed: u64, trace: bool) -> ExitCode {
    let start = Instant::now();
    eprintln!("under test: {}", ffi::UNDER_TEST);
    tell_panics(seed);
    let mut compare = Compare::new(&LIBRARY);
    compare.trace = trace;
    let rounds = numbers.end - numbers.start;
    for number in numbers {
        ROUND.store(number, Ordering::Relaxed);
        if let Err(text) = round(&mut compare, seed, number) {
            print!("{text}");
            return ExitCode::from(1);
        }
    }
    report(&compare, rounds, seed);
    eprint!("answers by number:\n{}", compare.numbers());
    eprintln!("{:.1} s", start.elapsed().as_secs_f64());
    if rounds >= ENOUGH {
        if let Some(what) = compare.never_met() {
            println!("NEVER MET: {what}");
            return ExitCode::from(1);
        }
    }
    ExitCode::SUCCESS
}

type Round = fn(&mut Compare, u64, u64) -> Result<(), String>;

/// The rounds until a difference shows: the comparisons made, and the first
/// line of what is told.
fn until_found(run: Round) -> Option<(u64, String)> {
    let mut compare = Compare::new(&SECOND);
    for number in 0..SELF_TEST_ROUNDS {
        if let Err(text) = run(&mut compare, SEED, number) {
            let line = text.lines().next().unwrap_or("").to_string();
            return Some((compare.total(), line));
        }
    }
    None
}

/// Plants a fault; says whether the rounds find it.
fn finds(fault: Fault, run: Round, told: &str) -> bool {
    let name = FAULTS.iter().find(|known| known.0 == fault).map_or("", |known| known.1);
    plant(fault);
    let found = until_found(run);
    plant(Fault::None);
    match found {
        Some((count, line)) if line.starts_with("DIFFERENCE") => {
            let at = if count > 0 { format!("comparison {count}, ") } else { String::new() };
            println!("{told}: {name} ({at}{})", &line[14..]);
            true
        }
        Some((_, line)) => {
            println!("NOT FOUND: {name} ({line})");
            false
        }
        None => {
            println!("NOT FOUND: {name}");
            false
        }
    }
}

fn self_test() -> ExitCode {
    let mut sound = true;
    plant(Fault::None);
    for run in [round as Round, alone] {
        match until_found(run) {
            None => println!("no fault: nothing found"),
            Some((_, line)) => {
                println!("no fault, yet: {line}");
                sound = false;
            }
        }
    }
    for &(fault, _) in FAULTS {
        sound &= finds(fault, round, "found");
    }
    for &fault in ALONE {
        sound &= finds(fault, alone, "found without the reference");
    }
    println!(
        "{} faults planted, {} of them found without the reference too",
        FAULTS.len(),
        ALONE.len()
    );
    if sound {
        ExitCode::SUCCESS
    } else {
        ExitCode::from(1)
    }
}

fn main() -> ExitCode {
    let arguments: Vec<String> = std::env::args().skip(1).collect();
    let number = |i: usize, default: u64| match arguments.get(i) {
        None => Some(default),
        Some(text) => text.parse().ok(),
    };
    match arguments.first().map(String::as_str) {
        Some("--self-test") if arguments.len() == 1 => self_test(),
        Some(mode @ ("--round" | "--trace")) if arguments.len() == 2 || arguments.len() == 3 => {
            match (number(1, 0), number(2, SEED)) {
                (Some(n), Some(seed)) if n < u64::MAX => {
                    differential(n..n + 1, seed, mode == "--trace")
                }
                _ => usage(),
            }
        }
        _ if arguments.len() <= 2 => match (number(0, ROUNDS), number(1, SEED)) {
            (Some(rounds), Some(seed)) => differential(0..rounds, seed, false),
            _ => usage(),
        },
        _ => usage(),
    }
}
