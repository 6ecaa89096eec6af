//! What is measured: for each call the buffers that it is made on, and the answer that it must give; and the comparison of both sides.

use crate::calls::{Call, Side};
use crate::same::{answer, Answer};
#[cfg(feature = "whole")]
use crate::same::{Finding, Runs};
use crate::tables::{identifiers, table, Lists, MEMBERS};
#[cfg(feature = "whole")]
use crate::weeks;
use crate::{library, same};
use std::hint::black_box;

#[cfg(feature = "whole")]
const BYTES: usize = 13325;

/// The buffers of one side, and the numbers of the call.
#[derive(Clone, PartialEq, Eq)]
pub struct Case {
    pub table: Vec<u32>,
    other: Vec<u32>,
    ids: Vec<u32>,
    #[cfg(feature = "whole")]
    keys: Vec<u32>,
    #[cfg(feature = "whole")]
    windows: Vec<u32>,
    #[cfg(feature = "whole")]
    minutes: Vec<u32>,
    #[cfg(feature = "whole")]
    findings: Vec<Finding>,
    #[cfg(feature = "whole")]
    image: Vec<u8>,
    r: u32,
    x: u32,
    y: u32,
    pub expected: Answer,
}

/// Strictly rising keys, evenly spread over the identifiers.
#[cfg(feature = "whole")]
fn rising_keys(count: usize) -> Vec<u32> {
    let gap = (1 << 32) / count as u64;
    (0..count as u64)
        .map(|i| (i * gap + gap / 2) as u32)
        .collect()
}

/// Runs as an answer: number, first positions and ends, the lists being short.
#[cfg(feature = "whole")]
fn as_answer(runs: Runs) -> Answer {
    let [start, end] = [runs.start, runs.end].map(|places| places.map(|place| place as u32));
    Answer {
        number: runs.number,
        values: [start[0], end[0], start[1], end[1]],
        count: 2 * runs.runs,
    }
}

impl Case {
    pub fn new(call: Call, r: u32) -> Case {
        let count = if call == Call::JoinFail {
            MEMBERS - 1
        } else {
            MEMBERS
        };
        let ids = identifiers(count);
        let lists = match call {
            Call::Audit(lists) | Call::AuditEarly(lists) => lists,
            #[cfg(feature = "whole")]
            Call::Settle(lists) => lists,
            #[cfg(feature = "whole")]
            Call::SettleClosed => Lists::Late,
            #[cfg(feature = "whole")]
            Call::SettleOpen => Lists::Lost,
            Call::LookupDead => Lists::Lost,
            _ => Lists::Settled,
        };
        let mut table = table(lists, r, &ids);
        let width = r as usize + 5;
        let at = |k: usize| 3 + k * width;
        let n = count as u32;
        let (mut x, mut y) = (ids[100], 0);
        #[cfg(feature = "whole")]
        let keys = match call {
            Call::Held(count) => rising_keys(count),
            _ => Vec::new(),
        };
        #[cfg(feature = "whole")]
        let minutes = match call {
            Call::SettleClosed => weeks::minutes(false, 1_000_000),
            Call::SettleOpen => weeks::minutes(true, 255),
            _ => Vec::new(),
        };
        let expected = match call {
            Call::New => answer(0, [n]),
            Call::JoinFail => {
                (x, y) = (ids[127] + 1, ids[127]);
                answer(0, [n])
            }
            Call::JoinDead => {
                // The loss leaves the member below it behind a dead first entry.
                assert_eq!(same::fail(&mut table, ids[128]), answer(0, [n - 1]));
                (x, y) = (ids[127] + 1, ids[127]);
                answer(13, [])
            }
            Call::StabilizeDone => answer(0, [2, ids[101]]),
            Call::StabilizeAgain => {
                // A list of r dead entries: each step drops one and appends another.
                for i in 0..r {
                    table[at(100) + 4 + i as usize] = x + 1 + i;
                }
                answer(0, [0])
            }
            Call::RectifySame => {
                y = ids[99];
                answer(0, [0])
            }
            Call::RectifyNew => {
                // A dead predecessor that notifies: it is written each time.
                y = ids[99] + 1;
                table[at(100) + 1] = y;
                answer(0, [1])
            }
            Call::Leave6 => {
                // The list of the last member has one live entry, the member that would leave.
                for i in 0..r {
                    table[at(MEMBERS - 1) + 4 + i as usize] = x + i;
                }
                answer(6, [])
            }
            Call::Leave7 => {
                // The lowest member's list skips all but the highest r, so r + 1 are principals.
                let first = MEMBERS - r as usize;
                for i in 0..r as usize {
                    table[at(0) + 4 + i] = ids[first + i];
                }
                x = ids[MEMBERS - 1];
                answer(7, [])
            }
            Call::LeaveOk => answer(0, [n - 1]),
            Call::Lookup => {
                y = x;
                answer(0, [x, ids[99], n - 1, 0])
            }
            Call::LookupDead => {
                // Each of the members that are left passes one over.
                y = x;
                answer(0, [x, ids[98], n / 2 - 1, n / 2])
            }
            Call::Audit(lists) | Call::AuditEarly(lists) => match lists {
                Lists::Settled => answer(0, [n, n, n, 2]),
                Lists::Late => answer(0, [n, n, n, 1]),
                Lists::Half => answer(0, [n, n / 2, n / 2, 1]),
                _ => same::audit(&table),
            },
            Call::Alike => answer(0, [1]),
            #[cfg(feature = "whole")]
            Call::Held(_) => {
                let up_to = |id: u32| keys.iter().filter(|&&key| key <= id).count() as u32;
                answer(0, [up_to(ids[99]), up_to(x)])
            }
            #[cfg(feature = "whole")]
            Call::PrincipalAll => answer(0, [1, n * r]),
            #[cfg(feature = "whole")]
            Call::PrincipalHalf => {
                // The list in the middle, of the members after the next, is the only one that skips the next.
                let middle = MEMBERS / 2;
                for i in 0..r as usize {
                    table[at(middle) + 4 + i] = ids[middle + 2 + i];
                }
                x = ids[middle + 1];
                answer(0, [0, middle as u32 * r + 1])
            }
            #[cfg(feature = "whole")]
            Call::Findings => answer(0, [n, n, n, 2]),
            #[cfg(feature = "whole")]
            Call::Round => answer(0, [2]),
            #[cfg(feature = "whole")]
            Call::Settle(_) => {
                x = u32::MAX;
                let told = same::settle(&mut table.clone(), x);
                let passed = if lists == Lists::Lost { n / 2 } else { 0 };
                assert_eq!(
                    (told.number, told.values[1..3].to_vec()),
                    (0, vec![2, passed])
                );
                told
            }
            #[cfg(feature = "whole")]
            Call::IsOpen => {
                // The last window alone holds it.
                x = 29;
                answer(0, [1])
            }
            #[cfg(feature = "whole")]
            Call::NextOpen => {
                // Between the last two windows.
                x = weeks::WEEK - 90;
                answer(0, [1, weeks::WEEK - 30])
            }
            #[cfg(feature = "whole")]
            Call::SettleClosed => answer(0, [0, 1, 0]),
            // Each member's list has one right entry more after each round.
            #[cfg(feature = "whole")]
            Call::SettleOpen => answer(0, [r, 2, n / 2]),
            #[cfg(feature = "whole")]
            Call::ImageWrite => answer(0, [13 + n * (20 + 4 * r)]),
            #[cfg(feature = "whole")]
            Call::ImageRead => answer(0, [n]),
            Call::Restore => answer(0, []),
        };
        #[cfg(feature = "whole")]
        let image = {
            let mut image = vec![0; BYTES];
            if call == Call::ImageRead {
                let written = same::image_write(&table, &mut image);
                image.truncate(written.values[0] as usize);
            }
            image
        };
        let mut other = table.clone();
        if call == Call::Alike {
            // Each count differs, so that a comparison of whole records would end at the first.
            for k in 1..=count {
                other[at(k) - 1] = k as u32;
            }
        }
        Case {
            table,
            other,
            ids,
            #[cfg(feature = "whole")]
            keys,
            #[cfg(feature = "whole")]
            windows: weeks::windows(),
            #[cfg(feature = "whole")]
            minutes,
            #[cfg(feature = "whole")]
            findings: vec![Finding::default(); MEMBERS],
            #[cfg(feature = "whole")]
            image,
            r,
            x,
            y,
            expected,
        }
    }

    pub fn run(&mut self, call: Call, side: Side, times: u64) -> Answer {
        match side {
            Side::Library => run_library(self, call, times),
            Side::Rust => run_rust(self, call, times),
        }
    }
}

// The same loop over both modules, so that each call is a direct one.
macro_rules! runner {
    ($name:ident, $side:ident) => {
        #[inline(never)]
        fn $name(case: &mut Case, call: Call, times: u64) -> Answer {
            let (x, y) = (case.x, case.y);
            let (table, other) = (&mut case.table[..], &mut case.other[..]);
            let mut last = Answer::default();
            macro_rules! repeat {
                ($body:expr) => {
                    for _ in 0..times {
                        last = black_box($body);
                    }
                };
            }
            match call {
                Call::New => {
                    repeat!($side::new(
                        black_box(table),
                        black_box(case.r),
                        black_box(&case.ids)
                    ))
                }
                Call::JoinFail => repeat!({
                    black_box($side::join(black_box(table), black_box(x), black_box(y)));
                    $side::fail(black_box(table), black_box(x))
                }),
                Call::JoinDead => {
                    repeat!($side::join(black_box(table), black_box(x), black_box(y)))
                }
                Call::StabilizeDone | Call::StabilizeAgain => {
                    repeat!($side::stabilize(black_box(table), black_box(x)))
                }
                Call::RectifySame | Call::RectifyNew => {
                    repeat!($side::rectify(black_box(table), black_box(x), black_box(y)))
                }
                Call::Leave6 | Call::Leave7 => {
                    repeat!($side::leave(black_box(table), black_box(x)))
                }
                Call::LeaveOk => repeat!({
                    let answer = $side::leave(black_box(table), black_box(x));
                    table.copy_from_slice(black_box(other));
                    answer
                }),
                Call::Lookup | Call::LookupDead => {
                    repeat!($side::lookup(black_box(table), black_box(x), black_box(y)))
                }
                Call::Audit(_) => repeat!($side::audit(black_box(table))),
                Call::AuditEarly(_) => repeat!($side::audit_early(black_box(table))),
                Call::Alike => repeat!($side::alike(black_box(table), black_box(other))),
                #[cfg(feature = "whole")]
                Call::Held(_) => {
                    let mut runs = Runs::default();
                    for _ in 0..times {
                        runs = black_box($side::held(
                            black_box(table),
                            black_box(x),
                            black_box(&case.keys),
                        ));
                    }
                    last = as_answer(runs);
                }
                #[cfg(feature = "whole")]
                Call::PrincipalAll | Call::PrincipalHalf => {
                    repeat!($side::principal(black_box(table), black_box(x)))
                }
                #[cfg(feature = "whole")]
                Call::Findings => {
                    repeat!($side::findings(
                        black_box(table),
                        black_box(&mut case.findings)
                    ))
                }
                #[cfg(feature = "whole")]
                Call::Round => repeat!($side::round(black_box(table))),
                #[cfg(feature = "whole")]
                Call::Settle(_) => repeat!({
                    let answer = $side::settle(black_box(table), black_box(x));
                    table.copy_from_slice(black_box(other));
                    answer
                }),
                #[cfg(feature = "whole")]
                Call::IsOpen => repeat!($side::is_open(black_box(&case.windows), black_box(x))),
                #[cfg(feature = "whole")]
                Call::NextOpen => repeat!($side::next_open(black_box(&case.windows), black_box(x))),
                #[cfg(feature = "whole")]
                Call::SettleClosed | Call::SettleOpen => repeat!({
                    let (windows, minutes) = (black_box(&case.windows), black_box(&case.minutes));
                    let answer = $side::settle_at(black_box(table), windows, minutes);
                    table.copy_from_slice(black_box(other));
                    answer
                }),
                #[cfg(feature = "whole")]
                Call::ImageWrite => {
                    repeat!($side::image_write(
                        black_box(table),
                        black_box(&mut case.image)
                    ))
                }
                #[cfg(feature = "whole")]
                Call::ImageRead => {
                    repeat!($side::image_read(black_box(table), black_box(&case.image)))
                }
                Call::Restore => repeat!({
                    table.copy_from_slice(black_box(other));
                    Answer::default()
                }),
            }
            last
        }
    };
}

runner!(run_library, library);
runner!(run_rust, same);

/// Both sides a few times, one call at a time: answers and buffers must be equal.
pub fn agree(name: &str, call: Call, r: u32) {
    let mut ours = Case::new(call, r);
    let mut theirs = ours.clone();
    for time in 0..5 {
        let a = ours.run(call, Side::Library, 1);
        let b = theirs.run(call, Side::Rust, 1);
        assert_eq!(
            a, ours.expected,
            "{name}, r = {r}, time {time}: the library's answer"
        );
        assert_eq!(
            b, ours.expected,
            "{name}, r = {r}, time {time}: the Rust side's answer"
        );
        assert!(
            ours == theirs,
            "{name}, r = {r}, time {time}: the buffers differ"
        );
        steps(name, r, &ours, &theirs);
    }
}

/// The calls that a case makes in one go, looked at one by one.
fn steps(name: &str, r: u32, ours: &Case, theirs: &Case) {
    let (mut a, mut b) = (ours.table.clone(), theirs.table.clone());
    let differ = |what: &str| format!("{name}, r = {r}: {what} differs");
    match name {
        "join-fail" => {
            let (p, q) = (
                library::join(&mut a, ours.x, ours.y),
                same::join(&mut b, ours.x, ours.y),
            );
            assert!(p.number == 0 && p == q && a == b, "{}", differ("join"));
        }
        "leave-accepted" => {
            let (p, q) = (library::leave(&mut a, ours.x), same::leave(&mut b, ours.x));
            assert!(p.number == 0 && p == q && a == b, "{}", differ("leave"));
        }
        #[cfg(feature = "whole")]
        "settle-churn" | "settle-worst" => {
            let (p, q) = (
                library::settle(&mut a, ours.x),
                same::settle(&mut b, ours.x),
            );
            assert!(p.number == 0 && p == q && a == b, "{}", differ("settle"));
        }
        #[cfg(feature = "whole")]
        "settle-at-closed" | "settle-at-churn" => {
            let (p, q) = (
                library::settle_at(&mut a, &ours.windows, &ours.minutes),
                same::settle_at(&mut b, &ours.windows, &ours.minutes),
            );
            assert!(p.number == 0 && p == q && a == b, "{}", differ("settle at"));
        }
        _ => {}
    }
}
