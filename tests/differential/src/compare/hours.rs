//! Is open and next open: one call on both sides, every minute of a week on both sides, and what
//! a run must meet of windows and minutes, read off the words.

use super::shapes::Shapes;
use super::{kind, nothing, place, watched, Compare, Lent, Outcome, Piece, Result};
use crate::calls::{Calls, REFERENCE};
use crate::layout::{MOST_WINDOWS, WEEK};
use crate::random::mix;
use crate::reference::Answer;

/// What windows that are accepted must meet.
const WINDOWS: [&str; 15] = [
    "none",
    "one",
    "16",
    "one of one minute",
    "one of 10079 minutes",
    "one over the week's end",
    "one that ends with the week",
    "one that begins with the week",
    "the week's last minute alone",
    "two that overlap",
    "one within another",
    "one twice",
    "two side by side",
    "starts that do not rise",
    "the whole week",
];

/// What calls that 15 declines must meet; what stands alone is the only reason.
const DECLINED: [&str; 16] = [
    "a start without an end alone",
    "17 windows alone",
    "more than 17 windows alone",
    "equal ends alone",
    "equal ends alone, the first of several windows",
    "equal ends alone, the last of several windows",
    "equal ends of 0 alone",
    "a start of 10080 alone",
    "an end of 10080 alone",
    "a word over 10080 alone",
    "a word over 10080 with a minute as its low half alone",
    "the minute 10080 alone",
    "another minute over 10079 alone",
    "the minute 4294967295 alone",
    "the minute and the windows",
    "equal ends after a window that holds the minute",
];

/// What the answers of next open must meet.
const NEXT: [&str; 6] = [
    "the minute itself",
    "the one after it",
    "a later one",
    "one round the week's end",
    "10079 minutes ahead",
    "none",
];

/// Minutes that no week has.
pub const OVER: [u32; 5] = [WEEK, WEEK + 1, 2 * WEEK, 1 << 16, u32::MAX];

/// The two calls.
pub type Ask = fn(&Calls, &[u32], u32) -> Answer;

pub const ASKS: [(&str, Ask); 2] = [
    ("is_open", |calls, windows, minute| (calls.is_open)(windows, minute)),
    ("next_open", |calls, windows, minute| (calls.next_open)(windows, minute)),
];

/// The calls so far, and the weeks of which every minute was asked for.
pub struct Hours {
    windows: Shapes<{ WINDOWS.len() }>,
    declined: Shapes<{ DECLINED.len() }>,
    next: Shapes<{ NEXT.len() }>,
    pub weeks: u64,
}

/// The windows, and how many minutes each has. Those that are accepted alone.
fn lengths(words: &[u32]) -> Vec<(u32, u32)> {
    words.chunks_exact(2).map(|w| (w[0], (w[1] + WEEK - w[0]) % WEEK)).collect()
}

fn ahead(from: u32, to: u32) -> u32 {
    (to + WEEK - from) % WEEK
}

/// Why windows are declined: a start without an end, too many, equal ends, a word over 10079.
fn reasons(words: &[u32]) -> [bool; 4] {
    let odd = words.len() % 2 == 1;
    let equal = words.chunks_exact(2).any(|w| w[0] == w[1]);
    let many = words.len() / 2 > MOST_WINDOWS;
    [odd, many, equal, words.iter().any(|&word| word >= WEEK)]
}

impl Hours {
    pub fn new() -> Hours {
        Hours {
            windows: Shapes::new(WINDOWS),
            declined: Shapes::new(DECLINED),
            next: Shapes::new(NEXT),
            weeks: 0,
        }
    }

    pub fn never_met(&self) -> Option<&'static str> {
        self.windows.never_met().or(self.declined.never_met()).or(self.next.never_met())
    }

    pub fn told(&self) -> String {
        let [windows, declined, next] =
            [self.windows.told(), self.declined.told(), self.next.told()];
        let weeks = self.weeks;
        format!("{weeks} weeks; windows: {windows}; 15: {declined}; next open: {next}")
    }

    /// Counts windows that are accepted.
    fn count_windows(&mut self, words: &[u32]) {
        let all = lengths(words);
        let pairs = || (0..all.len()).flat_map(|i| (0..all.len()).map(move |k| (i, k)));
        let both = |is: &dyn Fn((u32, u32), (u32, u32)) -> bool| {
            pairs().any(|(i, k)| i != k && is(all[i], all[k]))
        };
        let any = |is: &dyn Fn(u32, u32) -> bool| all.iter().any(|w| is(w.0, w.1));
        let within = |a: (u32, u32), b: (u32, u32)| ahead(a.0, b.0) + b.1 <= a.1;
        // Some window holds the end of each, so none is left where it could be closed.
        let held = |minute: u32| all.iter().any(|w| ahead(w.0, minute) < w.1);
        let whole = !all.is_empty() && all.iter().all(|w| held((w.0 + w.1) % WEEK));
        self.windows.count([
            all.is_empty(),
            all.len() == 1,
            all.len() == MOST_WINDOWS,
            any(&|_, length| length == 1),
            any(&|_, length| length == WEEK - 1),
            any(&|start, length| start + length > WEEK),
            any(&|start, length| start + length == WEEK),
            any(&|start, _| start == 0),
            any(&|start, length| (start, length) == (WEEK - 1, 1)),
            both(&|a, b| ahead(a.0, b.0) < a.1 && !within(a, b) && !within(b, a)),
            both(&|a, b| a != b && within(a, b)),
            both(&|a, b| a == b),
            both(&|a, b| (a.0 + a.1) % WEEK == b.0),
            all.windows(2).any(|pair| pair[0].0 >= pair[1].0),
            whole,
        ]);
    }

    /// Counts a call that 15 declines.
    fn count_declined(&mut self, words: &[u32], minute: u32) {
        let all: Vec<&[u32]> = words.chunks_exact(2).collect();
        let [odd, many, equal, over] = reasons(words);
        let late = minute >= WEEK;
        let alone =
            |is: bool| is && [odd, many, equal, over, late].iter().filter(|&&b| b).count() == 1;
        let (equal_alone, over_alone, late_alone) = (alone(equal), alone(over), alone(late));
        let same = |w: &&[u32]| w[0] == w[1];
        let one = equal_alone && all.len() > 1 && all.iter().filter(|w| same(w)).count() == 1;
        let only = |w: Option<&&[u32]>| one && w.is_some_and(|w| same(w));
        let word = |is: &dyn Fn(u32) -> bool| over_alone && words.iter().any(|&word| is(word));
        let end = |at: usize| over_alone && all.iter().any(|w| w[at] == WEEK);
        let holds = |w: &&[u32]| ahead(w[0], minute) < ahead(w[0], w[1]);
        let before = all.iter().take_while(|w| !same(w));
        self.declined.count([
            alone(odd),
            alone(many) && all.len() == MOST_WINDOWS + 1,
            alone(many) && all.len() > MOST_WINDOWS + 1,
            equal_alone,
            only(all.first()),
            only(all.last()),
            equal_alone && all.iter().any(|w| w[0] == 0 && w[1] == 0),
            end(0),
            end(1),
            word(&|word| word > WEEK),
            word(&|word| word > WEEK && word & 0xffff < WEEK),
            late_alone && minute == WEEK,
            late_alone && minute > WEEK && minute < u32::MAX,
            late_alone && minute == u32::MAX,
            late && (odd || many || equal || over),
            equal_alone && before.into_iter().any(|w| holds(w)),
        ]);
    }

    fn count_next(&mut self, minute: u32, values: [u32; 4]) {
        let far = ahead(minute, values[1]);
        let some = values[0] == 1;
        self.next.count([
            some && far == 0,
            some && far == 1,
            some && far > 1,
            some && minute + far >= WEEK,
            some && far == WEEK - 1,
            !some,
        ]);
    }

    fn count(&mut self, name: &str, words: &[u32], minute: u32, answer: &Answer) {
        match answer.number {
            0 if name == "next_open" => self.count_next(minute, answer.values),
            0 => {}
            _ => self.count_declined(words, minute),
        }
    }
}

impl Compare {
    /// One of the two calls.
    fn asked(
        &mut self,
        (name, ask): (&str, Ask),
        windows: &Piece<u32>,
        minute: u32,
    ) -> Result<Outcome<u32, u32>> {
        let outcome =
            self.run(name, &[minute as u64], windows, &nothing(), |c, w, _| ask(c, w, minute))?;
        self.hours.count(name, windows.slice(), minute, &outcome.answer);
        if outcome.answer.number == 0 {
            self.hours.count_windows(windows.slice());
        }
        Ok(outcome)
    }

    pub fn is_open(&mut self, windows: &Piece<u32>, minute: u32) -> Result<Outcome<u32, u32>> {
        self.asked(ASKS[0], windows, minute)
    }

    pub fn next_open(&mut self, windows: &Piece<u32>, minute: u32) -> Result<Outcome<u32, u32>> {
        self.asked(ASKS[1], windows, minute)
    }

    /// Both calls with every minute of the week, and with minutes over it. The windows are lent
    /// once.
    pub fn week(&mut self, windows: &Piece<u32>) -> Result<()> {
        let mut lent = Lent::new(windows, mix(self.total()));
        let before = lent.all.clone();
        let words = windows.slice();
        for (name, ask) in ASKS {
            let index = place(name);
            for minute in (0..WEEK).chain(OVER) {
                let expected = ask(&REFERENCE, words, minute);
                let slice = &*lent.slice();
                let given = watched(index, || ask(self.under_test, slice, minute));
                if expected != given {
                    // Made once more, to tell it.
                    self.asked((name, ask), windows, minute)?;
                    return Err(format!("DIFFERENCE in {name}, {given:?} is not given twice\n"));
                }
                self.counts[index] += 1;
                self.numbers[index][kind(name, &expected)] += 1;
                self.hours.count(name, words, minute, &expected);
            }
        }
        if lent.all != before {
            return Err(format!(
                "DIFFERENCE in is_open or next_open, a word is written: {words:?}\n"
            ));
        }
        if reasons(words) == [false; 4] {
            self.hours.count_windows(words);
        }
        self.hours.weeks += 1;
        Ok(())
    }
}
