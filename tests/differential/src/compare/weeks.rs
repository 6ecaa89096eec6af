//! Service hours by the library alone, read off its own answers.
//! - A window alone holds its start and the minute before its end, neither its end nor the minute
//!   before its start, and as many minutes as lie from one to the other.
//! - Of several windows a minute is open where it is by one of them alone.
//! - Next open gives none exactly where there is no window; else a minute that is open, and from
//!   the one asked for up to it no minute is: that one, or the next start.
//! - 15 declines both calls with each minute over 10079, and with damaged windows whatever the
//!   minute.
//! - Settle with windows leaves the words of single rounds, one at each listed minute whose
//!   remainder is open, up to the first at which the verdict is 2; it reports how many they are,
//!   the audit's verdict then, and the sum that settle tells as it begins. Settle with the number
//!   of open minutes as its limit does the same; members - principals + r of them bring verdict 2.
//! - 1 declines it where it does the audit, else 15 where it does is open, else 16 where the
//!   minutes do not rise or one is 4294967295, else 14 where the verdict is 0; that writes nothing.

use super::hours::{Ask, ASKS, OVER};
use super::lone::Lone;
use super::shapes::Shapes;
use super::{place, watched, Compare, Lent, Piece, Result};
use crate::calls::Calls;
use crate::layout::{R, WEEK};
use crate::make;
use crate::random::Random;
use crate::reference::Answer;

/// What the windows and settlings must meet.
const SHAPES: [&str; 25] = [
    "no window",
    "one window",
    "16 windows",
    "all minutes open",
    "next open, the minute itself",
    "next open, round the week's end",
    "next open, none",
    "15, a minute over 10079",
    "15, windows",
    "1",
    "1 where 15 and 16 apply too",
    "15",
    "15 where 16 and 14 apply too",
    "16",
    "16 where 14 applies too",
    "14",
    "no minute listed",
    "closed minutes alone",
    "verdict 2 as it begins, open minutes",
    "verdict 2 before the last open minute",
    "verdict 2 by the last open minute",
    "verdict 1 at the end of the list",
    "members - principals + r open minutes",
    "members - principals + r open minutes but one, verdict 1",
    "rounds in several weeks",
];

/// So many windows alone are asked for every minute of the week.
const FEW: usize = 2;

/// What was made so far.
pub struct Weeks {
    shapes: Shapes<{ SHAPES.len() }>,
    pub asked: u64,
    pub settlings: u64,
}

impl Weeks {
    pub fn new() -> Weeks {
        Weeks { shapes: Shapes::new(SHAPES), asked: 0, settlings: 0 }
    }

    pub fn never_met(&self) -> Option<&'static str> {
        self.shapes.never_met()
    }

    pub fn told(&self) -> String {
        self.shapes.told()
    }
}

/// Words between guards that the library alone is lent.
struct Words {
    calls: &'static Calls,
    trace: bool,
    lent: Lent<u32>,
    before: Vec<u32>,
}

impl Words {
    fn new(compare: &Compare, random: &mut Random, piece: &Piece<u32>) -> Words {
        let lent = Lent::new(piece, random.next());
        let before = lent.all.clone();
        Words { calls: compare.under_test, trace: compare.trace, lent, before }
    }

    fn slice(&self) -> &[u32] {
        &self.lent.all[self.lent.start..self.lent.start + self.lent.len]
    }

    fn wrong<T>(&self, name: &str, what: String) -> Result<T> {
        Err(format!("DIFFERENCE in {name}, {what}\n  windows {:?}\n", self.slice()))
    }

    /// Nothing was written.
    fn are_kept(&self) -> Result<()> {
        match self.lent.all == self.before {
            true => Ok(()),
            false => self.wrong("one of these calls", "a word is written".to_string()),
        }
    }

    fn ask(&self, (name, ask): (&str, Ask), minute: u32) -> Answer {
        if self.trace {
            eprintln!("{name} {minute}\n  windows {:?}", self.slice());
        }
        watched(place(name), || ask(self.calls, self.slice(), minute))
    }

    /// Is a minute open?
    fn is_open(&self, minute: u32) -> Result<bool> {
        match self.ask(ASKS[0], minute) {
            Answer { number: 0, values: [open @ 0..=1, 0, 0, 0], count: 1 } => Ok(open == 1),
            given => self.wrong("is_open", format!("{minute} is given {given:?}")),
        }
    }

    /// The next open minute.
    fn next_open(&self, minute: u32) -> Result<Option<u32>> {
        match self.ask(ASKS[1], minute) {
            Answer { number: 0, values: [0, 0, 0, 0], count: 1 } => Ok(None),
            Answer { number: 0, values: [1, next, 0, 0], count: 2 } => Ok(Some(next)),
            given => self.wrong("next_open", format!("{minute} is given {given:?}")),
        }
    }

    /// 15 declines both calls.
    fn are_declined(&self, minute: u32) -> Result<()> {
        for ask in ASKS {
            let given = self.ask(ask, minute);
            if given != (Answer { number: 15, values: [0; 4], count: 0 }) {
                return self.wrong(ask.0, format!("{minute} is given {given:?}, not 15"));
            }
        }
        Ok(())
    }

    /// The open minutes of the week.
    fn week(&self) -> Result<Vec<bool>> {
        (0..WEEK).map(|minute| self.is_open(minute)).collect()
    }
}

/// The first open minute at or after each, going round.
fn firsts(open: &[bool]) -> Vec<Option<u32>> {
    let mut firsts = vec![None; open.len()];
    let mut next = None;
    for _ in 0..2 {
        for minute in (0..open.len()).rev() {
            if open[minute] {
                next = Some(minute as u32);
            }
            firsts[minute] = next;
        }
    }
    firsts
}

impl Compare {
    /// One window alone: its ends, and how many minutes it holds.
    fn window(&self, random: &mut Random, window: &[u32], whole: bool) -> Result<Words> {
        let words = Words::new(self, random, &Piece::whole(window.to_vec()));
        let [start, end] = [window[0], window[1]];
        let before = |minute: u32| (minute + WEEK - 1) % WEEK;
        for (minute, due) in
            [(start, true), (before(end), true), (end, false), (before(start), false)]
        {
            if words.is_open(minute)? != due {
                return words.wrong("is_open", format!("{minute} is given {}", !due));
            }
        }
        if whole {
            let count = words.week()?.iter().filter(|&&open| open).count() as u32;
            let due = (end + WEEK - start) % WEEK;
            if count != due {
                return words.wrong("is_open", format!("{count} minutes are open, not {due}"));
            }
        }
        Ok(words)
    }

    /// A minute by several windows, where it is open by one of them alone.
    fn by_one(&mut self, words: &Words, each: &[Words], minute: u32) -> Result<()> {
        let mut alone = false;
        for window in each {
            alone |= window.is_open(minute)?;
        }
        if words.is_open(minute)? != alone {
            return words.wrong("is_open", format!("{minute} is given {}", !alone));
        }
        // Where it is closed, the next open one is the next start.
        let starts = words.slice().chunks_exact(2).map(|w| (w[0] + WEEK - minute) % WEEK);
        let due = match alone {
            true => Some(minute),
            false => starts.min().map(|ahead| (minute + ahead) % WEEK),
        };
        let next = words.next_open(minute)?;
        if next != due {
            return words.wrong("next_open", format!("{minute} is given {next:?}, not {due:?}"));
        }
        self.weeks.asked += 1;
        let round = due.is_some_and(|next| next < minute);
        self.weeks.shapes.meet_each(&[
            (alone, "next open, the minute itself"),
            (round, "next open, round the week's end"),
            (due.is_none(), "next open, none"),
        ]);
        Ok(())
    }

    /// Every minute of the week.
    fn whole_week(&mut self, words: &Words) -> Result<()> {
        let open = words.week()?;
        for (minute, due) in (0..).zip(firsts(&open)) {
            let next = words.next_open(minute)?;
            if next != due {
                return words
                    .wrong("next_open", format!("{minute} is given {next:?}, not {due:?}"));
            }
        }
        self.weeks.asked += WEEK as u64;
        let all = open.iter().all(|&open| open);
        self.weeks.shapes.meet_each(&[(all, "all minutes open")]);
        Ok(())
    }

    /// Windows that must be accepted, each alone and all together, with some minutes and with
    /// those over the week, or with every minute too.
    fn good_week(&mut self, random: &mut Random, windows: &Piece<u32>, whole: bool) -> Result<()> {
        let words = Words::new(self, random, windows);
        let mut each = Vec::new();
        for window in windows.slice().chunks_exact(2) {
            each.push(self.window(random, window, whole && each.len() < FEW)?);
        }
        let some: Vec<u32> = (0..30).map(|_| make::asked(random, windows.slice()) % WEEK).collect();
        for minute in some.into_iter().chain(windows.slice().iter().copied()) {
            self.by_one(&words, &each, minute)?;
        }
        if whole {
            self.whole_week(&words)?;
        }
        let over = WEEK + random.word() % (u32::MAX - WEEK);
        for minute in OVER.into_iter().chain([over]) {
            words.are_declined(minute)?;
        }
        self.weeks.shapes.meet_each(&[
            (each.is_empty(), "no window"),
            (each.len() == 1, "one window"),
            (each.len() == 16, "16 windows"),
            (true, "15, a minute over 10079"),
        ]);
        words.are_kept()
    }

    /// Some windows, sometimes with every minute of the week, none, and damaged ones.
    pub fn weeks(&mut self, random: &mut Random, whole: bool) -> Result<()> {
        let windows = make::good_windows(random);
        self.good_week(random, &windows, whole)?;
        let none = make::no_windows(random);
        self.good_week(random, &none, false)?;
        for _ in 0..6 {
            let windows = make::bad_windows(random);
            let words = Words::new(self, random, &windows);
            let some: Vec<u32> = windows.slice().iter().copied().take(4).collect();
            let minutes = [0, WEEK - 1, make::asked(random, windows.slice())];
            for minute in minutes.into_iter().chain(some) {
                words.are_declined(minute)?;
            }
            words.are_kept()?;
            self.weeks.shapes.meet("15, windows");
        }
        Ok(())
    }
}

/// Lists that settle with windows is lent.
struct Lists {
    windows: Words,
    minutes: Words,
}

/// The audit of a table that settle with windows is called on.
type Audit = Answer;

impl Lists {
    fn call(&self, table: &mut Lone) -> Result<Answer> {
        let (windows, minutes) = (self.windows.slice(), self.minutes.slice());
        let given = table.call("settle_at", &[], |c, t| (c.settle_at)(t, windows, minutes))?;
        self.windows.are_kept()?;
        self.minutes.are_kept()?;
        Ok(given)
    }

    fn wrong<T>(&self, table: &Lone, what: String) -> Result<T> {
        let lists = [&self.windows, &self.minutes].map(|list| list.slice().to_vec());
        let [windows, minutes] = lists;
        table.wrong("settle_at", format!("{what}\n  windows {windows:?}\n  minutes {minutes:?}"))
    }

    /// Why a call is declined, in the order of the numbers.
    fn causes(&self, audit: &Audit) -> [(u32, bool); 4] {
        let minutes = self.minutes.slice();
        let rises = minutes.windows(2).all(|pair| pair[0] < pair[1]);
        let fifteen = self.windows.ask(ASKS[0], 0).number != 0;
        [
            (1, audit.number == 1),
            (15, fifteen),
            (16, !rises || minutes.contains(&u32::MAX)),
            (14, audit.number == 0 && audit.values[3] == 0),
        ]
    }
}

impl Weeks {
    /// A call that is declined by the first of these causes that applies.
    fn declined(&mut self, start: &Lone, lists: &Lists, causes: [(u32, bool); 4]) -> Result<()> {
        let mut table = start.clone();
        let given = lists.call(&mut table)?;
        let numbers: Vec<u32> =
            causes.iter().filter(|cause| cause.1).map(|cause| cause.0).collect();
        let due = Answer { number: numbers[0], values: [0; 4], count: 0 };
        if given != due || !table.equals(start) {
            return lists.wrong(start, format!("is given {given:?}, not {due:?}, or writes"));
        }
        let are = |due: &[u32]| numbers == due;
        self.shapes.meet_each(&[
            (are(&[1]), "1"),
            (are(&[1, 15, 16]), "1 where 15 and 16 apply too"),
            (are(&[15]), "15"),
            (are(&[15, 16, 14]), "15 where 16 and 14 apply too"),
            (are(&[16]), "16"),
            (are(&[16, 14]), "16 where 14 applies too"),
            (are(&[14]), "14"),
        ]);
        Ok(())
    }

    /// A call on a sound table, held to single rounds and to settle.
    fn accepted(&mut self, start: &Lone, lists: &Lists, audit: &Audit) -> Result<()> {
        let minutes = lists.minutes.slice();
        let verdict = |table: &mut Lone| table.accepted("audit", &[], |c, t| (c.audit)(t));
        let (mut single, mut ran, mut open) = (start.clone(), Vec::new(), 0);
        let mut ideal = audit.values[3] == 2;
        for &minute in minutes {
            if !lists.windows.is_open(minute % WEEK)? {
                continue;
            }
            open += 1;
            if !ideal {
                single.accepted("round", &[], |c, t| (c.round)(t))?;
                ran.push(minute / WEEK);
                ideal = verdict(&mut single)?[3] == 2;
            }
        }
        let [s, principals, _, began] = audit.values;
        let enough = s - principals + start.words()[R];
        let mut settled = start.clone();
        let told = settled.accepted("settle", &[open], |c, t| (c.settle)(t, open))?;
        let sum = start.clone().accepted("settle", &[0], |c, t| (c.settle)(t, 0))?[2];
        let due = [ran.len() as u32, 1 + ideal as u32, sum, 0];
        let mut table = start.clone();
        let given = lists.call(&mut table)?;
        if given != (Answer { number: 0, values: due, count: 3 }) || told != due {
            let what = format!("is given {given:?}, settle {told:?}, and {due:?} is due");
            return lists.wrong(start, what);
        }
        if !table.equals(&single) || !settled.equals(&single) {
            let [at, of] = [&table, &settled].map(|table| single.differences(table));
            return lists.wrong(start, format!("other words than its rounds\n{at}\n{of}"));
        }
        if open >= enough && !ideal {
            return lists.wrong(start, format!("{open} rounds, {enough} are enough: {given:?}"));
        }
        self.settlings += 1;
        let rounds = ran.len() as u32;
        ran.dedup();
        self.shapes.meet_each(&[
            (minutes.is_empty(), "no minute listed"),
            (!minutes.is_empty() && open == 0, "closed minutes alone"),
            (began == 2 && open > 0, "verdict 2 as it begins, open minutes"),
            (began == 1 && rounds < open, "verdict 2 before the last open minute"),
            (began == 1 && rounds == open && ideal, "verdict 2 by the last open minute"),
            (rounds > 0 && !ideal, "verdict 1 at the end of the list"),
            (began == 1 && open == enough, "members - principals + r open minutes"),
            (
                rounds > 0 && rounds + 1 == enough && !ideal,
                "members - principals + r open minutes but one, verdict 1",
            ),
            (ran.len() > 1, "rounds in several weeks"),
        ]);
        Ok(())
    }
}

impl Compare {
    /// One call on a table.
    fn lone_settle_at(
        &mut self,
        random: &mut Random,
        start: &Lone,
        audit: &Audit,
        [windows, minutes]: [&Piece<u32>; 2],
    ) -> Result<()> {
        let windows = Words::new(self, random, windows);
        let minutes = Words::new(self, random, minutes);
        let lists = Lists { windows, minutes };
        let causes = lists.causes(audit);
        match causes.iter().any(|cause| cause.1) {
            true => self.weeks.declined(start, &lists, causes),
            false => self.weeks.accepted(start, &lists, audit),
        }
    }

    /// Settle with windows on a table, with windows and minutes as they must be and damaged, in
    /// all four ways; before that, where it is sound, with as many open minutes as are enough, or
    /// one fewer.
    fn lone_settles_at(&mut self, random: &mut Random, words: Vec<u32>) -> Result<()> {
        let start = Lone::new(self, random, words);
        let audit = start.clone().call("audit", &[], |c, t| (c.audit)(t))?;
        let good = make::good_windows(random);
        if audit.number == 0 && audit.values[3] > 0 {
            let [s, principals, ..] = audit.values;
            let enough = (s - principals + start.words()[R]) as usize;
            let (open, closed) = (enough - random.below(2), random.below(5));
            let list = make::minutes_of(random, good.slice(), open, closed);
            let minutes = make::lent_minutes(random, list);
            self.lone_settle_at(random, &start, &audit, [&good, &minutes])?;
        }
        let lists = make::minutes_both(random, good.slice());
        for windows in [good, make::bad_windows(random)] {
            for minutes in &lists {
                self.lone_settle_at(random, &start, &audit, [&windows, minutes])?;
            }
        }
        Ok(())
    }

    /// The same of a sound table, and of one that may not be.
    pub fn settles_at(&mut self, random: &mut Random) -> Result<()> {
        let r = random.range(1, 8);
        let n = r + 1 + random.below(8);
        let table = make::sound(random, r, n).words();
        self.lone_settles_at(random, table)?;
        let other = match random.one_in(2) {
            true => make::malformed(random).slice().to_vec(),
            false => make::well_formed(random, None).words(),
        };
        self.lone_settles_at(random, other)
    }
}
