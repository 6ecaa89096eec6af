//! Service hours: the windows of a week, its open minutes, and settle at listed minutes.

use super::*;

/// "A minute of the week is 0 to 10079."
const WEEK: u32 = 10_080;

/// "There may be 0 to 16 windows, overlapping or not."
const MOST_WINDOWS: usize = 16;

/// "A window holds its start and not its end; where the end is below the start it runs over
/// the week's end."
struct Window {
    start: u32,
    end: u32,
}

impl Window {
    fn holds(&self, minute: u32) -> bool {
        if self.end < self.start {
            self.start <= minute || minute < self.end
        } else {
            self.start <= minute && minute < self.end
        }
    }
}

/// The windows, start and end by turns; nothing where 15 declines: "more than 16 windows, a
/// window with equal ends or a minute of the week over 10079", or a start without an end.
fn decode(words: &[u32]) -> Option<Vec<Window>> {
    if words.len() % 2 != 0 || words.len() / 2 > MOST_WINDOWS {
        return None;
    }
    let mut windows = Vec::new();
    for ends in words.chunks_exact(2) {
        let window = Window { start: ends[0], end: ends[1] };
        if window.start >= WEEK || window.end >= WEEK || window.start == window.end {
            return None;
        }
        windows.push(window);
    }
    Some(windows)
}

fn holds(windows: &[Window], minute: u32) -> bool {
    windows.iter().any(|window| window.holds(minute))
}

/// "whether a minute is open"
pub fn is_open(windows: &[u32], minute: u32) -> Answer {
    let Some(windows) = decode(windows).filter(|_| minute < WEEK) else {
        return decline(15);
    };
    accept(&[holds(&windows, minute) as u32])
}

/// "the first open minute at or after it going round, or none"
pub fn next_open(windows: &[u32], minute: u32) -> Answer {
    let Some(windows) = decode(windows).filter(|_| minute < WEEK) else {
        return decline(15);
    };
    let mut at = minute;
    for _ in 0..WEEK {
        if holds(&windows, at) {
            return accept(&[1, at]);
        }
        at = if at + 1 < WEEK { at + 1 } else { 0 };
    }
    accept(&[0])
}

/// "16, minutes out of order or out of range": "one strictly rising list of minutes counted
/// from a week's start, each below 4294967295".
fn are_listed(minutes: &[u32]) -> bool {
    minutes.windows(2).all(|pair| pair[0] < pair[1])
        && minutes.iter().all(|&minute| minute < 4_294_967_295)
}

/// "in list order it runs one round at each open minute, none at a closed one, and stops
/// early exactly when the verdict before a round is 2. It reports the rounds run, the verdict
/// and the sum of Req 06." "the minute of the week is the remainder by 10080". 15 and 16
/// "stand after 1, in this order, before 14".
pub fn settle_at(table: &mut [u32], windows: &[u32], minutes: &[u32]) -> Answer {
    let Some(mut t) = Table::decode(table) else {
        return decline(1);
    };
    let Some(windows) = decode(windows) else {
        return decline(15);
    };
    if !are_listed(minutes) {
        return decline(16);
    }
    if !t.is_sound() {
        return decline(14);
    }
    let passed = t.passed_by_all();
    let mut rounds = 0;
    for &minute in minutes {
        if !holds(&windows, minute % WEEK) {
            continue;
        }
        if t.is_at_two() {
            break;
        }
        t.run_round();
        rounds += 1;
    }
    t.put(table);
    accept(&[rounds, t.one_or_two(), passed])
}

#[cfg(test)]
mod hours {
    use super::*;

    /// The open minutes of the week.
    fn open(windows: &[u32]) -> Vec<u32> {
        (0..WEEK).filter(|&minute| is_open(windows, minute) == accept(&[1])).collect()
    }

    #[test]
    fn windows() {
        assert_eq!(open(&[]), []);
        assert_eq!(open(&[10, 13]), [10, 11, 12]);
        assert_eq!(open(&[10_078, 2]), [0, 1, 10_078, 10_079]);
        assert_eq!(open(&[10_079, 0]), [10_079]);
        // Overlapping, equal, side by side.
        assert_eq!(open(&[10, 13, 12, 14, 10, 13, 14, 15]), [10, 11, 12, 13, 14]);
        assert_eq!(open(&[1, 0]).len(), 10_079);
        assert_eq!(open(&[0, 5000, 5000, 0]).len(), 10_080);
        assert_eq!(open(&[3, 4].repeat(16)), [3]);
    }

    #[test]
    fn next() {
        for (minute, next) in [(0, 10), (9, 10), (10, 10), (12, 12), (13, 10_079), (10_079, 10_079)]
        {
            assert_eq!(next_open(&[10_079, 0, 10, 13], minute), accept(&[1, next]));
        }
        assert_eq!(next_open(&[10, 13], 13), accept(&[1, 10]));
        assert_eq!(next_open(&[9_000, 5], 10_079), accept(&[1, 10_079]));
        for minute in [0, 77, 10_079] {
            assert_eq!(next_open(&[], minute), accept(&[0]));
        }
    }

    #[test]
    fn fifteen() {
        let seventeen = [3, 4].repeat(17);
        let bad: [&[u32]; 9] = [
            &[3],
            &[3, 4, 5],
            &seventeen,
            &seventeen[..33],
            &[3, 3],
            &[1, 2, 0, 0],
            &[0, 10_080],
            &[10_080, 5],
            &[1, 2, 3, u32::MAX],
        ];
        let table = crate::reference::steps::settled::session();
        for windows in bad {
            assert_eq!(is_open(windows, 3), decline(15));
            assert_eq!(next_open(windows, 3), decline(15));
            assert_eq!(settle_at(&mut table.clone(), windows, &[]), decline(15));
        }
        for minute in [10_080, 10_083, 20_160, u32::MAX] {
            assert_eq!(is_open(&[3, 4], minute), decline(15));
            assert_eq!(next_open(&[3, 4], minute), decline(15));
        }
    }

    /// Three rounds make it ideal, and three entries are passed over.
    fn churned() -> [u32; 75] {
        let mut table = [0; 75];
        new(&mut table, 3, &[10, 20, 30, 40, 50, 60, 70, 80, 90]);
        for gone in [30, 60, 70] {
            fail(&mut table, gone);
        }
        table
    }

    #[test]
    fn rounds() {
        let last = u32::MAX - 1;
        // 4294967294 is minute 254 of its week.
        let cases: [(&[u32], &[u32], [u32; 2]); 9] = [
            (&[3, 5], &[], [0, 1]),
            (&[], &[1, 2, 3], [0, 1]),
            (&[3, 5], &[2, 5, 10_079, 10_082], [0, 1]),
            (&[3, 5], &[2, 3, 5, 10_084, 10_085], [2, 1]),
            (&[3, 5], &[3, 4, 10_083], [3, 2]),
            (&[3, 5], &[3, 4, 5, 6, 10_083, 10_084, 20_163], [3, 2]),
            (&[10_079, 1], &[10_078, 10_079, 10_080, 10_081], [2, 1]),
            (&[254, 255], &[254, last - 1, last], [2, 1]),
            (&[255, 254], &[254, last - 1, last], [1, 1]),
        ];
        for (windows, minutes, [ran, verdict]) in cases {
            let mut table = churned();
            assert_eq!(settle_at(&mut table, windows, minutes), accept(&[ran, verdict, 3]));
            let mut due = churned();
            assert_eq!(settle(&mut due, ran), accept(&[ran, verdict, 3]));
            assert_eq!(table, due);
        }
        // An ideal table gets no round.
        let mut table = churned();
        settle(&mut table, 9);
        let ideal = table;
        assert_eq!(settle_at(&mut table, &[1, 0], &[1, 2, 3]), accept(&[0, 2, 0]));
        assert_eq!(table, ideal);
    }

    #[test]
    fn refusals() {
        let tried = |words: &[u32], windows: &[u32], minutes: &[u32]| {
            let mut table = words.to_vec();
            let given = settle_at(&mut table, windows, minutes);
            assert_eq!(table, words);
            given
        };
        let table = churned();
        let short = &table[..50];
        let mut few = table;
        few[1] = 2;
        let (bad, late) = ([3, 3], [5, 5]);
        assert_eq!(tried(short, &bad, &late), decline(1));
        assert_eq!(tried(&few, &bad, &late), decline(15));
        assert_eq!(tried(&few, &[3, 4], &late), decline(16));
        assert_eq!(tried(&few, &[3, 4], &[5, 6]), decline(14));
        let lists: [&[u32]; 4] = [&[4, 4], &[5, 4], &[u32::MAX], &[3, 10_083, 20_163, 3]];
        for minutes in lists {
            assert_eq!(tried(&table, &[3, 4], minutes), decline(16));
            assert_eq!(tried(&table, &[], minutes), decline(16));
        }
    }
}
