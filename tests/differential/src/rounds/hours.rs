//! The rounds of service hours: every minute of the week with windows of every sort; settle with
//! windows on tables of every sort, with lists of every sort, and what declines it, alone and
//! together.

use super::settle::{changed, churned};
use super::*;
use crate::layout::{R, WEEK};

/// Settle with windows on any table, and the other calls with the same windows; next open, which
/// takes long with few open minutes, in one of four.
pub fn hours_calls(compare: &mut Compare, random: &mut Random, t: &Piece<u32>) -> Result {
    let [windows, minutes] = make::hours(random, 4);
    compare.settle_at(t, &windows, &minutes)?;
    let minute = make::asked(random, windows.slice());
    compare.is_open(&windows, minute)?;
    if random.one_in(4) {
        compare.next_open(&windows, minute)?;
    }
    Ok(())
}

/// Every minute of the week. Where much of it is closed, that takes long, so such windows come in
/// one of sixteen only.
fn week(compare: &mut Compare, random: &mut Random) -> Result {
    let mut windows = make::good_windows(random);
    if !random.one_in(16) {
        while make::are_sparse(windows.slice()) {
            windows = make::good_windows(random);
        }
    }
    compare.week(&windows)?;
    if random.one_in(4) {
        compare.week(&make::bad_windows(random))?;
    }
    Ok(())
}

/// Some minutes, with windows as they must be and with damaged ones.
fn some_minutes(compare: &mut Compare, random: &mut Random) -> Result {
    for number in 0..24 {
        let windows = match number % 3 {
            0 => make::good_windows(random),
            _ => make::bad_windows(random),
        };
        for _ in 0..3 {
            let minute = make::asked(random, windows.slice());
            compare.is_open(&windows, minute)?;
            compare.next_open(&windows, minute)?;
        }
    }
    let windows = make::one_minute(random);
    let start = windows.slice()[0];
    for minute in [start, start + 1, start + WEEK - 1, 0, WEEK - 1] {
        compare.is_open(&windows, minute % WEEK)?;
        compare.next_open(&windows, minute % WEEK)?;
    }
    Ok(())
}

/// Lists with open minutes as many as are needed, as many as are enough, and near that.
fn exact(compare: &mut Compare, random: &mut Random, t: &Piece<u32>) -> Result {
    let [n, principals, ..] = reference::audit(t.slice()).values;
    let enough = (n - principals + t.slice()[R]) as usize;
    let needed = reference::settle(&mut t.slice().to_vec(), n).values[0] as usize;
    for open in [needed, needed.saturating_sub(1), needed + random.range(1, 3), enough, enough - 1]
    {
        let windows = make::good_windows(random);
        let closed = random.below(2) * random.below(6);
        let list = make::minutes_of(random, windows.slice(), open, closed);
        compare.settle_at(t, &windows, &make::lent_minutes(random, list))?;
    }
    Ok(())
}

/// Windows and minutes, each as it must be and damaged, in all four ways.
fn causes(compare: &mut Compare, random: &mut Random, t: &Piece<u32>) -> Result {
    let good = make::good_windows(random);
    let lists = make::minutes_both(random, good.slice());
    for windows in [good, make::bad_windows(random)] {
        for minutes in &lists {
            compare.settle_at(t, &windows, minutes)?;
        }
    }
    Ok(())
}

/// Minutes that are open, and after more than enough of them one that is out of order.
fn late(compare: &mut Compare, random: &mut Random, t: &Piece<u32>) -> Result {
    let windows = make::good_windows(random);
    let open = t.slice()[layout::COUNT] as usize + 2;
    let mut list = make::minutes_of(random, windows.slice(), open, 2);
    if let Some(&last) = list.last() {
        list.push(random.pick(&[last, last - 1, u32::MAX, 0]));
    }
    compare.settle_at(t, &windows, &make::lent_minutes(random, list))?;
    Ok(())
}

/// A long list, of which one pair may be out of order.
fn long(compare: &mut Compare, random: &mut Random, t: &Piece<u32>) -> Result {
    let windows = make::good_windows(random);
    let length = if random.one_in(8) { 70_000 } else { random.range(1_000, 3_000) };
    let step = random.pick(&[1, 2, 61, 1439]);
    let first = random.word() % (u32::MAX - 70_000 * 1439);
    let mut list: Vec<u32> = (0..length).map(|k| first + step * k as u32).collect();
    compare.settle_at(t, &windows, &make::lent_minutes(random, list.clone()))?;
    make::damage_minutes(random, &mut list);
    compare.settle_at(t, &windows, &make::lent_minutes(random, list))?;
    Ok(())
}

pub fn hours(compare: &mut Compare, random: &mut Random) -> Result {
    match random.below(3) {
        0 => week(compare, random)?,
        sort => compare.weeks(random, sort == 1)?,
    }
    some_minutes(compare, random)?;
    for number in 0..3 {
        let r = if random.one_in(6) { 8 } else { random.range(1, 8) };
        let n = if random.one_in(4) { r + 1 } else { r + 1 + random.below(8) };
        let raw = match number {
            0 => make::sound(random, r, n),
            1 if random.one_in(2) => make::stale(random, r, n),
            1 => make::slowest(random, r, n),
            _ => churned(random, r),
        };
        let t = make::with_room(random, &raw.words(), raw.width());
        exact(compare, random, &t)?;
        causes(compare, random, &t)?;
        late(compare, random, &t)?;
        // As it is once settled.
        let mut ideal = t.clone();
        reference::settle(&mut ideal.all, u32::MAX);
        causes(compare, random, &ideal)?;
        let other = changed(random, &raw);
        let other = make::with_room(random, &other.words(), other.width());
        causes(compare, random, &other)?;
        let words = raw.words();
        causes(compare, random, &Piece::cut(&words, words.len() - 1))?;
        if number == 0 {
            long(compare, random, &t)?;
        }
    }
    for _ in 0..2 {
        compare.settles_at(random)?;
    }
    Ok(())
}
