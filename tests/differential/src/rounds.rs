//! The rounds of the differential test. Each has its own seed, so a round that
//! finds a difference can be run again alone.

mod alike;
mod counts;
mod find;
mod held;
mod hours;
mod ideal;
mod images;
mod join;
mod others;
mod principal;
mod settle;

use alike::{alike, alike_alone, pairs};
use counts::counts;
use find::{find, full_find};
use held::{held, held_calls};
use hours::{hours, hours_calls};
use ideal::{full_ideal, ideal};
use images::{image, read_image};
use join::join;
use others::{new, take_over};
use principal::principal;
use settle::{full_settling, settle_calls, settling};

use crate::compare::{Compare, Element, Piece};
use crate::layout::{self, Raw, COUNT, HEADER};
use crate::make::{self, Space};
use crate::random::{mix, Random};
use crate::reference::{self, Finding};

type Result = std::result::Result<(), String>;

type Round = fn(&mut Compare, &mut Random) -> Result;

/// The kinds of rounds in turn.
const KINDS: [(&str, Round); 24] = [
    ("tiny", tiny),
    ("sound churn", sound_churn),
    ("broken", broken),
    ("malformed", malformed),
    ("image", image),
    ("new", new),
    ("tiny", tiny),
    ("churn", churn),
    ("broken", broken),
    ("malformed", malformed),
    ("take-over", take_over),
    ("image", image),
    ("alike", alike),
    ("sound churn", sound_churn),
    ("broken", broken),
    ("held", held),
    ("principal", principal),
    ("join", join),
    ("ideal", ideal),
    ("settle", settling),
    ("find", find),
    ("counts", counts),
    ("pairs", pairs),
    ("hours", hours),
];

/// Runs one round; the error tells what differs and how to see it again.
pub fn round(compare: &mut Compare, seed: u64, number: u64) -> Result {
    let mut random = Random::new(mix(seed).wrapping_add(mix(number)));
    // Full tables take long, so they come in every fourth turn only, or every eighth or
    // sixteenth.
    let kinds = KINDS.len();
    let (kind, run) = match number as usize % (16 * kinds) {
        turn if turn % (4 * kinds) == 15 => ("full", full as Round),
        turn if turn % (8 * kinds) == 18 => ("full ideal", full_ideal as Round),
        19 => ("full settle", full_settling as Round),
        turn if turn % (8 * kinds) == 20 => ("full find", full_find as Round),
        turn => KINDS[turn % kinds],
    };
    run(compare, &mut random)
        .map_err(|text| format!("{text}  round {number} ({kind}), seed {seed}\n"))
}

/// Runs of the library alone, in which no call is compared.
pub fn alone(compare: &mut Compare, seed: u64, number: u64) -> Result {
    let mut random = Random::new(mix(seed).wrapping_add(mix(number)));
    compare.alone(&mut random)?;
    compare.withdrawals(&mut random, false)?;
    compare.turns(&mut random, number % 200 == 7)?;
    compare.passed(&mut random, number % 25 == 9)?;
    compare.weeks(&mut random, number % 20 == 0)?;
    compare.settles_at(&mut random)?;
    alike_alone(compare, &mut random, number % 100 == 11)
}

/// Lengths near the needed one.
fn near(random: &mut Random, needed: usize) -> Vec<usize> {
    let mut lengths = vec![needed, needed + 1, needed + random.range(2, 9)];
    if needed > 0 {
        lengths.extend([needed - 1, random.below(needed)]);
    }
    if random.one_in(4) {
        lengths.push(0);
    }
    lengths
}

fn filler<T: Element>(random: &mut Random, count: usize) -> Vec<T> {
    (0..count).map(|_| T::of(random.next() >> 8)).collect()
}

/// The identifiers of a well-formed table's members.
fn members(words: &[u32]) -> Vec<u32> {
    Raw::of(words).records.iter().map(|m| m.id).collect()
}

/// Writes a table over the first words of a slice.
fn put(t: &mut Piece<u32>, raw: &Raw) {
    let words = raw.words();
    t.all[..words.len()].copy_from_slice(&words);
}

fn is_well_formed(table: &Piece<u32>) -> bool {
    reference::audit(table.slice()).number == 0
}

/// Every call that names identifiers.
fn member_calls(compare: &mut Compare, t: &Piece<u32>, n: u32, other: u32) -> Result {
    compare.stabilize(t, n)?;
    compare.rectify(t, n, other)?;
    compare.fail(t, n)?;
    compare.leave(t, n)?;
    compare.lookup(t, n, other)?;
    compare.principal(t, n)?;
    compare.join(t, other, n)?;
    Ok(())
}

/// All calls on a table, with `amount` choices of identifiers.
fn all_calls(compare: &mut Compare, random: &mut Random, t: &Piece<u32>, amount: usize) -> Result {
    let mut callers = make::names(random, t.slice(), amount);
    let others = make::names(random, t.slice(), amount);
    let well_formed = is_well_formed(t);
    if well_formed {
        let raw = Raw::of(t.slice());
        if !raw.records.is_empty() {
            // Mostly live callers, and joins that lie between.
            for caller in callers.iter_mut() {
                if !random.one_in(5) {
                    *caller = raw.records[random.below(raw.records.len())].id;
                }
            }
            for _ in 0..amount {
                let m = &raw.records[random.below(raw.records.len())];
                let first = m.list[0];
                let distance = first.wrapping_sub(m.id).wrapping_sub(1).max(1);
                let j = match random.below(5) {
                    0 => m.id.wrapping_add(1),
                    1 => first.wrapping_sub(1),
                    2 => first,
                    _ => m.id.wrapping_add(1 + random.word() % distance),
                };
                compare.join(t, j, m.id)?;
                compare.rectify(t, m.id, m.predecessor.wrapping_add(random.below(3) as u32))?;
                compare.lookup(t, m.id, random.pick(&[m.id, first, j]))?;
            }
        }
    }
    for (&n, &other) in callers.iter().zip(&others) {
        member_calls(compare, t, n, other)?;
    }
    held_calls(compare, random, t, &callers)?;
    settle_calls(compare, random, t)?;
    hours_calls(compare, random, t)?;
    compare.audit(t)?;
    compare.alike_itself(t)?;
    let count = if well_formed { t.slice()[COUNT] as usize } else { random.below(6) };
    for len in near(random, count) {
        let findings = filler::<Finding>(random, len + 2);
        compare.findings(t, &Piece::cut(&findings, len))?;
    }
    let bytes = match well_formed {
        true => Raw::of(t.slice()).image().len(),
        false => random.below(80),
    };
    for len in near(random, bytes) {
        let image = filler::<u8>(random, len + 3);
        compare.image_write(t, &Piece::cut(&image, len))?;
    }
    Ok(())
}

/// Few identifiers, and every call with each pair of them.
fn tiny(compare: &mut Compare, random: &mut Random) -> Result {
    for _ in 0..4 {
        let (raw, pool) = make::tiny(random);
        let t = make::with_room(random, &raw.words(), raw.width());
        for &n in &pool {
            compare.stabilize(&t, n)?;
            compare.fail(&t, n)?;
            compare.leave(&t, n)?;
            compare.principal(&t, n)?;
            for &other in &pool {
                compare.join(&t, n, other)?;
                compare.rectify(&t, n, other)?;
                compare.lookup(&t, n, other)?;
                compare.held(&t, n, &Piece::whole(vec![other, random.pick(&pool)]))?;
            }
        }
        all_calls(compare, random, &t, 1)?;
        // A slice of each length up to the whole one.
        for len in 0..t.len {
            let cut = Piece::cut(&t.all, len);
            if random.one_in(4) {
                all_calls(compare, random, &cut, 1)?;
            } else {
                let n = raw.records.first().map_or(0, |m| m.id);
                compare.audit(&cut)?;
                compare.fail(&cut, n)?;
                compare.principal(&cut, n)?;
            }
        }
    }
    Ok(())
}

/// Well-formed tables of every shape.
fn broken(compare: &mut Compare, random: &mut Random) -> Result {
    for _ in 0..3 {
        let raw = make::well_formed(random, None);
        let t = make::with_room(random, &raw.words(), raw.width());
        let amount = random.range(3, 10);
        all_calls(compare, random, &t, amount)?;
        // A member stabilizes several times in a row.
        let mut t = t;
        for n in make::names(random, t.slice(), 2) {
            for _ in 0..4 {
                t = Piece::whole(compare.stabilize(&t, n)?.first);
            }
        }
        compare.audit(&t)?;
    }
    Ok(())
}

fn malformed(compare: &mut Compare, random: &mut Random) -> Result {
    for _ in 0..6 {
        let t = make::malformed(random);
        all_calls(compare, random, &t, 3)?;
        let raw = make::well_formed(random, Some(2));
        let good = Piece::whole(raw.words());
        compare.alike(&t, &good)?;
        compare.alike(&good, &t)?;
        compare.alike(&t, &t)?;
    }
    // Every damage of one word of a small table, one word at a time.
    let raw = make::well_formed(random, Some(3));
    let words = raw.words();
    for i in 0..words.len() {
        let mut changed = words.clone();
        changed[i] = match random.below(3) {
            0 => changed[i].wrapping_add(1),
            1 => changed[i].wrapping_sub(1),
            _ => random.pick(&[0, 1, 2, 9, 257, u32::MAX]),
        };
        let t = Piece::whole(changed);
        compare.audit(&t)?;
        let name = random.pick(&t.all);
        member_calls(compare, &t, name, words[i])?;
    }
    Ok(())
}

/// A list of calls from a table made by new. The sound kind makes only losses
/// that a withdrawal would have been granted, and must stay sound.
fn run_churn(compare: &mut Compare, random: &mut Random, sound: bool, length: usize) -> Result {
    let r = random.range(1, 8);
    let n = match random.below(3) {
        0 => r + 1,
        _ => r + 1 + random.below(12),
    };
    let space = Space::any(random, n + 4);
    let ids = space.rising(random, n);
    let width = layout::width(r);
    let room = random.pick(&[0, 1, width, 2 * width + 1, 5 * width, 20 * width]);
    let slice = make::junk(random, layout::size(r, n) + room);
    let made = compare.make(&Piece::whole(slice), r as u32, &Piece::whole(ids))?;
    let mut t = Piece::whole(made.first);
    if random.one_in(2) {
        let mut raw = Raw::of(t.slice());
        match random.one_in(2) {
            true => make::count_to_the_end(random, &mut raw, 8),
            false => make::count_steps(random, &mut raw),
        }
        put(&mut t, &raw);
    }
    let mut notices: Vec<(u32, u32)> = Vec::new();
    for _ in 0..length {
        let live = members(t.slice());
        let any = |random: &mut Random| {
            if live.is_empty() || random.one_in(12) {
                space.pick(random)
            } else {
                random.pick(&live)
            }
        };
        let n = any(random);
        let outcome = match random.below(100) {
            0..=21 => {
                let j = space.pick(random);
                let found = compare.lookup(&t, n, j)?.answer;
                let p = if found.number == 0 && !random.one_in(4) { found.values[1] } else { n };
                compare.join(&t, j, p)?
            }
            22..=62 => {
                let outcome = compare.stabilize(&t, n)?;
                let reply = outcome.answer.values;
                // The notice may come late, twice or never.
                if outcome.answer.number == 0 && reply[0] == 2 {
                    for _ in 0..random.below(3) {
                        notices.push((reply[1], n));
                    }
                }
                outcome
            }
            63..=82 => {
                let (at, from) = if notices.is_empty() || random.one_in(6) {
                    (n, space.pick(random))
                } else {
                    notices.swap_remove(random.below(notices.len()))
                };
                compare.rectify(&t, at, from)?
            }
            83..=90 => compare.leave(&t, n)?,
            91..=96 => {
                let granted = compare.leave(&t, n)?;
                if sound && granted.answer.number != 0 {
                    granted
                } else {
                    compare.fail(&t, n)?
                }
            }
            97 => {
                // A round or two, where the table is sound.
                let windows = make::good_windows(random);
                let open = random.range(1, 2);
                let list = make::minutes_of(random, windows.slice(), open, 1);
                compare.settle_at(&t, &windows, &make::lent_minutes(random, list))?
            }
            _ => compare.lookup(&t, n, space.pick(random))?,
        };
        t = Piece::whole(outcome.first);
        let seen = compare.audit(&t)?.answer;
        if sound && (seen.number != 0 || seen.values[3] == 0) {
            return Err(format!("REFERENCE leaves a table that is not sound: {:?}\n", t.all));
        }
        if random.one_in(25) {
            all_calls(compare, random, &t, 3)?;
        }
        if random.one_in(3) {
            compare.principal(&t, n)?;
        }
    }
    all_calls(compare, random, &t, 4)
}

fn sound_churn(compare: &mut Compare, random: &mut Random) -> Result {
    let length = random.range(20, 150);
    run_churn(compare, random, true, length)
}

fn churn(compare: &mut Compare, random: &mut Random) -> Result {
    let length = random.range(20, 150);
    run_churn(compare, random, false, length)
}

/// Tables with up to 256 members.
fn full(compare: &mut Compare, random: &mut Random) -> Result {
    let r = random.pick(&[1, 2, 3, 8]);
    let n = random.range(251, 256);
    let space = Space::any(random, 300);
    let ids = space.rising(random, n);
    let records = random.pick(&[254, 255, 256, 256, 257, 258]).max(n);
    let spare = random.below(2);
    let slice = make::junk(random, layout::size(r, records) + spare);
    let made = compare.make(&Piece::whole(slice), r as u32, &Piece::whole(ids))?;
    let mut t = Piece::whole(made.first);
    // Joins until they are refused, then a little of everything.
    for _ in 0..12 {
        let j = space.pick(random);
        let n = members(t.slice())[0];
        let found = compare.lookup(&t, n, j)?.answer;
        t = Piece::whole(compare.join(&t, j, found.values[1])?.first);
        compare.join(&t, j.wrapping_add(3), n)?;
    }
    let live = members(t.slice());
    for _ in 0..4 {
        let n = random.pick(&live);
        t = Piece::whole(compare.stabilize(&t, n)?.first);
        t = Piece::whole(compare.rectify(&t, n, space.pick(random))?.first);
        t = Piece::whole(compare.fail(&t, random.pick(&live))?.first);
        compare.leave(&t, n)?;
    }
    let callers = make::names(random, t.slice(), 6);
    held_calls(compare, random, &t, &callers)?;
    for n in [callers[0], callers[1], random.pick(&live), random.pick(&live)] {
        compare.principal(&t, n)?;
    }
    compare.findings(&t, &Piece::whole(filler(random, 256)))?;
    // An image of it, and one more member than there may be.
    let mut raw = Raw::of(t.slice());
    let out = filler::<u8>(random, raw.image().len());
    let written = compare.image_write(&t, &Piece::whole(out))?;
    read_image(compare, random, &Piece::whole(written.second))?;
    let mut next = raw.records[0].clone();
    raw.records.retain(|m| m.id != u32::MAX);
    next.id = u32::MAX;
    raw.records.push(next);
    raw.count = raw.records.len() as u32;
    let more = Piece::whole(raw.image());
    read_image(compare, random, &more)?;
    let t = make::with_room(random, &raw.words(), raw.width());
    compare.audit(&t)?;
    compare.join(&t, 5, raw.records[3].id)?;

    // 255 to 258 records, well-formed but for that.
    let n = random.pick(&[255, 256, 257, 257, 258]);
    let mut raw = make::well_formed(random, Some(n));
    let t = make::with_room(random, &raw.words(), raw.width());
    compare.audit(&t)?;
    for n in make::names(random, t.slice(), 2) {
        member_calls(compare, &t, n, n.wrapping_add(1))?;
        held_calls(compare, random, &t, &[n, raw.records[0].id])?;
    }
    read_image(compare, random, &Piece::whole(raw.image()))?;
    raw.count = random.range(254, 258) as u32;
    compare.audit(&Piece::whole(raw.words()))?;
    read_image(compare, random, &Piece::whole(raw.image()))
}
