//! The service hours that calls are measured with: 16 windows, and lists of minutes that are all open or all closed.

use crate::same;

pub const WEEK: u32 = 10080;

/// Start and end by turns: an hour each, ten hours apart, but the last, which runs over the week's end.
pub fn windows() -> Vec<u32> {
    let starts = (0..15).map(|k| 300 + 600 * k).chain([WEEK - 30]);
    starts
        .flat_map(|start| [start, (start + 60) % WEEK])
        .collect()
}

/// The first minutes, from a week's start on, that are open, or closed.
pub fn minutes(open: bool, count: usize) -> Vec<u32> {
    let (windows, due) = (windows(), same::answer(0, [u32::from(open)]));
    let of_week: Vec<u32> = (0..WEEK)
        .filter(|&minute| same::is_open(&windows, minute) == due)
        .collect();
    let weeks = (0..).step_by(WEEK as usize);
    weeks
        .flat_map(|start| of_week.iter().map(move |minute| start + minute))
        .take(count)
        .collect()
}
