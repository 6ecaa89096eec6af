//! The tables that calls are measured on: settled, settled but for one entry, half settled, with random lists, with dead entries, or to be settled.

use crate::same::{self, answer};

pub const MEMBERS: usize = 256;
pub const WORDS: usize = 3331;

/// What the lists of a table are like.
#[derive(Clone, Copy, Debug, PartialEq, Eq)]
pub enum Lists {
    /// Each the next r members.
    Settled,
    /// The same but for the last entry of the highest member, which is dead and skips nobody.
    Late,
    /// Each second member has joined by the one below it, and no step was made since: all lists skip the joined ones.
    Half,
    /// Each r different members, not its own, by a fixed generator.
    Random,
    /// Each second member was lost, and no step was made since.
    Lost,
    /// The lowest r + 1 members settled; all the others have joined by the highest of them, and no step was made since.
    #[cfg(feature = "whole")]
    Slowest,
}

fn next(state: &mut u32) -> u32 {
    *state = state.wrapping_mul(1664525).wrapping_add(1013904223);
    *state >> 10
}

/// Rising identifiers, spread over the whole space by a fixed generator.
pub fn identifiers(count: usize) -> Vec<u32> {
    let mut state = 1;
    (0..count as u32)
        .map(|i| (i << 24) + 1000 + next(&mut state))
        .collect()
}

/// The table of these members, in a slice that holds every table.
pub fn table(lists: Lists, r: u32, ids: &[u32]) -> Vec<u32> {
    let mut table = vec![0; WORDS];
    let mut make = |ids: &[u32]| {
        let made = same::new(&mut table, r, ids);
        assert_eq!(made, answer(0, [ids.len() as u32]));
    };
    match lists {
        Lists::Settled => make(ids),
        Lists::Late => {
            make(ids);
            // The last entry stands before the step count, which is the last word.
            table[1 + ids.len() * (r as usize + 5)] -= 1;
        }
        Lists::Half => {
            let old: Vec<u32> = ids.iter().copied().step_by(2).collect();
            make(&old);
            for pair in ids.chunks_exact(2) {
                assert_eq!(same::join(&mut table, pair[1], pair[0]).number, 0);
            }
        }
        Lists::Lost => {
            make(ids);
            for pair in ids.chunks_exact(2) {
                assert_eq!(same::fail(&mut table, pair[1]).number, 0);
            }
        }
        #[cfg(feature = "whole")]
        Lists::Slowest => {
            let (old, new) = ids.split_at(r as usize + 1);
            make(old);
            for &id in new {
                assert_eq!(same::join(&mut table, id, old[r as usize]).number, 0);
            }
        }
        Lists::Random => {
            make(ids);
            let mut state = 1;
            for (k, record) in table[3..].chunks_exact_mut(r as usize + 5).enumerate() {
                let Some(&own) = ids.get(k) else { break };
                let mut list: Vec<u32> = Vec::new();
                while list.len() < r as usize {
                    let id = ids[next(&mut state) as usize % ids.len()];
                    if id != own && !list.contains(&id) {
                        list.push(id);
                    }
                }
                record[4..4 + r as usize].copy_from_slice(&list);
            }
        }
    }
    table
}
