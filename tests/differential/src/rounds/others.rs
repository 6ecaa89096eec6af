//! The rounds of new and of the take-over choice.

use super::*;

pub fn new(compare: &mut Compare, random: &mut Random) -> Result {
    for _ in 0..40 {
        let r =
            random.pick(&[0, 1, 2, 3, 4, 5, 6, 7, 8, 9, 1, 2, 3, 8, 10, u32::MAX, u32::MAX - 3]);
        let least = (r.min(12) + 1) as usize;
        let n = match random.below(12) {
            0 => 0,
            1 => 1,
            2 => least - 1,
            3 => random.range(254, 258),
            4 => random.range(0, 12),
            5 => least,
            _ => least + random.below(8),
        };
        let space = Space::any(random, n + 1);
        let mut ids = space.rising(random, n);
        match random.below(6) {
            0 if n > 1 => {
                let i = random.range(1, n - 1);
                ids[i] = ids[i - 1];
            }
            1 if n > 1 => {
                let i = random.range(1, n - 1);
                ids.swap(i - 1, i);
            }
            _ => {}
        }
        // More identifiers stand after the lent ones.
        let mut more = ids.clone();
        more.extend(ids.last().map_or([7, 8], |l| [l.wrapping_add(1), l.wrapping_add(2)]));
        let ids = Piece::cut(&more, n);
        let needed = layout::size(r.min(12) as usize, n);
        for len in near(random, needed) {
            let words = make::junk(random, len + 4);
            compare.make(&Piece::cut(&words, len), r, &ids)?;
        }
    }
    Ok(())
}

pub fn take_over(compare: &mut Compare, random: &mut Random) -> Result {
    for _ in 0..300 {
        let space = Space::any(random, 3);
        let [own, h, c] = [(); 3].map(|_| space.pick(random));
        let lists = [(); 2].map(|_| {
            let count = random.below(10);
            let words = make::junk(random, count + 2);
            Piece::cut(&words, if random.one_in(4) { 0 } else { count })
        });
        compare.take_over(own, h, c, &lists[0], &lists[1])?;
    }
    Ok(())
}
