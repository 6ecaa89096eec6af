//! Two tables alike: their records word by word, each up to its step count; and the faults in it.

use super::*;

/// The faults by which a word of a record is not compared: `i` is the record's place of n, `word`
/// the word's place in it, and `r` how many entries the list has.
fn is_left_out(n: usize, i: usize, word: usize, r: usize) -> bool {
    let (first, last) = (4, 3 + r);
    let ends = i == 0 || i + 1 == n;
    [
        (word == 0, Fault::AlikeCountOnly),
        (word == 1, Fault::AlikePredecessor),
        (word == 2, Fault::AlikePending),
        (word == 3, Fault::AlikeCandidate),
        (word == 2 || word == 3, Fault::AlikeStep),
        (word == first, Fault::AlikeFirst),
        (word == 5, Fault::AlikeSecondEntry),
        (word == last, Fault::AlikeLast),
        (word == last && r > 1, Fault::AlikeLastOfMore),
        (word == 11, Fault::AlikeEighth),
        (word > first, Fault::AlikeHeads),
        (word > 0 && word != first, Fault::AlikeOld),
        (i == 0, Fault::AlikeLowest),
        (i + 1 == n, Fault::AlikeHighest),
        (!ends, Fault::AlikeBetween),
        (i == 255, Fault::AlikeLastOfFull),
    ]
    .iter()
    .any(|&(left_out, fault)| left_out && planted(fault))
}

/// Are two words of records equal? `word` is their place in the record.
fn is_equal(a: &[u32], b: &[u32], word: usize, x: u32, y: u32) -> bool {
    let dead = || find(a, x).is_none() && find(b, y).is_none();
    x == y
        || (x & 0xffff == y & 0xffff && planted(Fault::AlikeLow))
        || (x >> 16 == y >> 16 && planted(Fault::AlikeHigh))
        || (word == 1 && planted(Fault::AlikeDeadPredecessor) && dead())
        || (word == 3 && planted(Fault::AlikeDeadCandidate) && dead())
        || (word > 3 && planted(Fault::AlikeDeadEntries) && dead())
}

/// Are the lists equal but for their order?
fn same_entries(a: &[u32], b: &[u32], i: usize) -> bool {
    let [mut a, mut b] = [a, b].map(|t| list(t, i).to_vec());
    a.sort();
    b.sort();
    a == b
}

/// What is compared beside these words, by planted faults alone: step counts, what stands after
/// the last record, and the slices' lengths.
fn more_is_equal(a: &[u32], b: &[u32], n: usize) -> bool {
    let counts = (0..n).all(|i| {
        let [x, y] = [a, b].map(|t| t[counts::at(t, i)]);
        let compared = [
            (true, Fault::AlikeSteps),
            (i == 0, Fault::AlikeLowestSteps),
            (i + 1 == n, Fault::AlikeHighestSteps),
            (a[offset(a, i) + 2] == 1, Fault::AlikePendingSteps),
            (x.max(y) == u32::MAX, Fault::AlikeStepsEnd),
        ];
        x == y || !compared.iter().any(|&(compared, fault)| compared && planted(fault))
    });
    let (after, behind) = (&a[end(a)..], &b[end(b)..]);
    let equal = after.iter().zip(behind).take_while(|(x, y)| x == y).count();
    let short = after.len().min(behind.len());
    let equal = [
        (equal == short, Fault::AlikeRest),
        (equal > 0 || short == 0, Fault::AlikeNext),
        (a.len() == b.len(), Fault::AlikeLength),
        ((after.len() < width(a)) == (behind.len() < width(b)), Fault::AlikeRoom),
    ];
    counts && equal.iter().all(|&(equal, fault)| equal || !planted(fault))
}

pub fn alike(a: &[u32], b: &[u32]) -> Answer {
    match [formed(a, Fault::HeaderAlike), formed(b, Fault::HeaderAlikeSecond)] {
        [true, true] => {}
        [true, false] if planted(Fault::AlikeSecond) => return yes([0]),
        [false, true] if planted(Fault::AlikeFirstForm) => return yes([0]),
        _ => return no(1),
    }
    let empty = planted(Fault::AlikeEmpty) && size(a) == 0;
    let mut same = a[0] == b[0] || planted(Fault::AlikeR) || empty;
    same = same && (a[1] == b[1] || planted(Fault::AlikeCommon));
    let (n, r) = (size(a).min(size(b)), span(a).min(span(b)));
    for i in 0..n {
        let (p, q) = (offset(a, i), offset(b, i));
        for word in 0..4 + r {
            let unordered = word > 3 && planted(Fault::AlikeOrder) && same_entries(a, b, i);
            same = same
                && (is_equal(a, b, word, a[p + word], b[q + word])
                    || is_left_out(n, i, word, r)
                    || unordered);
        }
    }
    same = same && more_is_equal(a, b, n);
    yes([(same != planted(Fault::AlikeNot)) as u32])
}
