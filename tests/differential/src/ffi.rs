//! The library under test behind the same signatures as the reference.
//! Without an archive the calls go to the second writing.

use crate::reference::{Answer, Finding, Runs};

#[cfg(not(no_archive))]
mod library {
    use crate::reference::{Answer, Finding, Runs};

    extern "C" {
        pub fn ring_new(
            table: *mut u32,
            words: usize,
            r: u32,
            ids: *const u32,
            count: usize,
        ) -> Answer;
        pub fn ring_join(table: *mut u32, words: usize, j: u32, p: u32) -> Answer;
        pub fn ring_stabilize(table: *mut u32, words: usize, n: u32) -> Answer;
        pub fn ring_rectify(table: *mut u32, words: usize, n: u32, q: u32) -> Answer;
        pub fn ring_fail(table: *mut u32, words: usize, n: u32) -> Answer;
        pub fn ring_leave(table: *mut u32, words: usize, n: u32) -> Answer;
        pub fn ring_lookup(table: *const u32, words: usize, n: u32, k: u32) -> Answer;
        pub fn ring_held(
            table: *const u32,
            words: usize,
            n: u32,
            keys: *const u32,
            count: usize,
        ) -> Runs;
        pub fn ring_principal(table: *const u32, words: usize, n: u32) -> Answer;
        pub fn ring_audit(table: *const u32, words: usize) -> Answer;
        pub fn ring_findings(
            table: *const u32,
            words: usize,
            findings: *mut Finding,
            count: usize,
        ) -> Answer;
        pub fn ring_round(table: *mut u32, words: usize) -> Answer;
        pub fn ring_settle(table: *mut u32, words: usize, limit: u32) -> Answer;
        pub fn ring_is_open(windows: *const u32, words: usize, minute: u32) -> Answer;
        pub fn ring_next_open(windows: *const u32, words: usize, minute: u32) -> Answer;
        pub fn ring_settle_at(
            table: *mut u32,
            table_words: usize,
            windows: *const u32,
            window_words: usize,
            minutes: *const u32,
            count: usize,
        ) -> Answer;
        pub fn ring_alike(a: *const u32, a_words: usize, b: *const u32, b_words: usize) -> Answer;
        pub fn ring_take_over(
            own: u32,
            h: u32,
            c: u32,
            h_list: *const u32,
            h_count: usize,
            c_list: *const u32,
            c_count: usize,
        ) -> Answer;
        pub fn ring_image_write(
            table: *const u32,
            words: usize,
            image: *mut u8,
            bytes: usize,
        ) -> Answer;
        pub fn ring_image_read(
            table: *mut u32,
            words: usize,
            image: *const u8,
            bytes: usize,
        ) -> Answer;
        pub fn ring_image_field(image: *const u8, bytes: usize, position: usize) -> Answer;
    }
}

/// What stands behind the calls of this module.
pub const UNDER_TEST: &str =
    if cfg!(no_archive) { "second writing (RING_ARCHIVE not set)" } else { "linked archive" };

/// One wrapper: the library's call, or the second writing's.
macro_rules! forward {
    ($(fn $name:ident($($argument:ident: $kind:ty),*) -> $answer:ty = $symbol:ident($($passed:expr),*);)*) => {
        $(
            #[cfg(not(no_archive))]
            pub fn $name($($argument: $kind),*) -> $answer {
                // Each pointer and count come from one slice that outlives the call.
                unsafe { library::$symbol($($passed),*) }
            }

            #[cfg(no_archive)]
            pub fn $name($($argument: $kind),*) -> $answer {
                crate::second::$name($($argument),*)
            }
        )*
    };
}

forward! {
    fn new(table: &mut [u32], r: u32, ids: &[u32]) -> Answer
        = ring_new(table.as_mut_ptr(), table.len(), r, ids.as_ptr(), ids.len());
    fn join(table: &mut [u32], j: u32, p: u32) -> Answer
        = ring_join(table.as_mut_ptr(), table.len(), j, p);
    fn stabilize(table: &mut [u32], n: u32) -> Answer
        = ring_stabilize(table.as_mut_ptr(), table.len(), n);
    fn rectify(table: &mut [u32], n: u32, q: u32) -> Answer
        = ring_rectify(table.as_mut_ptr(), table.len(), n, q);
    fn fail(table: &mut [u32], n: u32) -> Answer
        = ring_fail(table.as_mut_ptr(), table.len(), n);
    fn leave(table: &mut [u32], n: u32) -> Answer
        = ring_leave(table.as_mut_ptr(), table.len(), n);
    fn lookup(table: &[u32], n: u32, k: u32) -> Answer
        = ring_lookup(table.as_ptr(), table.len(), n, k);
    fn held(table: &[u32], n: u32, keys: &[u32]) -> Runs
        = ring_held(table.as_ptr(), table.len(), n, keys.as_ptr(), keys.len());
    fn principal(table: &[u32], n: u32) -> Answer
        = ring_principal(table.as_ptr(), table.len(), n);
    fn audit(table: &[u32]) -> Answer
        = ring_audit(table.as_ptr(), table.len());
    fn findings(table: &[u32], findings: &mut [Finding]) -> Answer
        = ring_findings(table.as_ptr(), table.len(), findings.as_mut_ptr(), findings.len());
    fn round(table: &mut [u32]) -> Answer
        = ring_round(table.as_mut_ptr(), table.len());
    fn settle(table: &mut [u32], limit: u32) -> Answer
        = ring_settle(table.as_mut_ptr(), table.len(), limit);
    fn is_open(windows: &[u32], minute: u32) -> Answer
        = ring_is_open(windows.as_ptr(), windows.len(), minute);
    fn next_open(windows: &[u32], minute: u32) -> Answer
        = ring_next_open(windows.as_ptr(), windows.len(), minute);
    fn settle_at(table: &mut [u32], windows: &[u32], minutes: &[u32]) -> Answer
        = ring_settle_at(
            table.as_mut_ptr(),
            table.len(),
            windows.as_ptr(),
            windows.len(),
            minutes.as_ptr(),
            minutes.len()
        );
    fn alike(a: &[u32], b: &[u32]) -> Answer
        = ring_alike(a.as_ptr(), a.len(), b.as_ptr(), b.len());
    fn take_over(own: u32, h: u32, c: u32, h_list: &[u32], c_list: &[u32]) -> Answer
        = ring_take_over(own, h, c, h_list.as_ptr(), h_list.len(), c_list.as_ptr(), c_list.len());
    fn image_write(table: &[u32], image: &mut [u8]) -> Answer
        = ring_image_write(table.as_ptr(), table.len(), image.as_mut_ptr(), image.len());
    fn image_read(table: &mut [u32], image: &[u8]) -> Answer
        = ring_image_read(table.as_mut_ptr(), table.len(), image.as_ptr(), image.len());
    fn image_field(image: &[u8], position: usize) -> Answer
        = ring_image_field(image.as_ptr(), image.len(), position);
}
