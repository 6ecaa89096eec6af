//! The library, linked from RING_ARCHIVE. include/ring.h declares the same functions for C.

use crate::same::Answer;

extern "C" {
    fn ring_new(table: *mut u32, words: usize, r: u32, ids: *const u32, count: usize) -> Answer;
    fn ring_join(table: *mut u32, words: usize, j: u32, p: u32) -> Answer;
    fn ring_stabilize(table: *mut u32, words: usize, n: u32) -> Answer;
    fn ring_rectify(table: *mut u32, words: usize, n: u32, q: u32) -> Answer;
    fn ring_fail(table: *mut u32, words: usize, n: u32) -> Answer;
    fn ring_leave(table: *mut u32, words: usize, n: u32) -> Answer;
    fn ring_lookup(table: *const u32, words: usize, n: u32, k: u32) -> Answer;
    fn ring_audit(table: *const u32, words: usize) -> Answer;
    fn ring_alike(a: *const u32, a_words: usize, b: *const u32, b_words: usize) -> Answer;
}

// Each call takes any slice and reads and writes nothing outside it, so each wrapper is safe.

#[inline(always)]
pub fn new(words: &mut [u32], r: u32, ids: &[u32]) -> Answer {
    unsafe { ring_new(words.as_mut_ptr(), words.len(), r, ids.as_ptr(), ids.len()) }
}

#[inline(always)]
pub fn join(words: &mut [u32], j: u32, p: u32) -> Answer {
    unsafe { ring_join(words.as_mut_ptr(), words.len(), j, p) }
}

#[inline(always)]
pub fn stabilize(words: &mut [u32], n: u32) -> Answer {
    unsafe { ring_stabilize(words.as_mut_ptr(), words.len(), n) }
}

#[inline(always)]
pub fn rectify(words: &mut [u32], n: u32, q: u32) -> Answer {
    unsafe { ring_rectify(words.as_mut_ptr(), words.len(), n, q) }
}

#[inline(always)]
pub fn fail(words: &mut [u32], n: u32) -> Answer {
    unsafe { ring_fail(words.as_mut_ptr(), words.len(), n) }
}

#[inline(always)]
pub fn leave(words: &mut [u32], n: u32) -> Answer {
    unsafe { ring_leave(words.as_mut_ptr(), words.len(), n) }
}

#[inline(always)]
pub fn lookup(words: &[u32], n: u32, k: u32) -> Answer {
    unsafe { ring_lookup(words.as_ptr(), words.len(), n, k) }
}

#[inline(always)]
pub fn audit(words: &[u32]) -> Answer {
    unsafe { ring_audit(words.as_ptr(), words.len()) }
}

/// The library counts principals in one way.
pub use self::audit as audit_early;

#[inline(always)]
pub fn alike(a: &[u32], b: &[u32]) -> Answer {
    unsafe { ring_alike(a.as_ptr(), a.len(), b.as_ptr(), b.len()) }
}

#[cfg(feature = "whole")]
pub use whole::{
    findings, held, image_read, image_write, is_open, next_open, principal, round, settle,
    settle_at,
};

#[cfg(feature = "whole")]
mod whole {
    use crate::same::{Answer, Finding, Runs};

    extern "C" {
        fn ring_held(
            table: *const u32,
            words: usize,
            n: u32,
            keys: *const u32,
            count: usize,
        ) -> Runs;
        fn ring_principal(table: *const u32, words: usize, n: u32) -> Answer;
        fn ring_findings(
            table: *const u32,
            words: usize,
            findings: *mut Finding,
            count: usize,
        ) -> Answer;
        fn ring_round(table: *mut u32, words: usize) -> Answer;
        fn ring_settle(table: *mut u32, words: usize, limit: u32) -> Answer;
        fn ring_is_open(windows: *const u32, words: usize, minute: u32) -> Answer;
        fn ring_next_open(windows: *const u32, words: usize, minute: u32) -> Answer;
        fn ring_settle_at(
            table: *mut u32,
            words: usize,
            windows: *const u32,
            window_words: usize,
            minutes: *const u32,
            count: usize,
        ) -> Answer;
        fn ring_image_write(
            table: *const u32,
            words: usize,
            image: *mut u8,
            bytes: usize,
        ) -> Answer;
        fn ring_image_read(table: *mut u32, words: usize, image: *const u8, bytes: usize)
            -> Answer;
    }

    #[inline(always)]
    pub fn held(words: &[u32], n: u32, keys: &[u32]) -> Runs {
        unsafe { ring_held(words.as_ptr(), words.len(), n, keys.as_ptr(), keys.len()) }
    }

    #[inline(always)]
    pub fn principal(words: &[u32], n: u32) -> Answer {
        unsafe { ring_principal(words.as_ptr(), words.len(), n) }
    }

    #[inline(always)]
    pub fn findings(words: &[u32], findings: &mut [Finding]) -> Answer {
        unsafe {
            ring_findings(
                words.as_ptr(),
                words.len(),
                findings.as_mut_ptr(),
                findings.len(),
            )
        }
    }

    #[inline(always)]
    pub fn round(words: &mut [u32]) -> Answer {
        unsafe { ring_round(words.as_mut_ptr(), words.len()) }
    }

    #[inline(always)]
    pub fn settle(words: &mut [u32], limit: u32) -> Answer {
        unsafe { ring_settle(words.as_mut_ptr(), words.len(), limit) }
    }

    #[inline(always)]
    pub fn is_open(windows: &[u32], minute: u32) -> Answer {
        unsafe { ring_is_open(windows.as_ptr(), windows.len(), minute) }
    }

    #[inline(always)]
    pub fn next_open(windows: &[u32], minute: u32) -> Answer {
        unsafe { ring_next_open(windows.as_ptr(), windows.len(), minute) }
    }

    #[inline(always)]
    pub fn settle_at(words: &mut [u32], windows: &[u32], minutes: &[u32]) -> Answer {
        unsafe {
            ring_settle_at(
                words.as_mut_ptr(),
                words.len(),
                windows.as_ptr(),
                windows.len(),
                minutes.as_ptr(),
                minutes.len(),
            )
        }
    }

    #[inline(always)]
    pub fn image_write(words: &[u32], image: &mut [u8]) -> Answer {
        unsafe { ring_image_write(words.as_ptr(), words.len(), image.as_mut_ptr(), image.len()) }
    }

    #[inline(always)]
    pub fn image_read(words: &mut [u32], image: &[u8]) -> Answer {
        unsafe { ring_image_read(words.as_mut_ptr(), words.len(), image.as_ptr(), image.len()) }
    }
}
