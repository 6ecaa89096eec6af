//! Slices that a call is lent, each between guards that it must leave alone.

use crate::random::mix;
use crate::reference::Finding;
use std::fmt::Debug;

/// An input or output slice: the first `len` elements of `all` are lent. The
/// others stand right after the slice, where a call that goes past the end
/// would meet them.
#[derive(Clone, Debug)]
pub struct Piece<T> {
    pub all: Vec<T>,
    pub len: usize,
}

impl<T: Copy> Piece<T> {
    pub fn whole(all: Vec<T>) -> Piece<T> {
        let len = all.len();
        Piece { all, len }
    }

    pub fn cut(all: &[T], len: usize) -> Piece<T> {
        Piece { all: all.to_vec(), len }
    }

    pub fn slice(&self) -> &[T] {
        &self.all[..self.len]
    }
}

pub fn nothing<T: Copy>() -> Piece<T> {
    Piece::whole(Vec::new())
}

/// What a guard is made of.
pub trait Element: Copy + PartialEq + Debug {
    fn of(seed: u64) -> Self;
}

impl Element for u32 {
    fn of(seed: u64) -> u32 {
        seed as u32
    }
}

impl Element for u8 {
    fn of(seed: u64) -> u8 {
        seed as u8
    }
}

impl Element for Finding {
    fn of(seed: u64) -> Finding {
        Finding { id: seed as u32, principal: (seed >> 16) as u32, moves: (seed >> 32) as u32 }
    }
}

/// A buffer with the lent slice in its middle.
#[derive(Clone)]
pub struct Lent<T> {
    pub all: Vec<T>,
    pub start: usize,
    pub len: usize,
}

impl<T: Element> Lent<T> {
    pub fn new(piece: &Piece<T>, seed: u64) -> Lent<T> {
        // The start varies, so that byte slices stand at every alignment.
        let start = 13 + (seed % 8) as usize;
        let mut all = Vec::with_capacity(start + piece.all.len() + 16);
        let mut guard = mix(seed);
        let mut next = || {
            guard = guard.wrapping_mul(6364136223846793005).wrapping_add(1442695040888963407);
            T::of(guard >> 16)
        };
        all.extend((0..start).map(|_| next()));
        all.extend_from_slice(&piece.all);
        all.extend((0..16).map(|_| next()));
        Lent { all, start, len: piece.len }
    }

    pub fn slice(&mut self) -> &mut [T] {
        &mut self.all[self.start..self.start + self.len]
    }

    /// Where two copies differ, told in places of the slice.
    pub fn differences(&self, other: &Lent<T>) -> Vec<String> {
        self.all
            .iter()
            .zip(&other.all)
            .enumerate()
            .filter(|(_, (a, b))| a != b)
            .take(20)
            .map(|(i, (a, b))| {
                let place = i as i64 - self.start as i64;
                let inside = place >= 0 && place < self.len as i64;
                let note = if inside { "" } else { " (guard)" };
                format!("    at {place}{note}: reference {a:?}, library {b:?}")
            })
            .collect()
    }
}
