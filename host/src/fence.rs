//! Buffers to lend, with guards of random contents before and after, to see what a call touched.

use crate::random::{Any, Random};
use std::hint::black_box;

pub struct Fenced<T> {
    now: Vec<T>,
    as_lent: Vec<T>,
    start: usize,
    len: usize,
}

impl<T: Any + Copy + PartialEq> Fenced<T> {
    /// The contents between two guards. The first guard's length varies, so that bytes are lent
    /// at every alignment.
    pub fn new(contents: &[T], random: &mut Random) -> Fenced<T> {
        let start = 32 + random.below(16);
        let mut now: Vec<T> = (0..start).map(|_| random.any()).collect();
        now.extend(contents);
        now.extend((0..48).map(|_| random.any::<T>()));
        Fenced {
            as_lent: now.clone(),
            now,
            start,
            len: contents.len(),
        }
    }

    /// A buffer of this length with random contents.
    pub fn of_length(len: usize, random: &mut Random) -> Fenced<T> {
        let contents: Vec<T> = (0..len).map(|_| random.any()).collect();
        Fenced::new(&contents, random)
    }

    pub fn lend(&mut self) -> &mut [T] {
        &mut black_box(&mut self.now)[self.start..self.start + self.len]
    }

    /// Whether anything but the first `may` places of the buffer has changed since it was lent, and
    /// the first place that has: below 0 it is in the guard before.
    fn touched(&self, may: usize) -> Option<isize> {
        let allowed = self.start..self.start + may;
        let now = black_box(&self.now);
        (0..now.len())
            .find(|at| !allowed.contains(at) && now[*at] != self.as_lent[*at])
            .map(|at| at as isize - self.start as isize)
    }

    /// Only the first `may` places may have changed; else it says which did.
    pub fn untouched(&self, name: &str, may: usize) -> Result<(), String> {
        match self.touched(may) {
            Some(at) => Err(format!("the {name} was changed at {at}")),
            None => Ok(()),
        }
    }
}
