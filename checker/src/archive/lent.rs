//! Buffers that are lent to the archive: parts of larger ones, so that a write beside them is seen.

use crate::draw::random::Random;
use std::ops::Range;

/// A part of a larger buffer, with drawn numbers around it.
pub struct Lent<T> {
    pub buffer: Vec<T>,
    pub part: Range<usize>,
}

/// Around it at least as many numbers as the longest window holds; not always as many, so that it
/// begins at any address.
pub fn lent<T: Copy>(random: &mut Random, part: &[T], drawn: fn(u64) -> T) -> Lent<T> {
    let mut around = || -> Vec<T> {
        let count = 33 + random.below(8);
        (0..count).map(|_| drawn(random.bits())).collect()
    };
    let (before, after) = (around(), around());
    Lent {
        part: before.len()..before.len() + part.len(),
        buffer: [&before, part, &after].concat(),
    }
}
