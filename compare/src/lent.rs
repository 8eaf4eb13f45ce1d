//! Memory lent for a table: the midst of a larger buffer that is filled with a pattern, so that each
//! write to it shows.

use crate::random::Random;
use std::ops::Range;

/// How many bytes of the buffer stand in front of the lent memory, and behind it.
const GUARD: usize = 64;

pub struct Lent {
    buffer: Vec<u8>,
    pattern: Vec<u8>,
}

impl Lent {
    /// So many bytes to lend, in a buffer whose pattern is that of the seed.
    pub fn new(len: usize, seed: u64) -> Self {
        let pattern = Random::new(seed).bytes(len + 2 * GUARD);
        Self {
            buffer: pattern.clone(),
            pattern,
        }
    }

    pub fn memory(&mut self) -> &mut [u8] {
        let end = self.buffer.len() - GUARD;
        &mut self.buffer[GUARD..end]
    }

    /// What the lent memory holds now.
    pub fn held(&self) -> &[u8] {
        &self.buffer[GUARD..self.buffer.len() - GUARD]
    }

    /// The first place that changed, but for the lent memory's first `written` bytes. Places are
    /// counted from the lent memory's start, those in front of it downwards.
    pub fn touched(&self, written: usize) -> Option<isize> {
        let behind = GUARD + written..self.buffer.len();
        self.changed(0..GUARD).or_else(|| self.changed(behind))
    }

    fn changed(&self, range: Range<usize>) -> Option<isize> {
        let (now, before) = (&self.buffer[range.clone()], &self.pattern[range.clone()]);
        if now == before {
            return None;
        }
        let place = now
            .iter()
            .zip(before)
            .position(|(now, before)| now != before)?;
        Some((range.start + place) as isize - GUARD as isize)
    }
}

#[cfg(test)]
mod tests {
    use super::*;

    /// What is said of ten lent bytes, of which four are written, once this byte of the buffer changed.
    fn touched(place: usize) -> Option<isize> {
        let mut lent = Lent::new(10, 7);
        lent.memory()[..4].fill(0);
        lent.buffer[place] ^= 1;
        lent.touched(4)
    }

    #[test]
    fn each_change_but_of_the_table_shows() {
        for place in (0..GUARD).chain(GUARD + 4..2 * GUARD + 10) {
            assert_eq!(touched(place), Some(place as isize - GUARD as isize));
        }
        assert_eq!(touched(GUARD), None);
        assert_eq!(touched(GUARD + 3), None);
    }
}
