//! Lent memory with guard places.

use oracle::random::Random;
use std::ops::Range;

/// Places before and after a lent slice.
pub const GUARD: usize = 4;

/// What is lent: f64 or u32, drawn at random and compared by bits.
pub trait Place: Copy {
    fn draw(random: &mut Random) -> Self;
    fn bits(self) -> u64;
}

impl Place for f64 {
    fn draw(random: &mut Random) -> f64 {
        f64::from_bits(random.draw())
    }

    fn bits(self) -> u64 {
        self.to_bits()
    }
}

impl Place for u32 {
    fn draw(random: &mut Random) -> u32 {
        random.draw() as u32
    }

    fn bits(self) -> u64 {
        u64::from(self)
    }
}

/// A slice with guard places around it, all filled at random.
#[derive(Clone)]
pub struct Lent<T> {
    whole: Vec<T>,
}

impl<T: Place> Lent<T> {
    pub fn new(count: usize, random: &mut Random) -> Lent<T> {
        let whole = (0..count + 2 * GUARD).map(|_| T::draw(random)).collect();
        Lent { whole }
    }

    fn places(&self) -> Range<usize> {
        GUARD..self.whole.len() - GUARD
    }

    pub fn slice(&self) -> &[T] {
        &self.whole[self.places()]
    }

    pub fn slice_mut(&mut self) -> &mut [T] {
        let places = self.places();
        &mut self.whole[places]
    }

    /// Whether the slices and all guard places are the same, bit for bit.
    pub fn is(&self, other: &Lent<T>) -> bool {
        same_bits(&self.whole, &other.whole)
    }

    /// Whether all but these places of the slice are the same, bit for bit.
    pub fn is_but_for(&self, other: &Lent<T>, part: Range<usize>) -> bool {
        let (start, end) = (GUARD + part.start, GUARD + part.end);
        same_bits(&self.whole[..start], &other.whole[..start])
            && same_bits(&self.whole[end..], &other.whole[end..])
    }

    /// Takes these places of the slice over from the other.
    pub fn take(&mut self, other: &Lent<T>, part: Range<usize>) {
        self.slice_mut()[part.clone()].copy_from_slice(&other.slice()[part]);
    }
}

pub fn same_bits<T: Place>(some: &[T], other: &[T]) -> bool {
    some.len() == other.len()
        && some
            .iter()
            .zip(other)
            .fold(0, |differing, (a, b)| differing | (a.bits() ^ b.bits()))
            == 0
}
