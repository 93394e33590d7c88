//! Slots: lines thinned one removal at a time.

use crate::sizes::{POINTS, WORK_FLOATS, WORK_WORDS};
use crate::{lent, PointIndex, Refusal};
use std::fmt;

/// The number of a slot. Any number can be given; above 7 is refused. Never mixed with a [`PointIndex`].
#[derive(Clone, Copy, Debug, PartialEq, Eq, PartialOrd, Ord, Hash)]
pub struct Slot(pub u32);

/// What a step did.
#[derive(Clone, Copy, Debug, PartialEq)]
pub enum Step {
    /// A removal.
    Removed {
        /// The removed point.
        index: PointIndex,
        /// Its area when it was removed; a zero area is +0.0.
        area: f64,
    },
    /// Nothing is left to remove, now and at each later step.
    Finished,
}

/// Eight slots that own their memory, each thinned one removal at a time by the index rule.
///
/// At every moment the removals answered since opening, plus the points listed by [`read`](WorkArea::read), make the points opened.
///
/// ```
/// use pylonfrith::{PointIndex, Slot, Step, WorkArea};
///
/// let (x, y) = ([5.0, 3.0, 6.0, 7.0, 10.0], [2.0, 8.0, 20.0, 25.0, 10.0]);
/// let mut area = WorkArea::new();
/// let slot = Slot(0);
///
/// area.open(slot, &x, &y, 30.0)?;
/// let first = area.step(slot)?;
/// assert_eq!(first, Step::Removed { index: PointIndex(2), area: 1.5 });
/// assert_eq!(area.read(slot)?, [0, 1, 3, 4]);
///
/// while let Step::Removed { index, area } = area.step(slot)? {
///     println!("removed {} of area {area}", index.get());
/// }
/// assert_eq!(area.read(slot)?, [0, 3, 4]);
/// area.close(slot)?;
/// # Ok::<(), pylonfrith::Refusal>(())
/// ```
#[derive(Clone)]
pub struct WorkArea {
    floats: Box<[f64]>,
    words: Box<[u32]>,
}

impl WorkArea {
    /// A work area with every slot closed.
    pub fn new() -> WorkArea {
        WorkArea {
            floats: vec![0.0; WORK_FLOATS].into_boxed_slice(),
            words: vec![0; WORK_WORDS].into_boxed_slice(),
        }
    }

    /// Closes every slot.
    pub fn clear(&mut self) {
        let cleared = lent::clear(&mut self.floats, &mut self.words);
        debug_assert_eq!(cleared, Ok(()), "the area has the table's size");
    }

    /// Opens a slot: copies the points and the tolerance into it.
    pub fn open(
        &mut self,
        slot: Slot,
        x: &[f64],
        y: &[f64],
        tolerance: f64,
    ) -> Result<(), Refusal> {
        lent::open(&mut self.floats, &mut self.words, slot, x, y, tolerance)
    }

    /// Makes one removal.
    pub fn step(&mut self, slot: Slot) -> Result<Step, Refusal> {
        lent::step(&mut self.floats, &mut self.words, slot)
    }

    /// The indices of the points left, in order.
    pub fn read(&self, slot: Slot) -> Result<Vec<u32>, Refusal> {
        let mut out = vec![0; POINTS];
        let count = self.read_into(slot, &mut out)?;
        out.truncate(count as usize);
        Ok(out)
    }

    /// As [`read`](WorkArea::read), to the start of the caller's list, which needs a place for each point left. Gives the count.
    pub fn read_into(&self, slot: Slot, out: &mut [u32]) -> Result<u32, Refusal> {
        lent::read(&self.floats, &self.words, slot, out)
    }

    /// Closes a slot, which can then be opened again.
    pub fn close(&mut self, slot: Slot) -> Result<(), Refusal> {
        lent::close(&mut self.floats, &mut self.words, slot)
    }
}

impl Default for WorkArea {
    fn default() -> WorkArea {
        WorkArea::new()
    }
}

impl fmt::Debug for WorkArea {
    fn fmt(&self, f: &mut fmt::Formatter<'_>) -> fmt::Result {
        f.debug_struct("WorkArea").finish_non_exhaustive()
    }
}

#[cfg(test)]
mod tests {
    use super::*;

    const X: [f64; 5] = [5.0, 3.0, 6.0, 7.0, 10.0];
    const Y: [f64; 5] = [2.0, 8.0, 20.0, 25.0, 10.0];

    fn removed(index: u32, area: f64) -> Result<Step, Refusal> {
        Ok(Step::Removed {
            index: PointIndex(index),
            area,
        })
    }

    #[test]
    fn two_slots_by_turns() {
        let mut area = WorkArea::new();
        let both = [Slot(0), Slot(1)];
        for slot in both {
            assert_eq!(area.open(slot, &X, &Y, 30.0), Ok(()));
        }
        for (index, size, left) in [(2, 1.5, vec![0, 1, 3, 4]), (1, 29.0, vec![0, 3, 4])] {
            for slot in both {
                assert_eq!(area.step(slot), removed(index, size));
                assert_eq!(area.read(slot), Ok(left.clone()));
            }
        }
        assert_eq!(area.close(Slot(0)), Ok(()));
        for _ in 0..2 {
            assert_eq!(area.step(Slot(0)), Err(Refusal::SlotNotOpen));
            assert_eq!(area.step(Slot(1)), Ok(Step::Finished));
        }
        assert_eq!(area.read(Slot(1)), Ok(vec![0, 3, 4]));
    }

    #[test]
    fn slot_seven_is_the_last() {
        let mut area = WorkArea::default();
        assert_eq!(area.open(Slot(7), &X, &Y, 30.0), Ok(()));
        assert_eq!(area.open(Slot(7), &X, &Y, 30.0), Err(Refusal::SlotIsOpen));
        for none in [Slot(8), Slot(u32::MAX)] {
            assert_eq!(area.open(none, &X, &Y, 30.0), Err(Refusal::NoSuchSlot));
            assert_eq!(area.step(none), Err(Refusal::NoSuchSlot));
            assert_eq!(area.read(none), Err(Refusal::NoSuchSlot));
            assert_eq!(area.close(none), Err(Refusal::NoSuchSlot));
        }
    }

    #[test]
    fn clear_closes_every_slot() {
        let mut area = WorkArea::new();
        for number in 0..8 {
            assert_eq!(area.open(Slot(number), &X, &Y, 30.0), Ok(()));
        }
        area.clear();
        for number in 0..8 {
            assert_eq!(area.close(Slot(number)), Err(Refusal::SlotNotOpen));
        }
    }

    #[test]
    fn no_points_are_finished_at_once() {
        let mut area = WorkArea::new();
        assert_eq!(area.open(Slot(3), &[], &[], 1.0), Ok(()));
        assert_eq!(area.step(Slot(3)), Ok(Step::Finished));
        assert_eq!(area.read(Slot(3)), Ok(vec![]));
        assert_eq!(area.read_into(Slot(3), &mut []), Ok(0));
    }

    #[test]
    fn reading_needs_a_place_for_each_point_left() {
        let mut area = WorkArea::new();
        assert_eq!(area.open(Slot(0), &X, &Y, 30.0), Ok(()));
        let mut out = [9; 5];
        assert_eq!(
            area.read_into(Slot(0), &mut out[..4]),
            Err(Refusal::OutputShort)
        );
        assert_eq!(out, [9; 5]);
        assert_eq!(area.step(Slot(0)), removed(2, 1.5));
        assert_eq!(area.read_into(Slot(0), &mut out[..4]), Ok(4));
        assert_eq!(out, [0, 1, 3, 4, 9]);
    }

    #[test]
    fn a_flat_area_is_plus_zero() {
        let mut area = WorkArea::new();
        let (x, y) = ([0.0, -1.0, -2.0], [-0.0, 0.0, -0.0]);
        assert_eq!(area.open(Slot(0), &x, &y, 0.0), Ok(()));
        match area.step(Slot(0)) {
            Ok(Step::Removed { area, .. }) => assert_eq!(area.to_bits(), 0.0_f64.to_bits()),
            other => panic!("{other:?}"),
        }
    }

    #[test]
    fn a_refused_open_leaves_the_slot_closed() {
        let mut area = WorkArea::new();
        assert_eq!(
            area.open(Slot(0), &[0.5], &[0.0], 1.0),
            Err(Refusal::OffGrid(PointIndex(0)))
        );
        assert_eq!(area.read(Slot(0)), Err(Refusal::SlotNotOpen));
    }
}
