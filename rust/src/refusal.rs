//! Why a call was refused.

use crate::ffi::Answer;
use crate::PointIndex;
use std::error::Error;
use std::fmt;

/// Why a call was refused. A refusal leaves every lent slice with its old contents.
///
/// ```
/// use pylonfrith::{simplify_vw_idx, PointIndex, Refusal};
///
/// let refusal = simplify_vw_idx(&[0.0, 1.0, 0.5], &[0.0, 1.0, 2.0], 1.0).unwrap_err();
/// assert_eq!(refusal, Refusal::OffGrid(PointIndex(2)));
/// assert_eq!(refusal.number(), 3);
/// assert_eq!(
///     refusal.to_string(),
///     "reason 3: point 2 is off the grid: a coordinate is not a whole number from -16,777,216 to 16,777,216"
/// );
/// ```
#[derive(Clone, Copy, Debug, PartialEq, Eq, Hash)]
pub enum Refusal {
    /// 1: x and y differ in length.
    LengthsDiffer,
    /// 2: more than 4,096 points.
    TooManyPoints,
    /// 3: a coordinate is off the grid; the least such point index comes with it.
    OffGrid(PointIndex),
    /// 4: the tolerance is NaN or infinite.
    ToleranceNotFinite,
    /// 5: ring table empty, longer than 64, decreasing, or last entry not the number of points.
    RingTable,
    /// 6: a ring with points whose first and last differ.
    RingNotClosed,
    /// 7: output too short.
    OutputShort,
    /// 8: scratch or work area shorter than the table of sizes.
    MemoryShort,
    /// 9: slot number above 7.
    NoSuchSlot,
    /// 10: opening a slot that is open.
    SlotIsOpen,
    /// 11: step, read or close of a slot that is not open.
    SlotNotOpen,
}

impl Refusal {
    /// Document 01's number, 1 to 11.
    pub fn number(self) -> u32 {
        match self {
            Refusal::LengthsDiffer => 1,
            Refusal::TooManyPoints => 2,
            Refusal::OffGrid(_) => 3,
            Refusal::ToleranceNotFinite => 4,
            Refusal::RingTable => 5,
            Refusal::RingNotClosed => 6,
            Refusal::OutputShort => 7,
            Refusal::MemoryShort => 8,
            Refusal::NoSuchSlot => 9,
            Refusal::SlotIsOpen => 10,
            Refusal::SlotNotOpen => 11,
        }
    }

    /// The refusal of an answer whose status is neither 'accepted' nor 'finished'.
    pub(crate) fn of(answer: Answer) -> Refusal {
        match answer.status() {
            1 => Refusal::LengthsDiffer,
            2 => Refusal::TooManyPoints,
            3 => Refusal::OffGrid(PointIndex(answer.value())),
            4 => Refusal::ToleranceNotFinite,
            5 => Refusal::RingTable,
            6 => Refusal::RingNotClosed,
            7 => Refusal::OutputShort,
            8 => Refusal::MemoryShort,
            9 => Refusal::NoSuchSlot,
            10 => Refusal::SlotIsOpen,
            11 => Refusal::SlotNotOpen,
            status => panic!("the archive answered with {status}, which is no reason"),
        }
    }
}

impl fmt::Display for Refusal {
    fn fmt(&self, f: &mut fmt::Formatter<'_>) -> fmt::Result {
        write!(f, "reason {}: ", self.number())?;
        match self {
            Refusal::LengthsDiffer => f.write_str("x and y differ in length"),
            Refusal::TooManyPoints => f.write_str("more than 4,096 points"),
            Refusal::OffGrid(PointIndex(index)) => write!(
                f,
                "point {index} is off the grid: a coordinate is not a whole number from -16,777,216 to 16,777,216"
            ),
            Refusal::ToleranceNotFinite => f.write_str("the tolerance is NaN or infinite"),
            Refusal::RingTable => f.write_str(
                "ring table empty, longer than 64, decreasing, or last entry not the number of points",
            ),
            Refusal::RingNotClosed => f.write_str("a ring with points whose first and last differ"),
            Refusal::OutputShort => f.write_str("output too short"),
            Refusal::MemoryShort => {
                f.write_str("scratch or work area shorter than the table of sizes")
            }
            Refusal::NoSuchSlot => f.write_str("slot number above 7"),
            Refusal::SlotIsOpen => f.write_str("opening a slot that is open"),
            Refusal::SlotNotOpen => f.write_str("step, read or close of a slot that is not open"),
        }
    }
}

impl Error for Refusal {}

#[cfg(test)]
mod tests {
    use super::*;

    #[test]
    fn numbers_are_those_of_the_packed_answer() {
        for status in 1..=11 {
            let refusal = Refusal::of(Answer::of(status, 0));
            assert_eq!(refusal.number(), status);
            assert!(refusal
                .to_string()
                .starts_with(&format!("reason {status}: ")));
        }
    }

    #[test]
    fn off_grid_carries_its_point() {
        let refusal = Refusal::of(Answer::of(3, 17));
        assert_eq!(refusal, Refusal::OffGrid(PointIndex(17)));
        assert!(refusal.to_string().contains("point 17"));
    }

    #[test]
    #[should_panic(expected = "no reason")]
    fn other_statuses_are_not_reasons() {
        Refusal::of(Answer::of(12, 0));
    }

    #[test]
    fn is_an_error() {
        let error: Box<dyn Error + Send + Sync> = Box::new(Refusal::SlotIsOpen);
        assert_eq!(error.to_string(), "reason 10: opening a slot that is open");
    }
}
