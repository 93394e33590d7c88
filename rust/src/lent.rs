//! The eleven calls on lent memory, with the parameters of the proved functions: nothing is allocated, and every place that is
//! written is the caller's.
//!
//! A refusal leaves every lent slice with its old contents. An accepted call writes its list from the start of the output,
//! gives the count, and touches nothing past it. An accepted thinning call leaves its scratch zeroed, up to the size in
//! [`sizes`](crate::sizes).
//!
//! ```
//! use pylonfrith::{lent, Refusal};
//!
//! let (x, y) = ([5.0, 3.0, 6.0, 7.0, 10.0], [2.0, 8.0, 20.0, 25.0, 10.0]);
//! let mut out = [9; 5];
//! let (mut floats, mut words) = ([0.0; 15], [0; 60]);
//!
//! let count = lent::simplify_vw_idx(&x, &y, 30.0, &mut out, &mut floats, &mut words)?;
//! assert_eq!((count, out), (3, [0, 3, 4, 9, 9]));
//!
//! let short = lent::simplify_vw_idx(&x, &y, 30.0, &mut out[..4], &mut floats, &mut words);
//! assert_eq!(short, Err(Refusal::OutputShort));
//! # Ok::<(), Refusal>(())
//! ```

use crate::ffi::{self, Answer};
use crate::{PointIndex, Refusal, Slot, Step};

/// The count of an accepted call, or why it was refused.
fn count(answer: Answer) -> Result<u32, Refusal> {
    match answer.status() {
        0 => Ok(answer.value()),
        _ => Err(Refusal::of(answer)),
    }
}

fn done(answer: Answer) -> Result<(), Refusal> {
    count(answer).map(|_| ())
}

/// Plain thinning by the index rule: a tolerance of 0 removes flat points, a negative one removes nothing.
///
/// Reasons are tried in the order 1, 2, 4, 3, 7, 8, as in the other two thinning calls of a line.
pub fn simplify_vw_idx(
    x: &[f64],
    y: &[f64],
    tolerance: f64,
    out: &mut [u32],
    floats: &mut [f64],
    words: &mut [u32],
) -> Result<u32, Refusal> {
    count(ffi::simplify_vw_idx(x, y, tolerance, out, floats, words))
}

/// Plain thinning by the point rule: a tolerance of zero or less keeps every point.
pub fn simplify_vw(
    x: &[f64],
    y: &[f64],
    tolerance: f64,
    out: &mut [u32],
    floats: &mut [f64],
    words: &mut [u32],
) -> Result<u32, Refusal> {
    count(ffi::simplify_vw(x, y, tolerance, out, floats, words))
}

/// Topology-preserving thinning of a line.
pub fn simplify_vw_preserve(
    x: &[f64],
    y: &[f64],
    tolerance: f64,
    out: &mut [u32],
    floats: &mut [f64],
    words: &mut [u32],
) -> Result<u32, Refusal> {
    count(ffi::simplify_vw_preserve(
        x, y, tolerance, out, floats, words,
    ))
}

/// Topology-preserving thinning of a polygon. `rings` holds, per ring, the position one past its last point, the shell first;
/// `ring_out` gets such a table for the kept list.
///
/// Reasons are tried in the order 1, 2, 4, 3, 5, 6, 7, 8.
#[allow(clippy::too_many_arguments)] // the call's own
pub fn simplify_vw_preserve_polygon(
    x: &[f64],
    y: &[f64],
    tolerance: f64,
    rings: &[u32],
    out: &mut [u32],
    ring_out: &mut [u32],
    floats: &mut [f64],
    words: &mut [u32],
) -> Result<u32, Refusal> {
    count(ffi::simplify_vw_preserve_polygon(
        x, y, tolerance, rings, out, ring_out, floats, words,
    ))
}

/// Keeps the first of each run of equal points. Reasons are tried in the order 1, 2, 3, 7.
pub fn remove_repeated_points(x: &[f64], y: &[f64], out: &mut [u32]) -> Result<u32, Refusal> {
    count(ffi::remove_repeated_points(x, y, out))
}

/// Keeps the first appearance of each point. Reasons are tried in the order 1, 2, 3, 7.
pub fn remove_repeated_points_anywhere(
    x: &[f64],
    y: &[f64],
    out: &mut [u32],
) -> Result<u32, Refusal> {
    count(ffi::remove_repeated_points_anywhere(x, y, out))
}

/// Zeroes the work area up to the table's size, nothing past it. Reason: 8.
pub fn clear(floats: &mut [f64], words: &mut [u32]) -> Result<(), Refusal> {
    done(ffi::clear(floats, words))
}

/// Copies the points and the tolerance into the slot. Reasons: 8, 9, 10, 1, 2, 4, 3.
pub fn open(
    floats: &mut [f64],
    words: &mut [u32],
    slot: Slot,
    x: &[f64],
    y: &[f64],
    tolerance: f64,
) -> Result<(), Refusal> {
    done(ffi::open(floats, words, slot.0, x, y, tolerance))
}

/// Makes one removal of the index rule. Reasons: 8, 9, 11.
pub fn step(floats: &mut [f64], words: &mut [u32], slot: Slot) -> Result<Step, Refusal> {
    const FINISHED: u32 = 255;
    let mut area = 0.0;
    let answer = ffi::step(floats, words, slot.0, &mut area);
    match answer.status() {
        0 => Ok(Step::Removed {
            index: PointIndex(answer.value()),
            area,
        }),
        FINISHED => Ok(Step::Finished),
        _ => Err(Refusal::of(answer)),
    }
}

/// Lists the points left and leaves the work area as it is. Reasons: 8, 9, 11, 7.
pub fn read(floats: &[f64], words: &[u32], slot: Slot, out: &mut [u32]) -> Result<u32, Refusal> {
    count(ffi::read(floats, words, slot.0, out))
}

/// Zeroes the slot's part, which can then be opened again. Reasons: 8, 9, 11.
pub fn close(floats: &mut [f64], words: &mut [u32], slot: Slot) -> Result<(), Refusal> {
    done(ffi::close(floats, words, slot.0))
}
