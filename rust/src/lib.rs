//! Verified thinning of lines on a grid of whole numbers.
//!
//! The rule is Visvalingam and Whyatt's, with the names of crate geo: the point whose triangle with its two kept neighbours is
//! least goes first, the lower index in a tie, for as long as that area is not above the tolerance. The work is done by a native
//! archive whose source is proved: every answer is the one that the rule defines, on every input. This crate is its safe face.
//!
//! Coordinates are f64 on the grid: whole numbers from -16,777,216 to 16,777,216 (2^24), -0.0 counting as 0. There all areas
//! are exact. What is off the grid is refused, as is everything else in the table of [`Refusal`]; nothing is rounded.
//!
//! ```
//! use pylonfrith::simplify_vw_idx;
//!
//! let x = [5.0, 3.0, 6.0, 7.0, 10.0];
//! let y = [2.0, 8.0, 20.0, 25.0, 10.0];
//! assert_eq!(simplify_vw_idx(&x, &y, 30.0)?, [0, 3, 4]);
//! # Ok::<(), pylonfrith::Refusal>(())
//! ```
//!
//! - [`simplify_vw_idx`], [`simplify_vw`], [`simplify_vw_preserve`], [`simplify_vw_preserve_polygon`],
//!   [`remove_repeated_points`], [`remove_repeated_points_anywhere`]: whole calls on x and y, answered with indices
//! - [`SimplifyVwIdx`] and the other traits: the same on a slice of points, written as with geo
//! - [`WorkArea`]: eight slots, each thinned one removal at a time
//! - [`lent`]: the calls on the caller's own memory, without any allocation

#![deny(missing_docs)]
#![deny(unsafe_code)]
#![deny(unsafe_op_in_unsafe_fn)]

#[allow(unsafe_code)]
mod ffi;
mod geo;
pub mod lent;
mod refusal;
pub mod sizes;
mod whole;
mod work_area;

pub use geo::{
    RemoveRepeatedPoints, SimplifyVw, SimplifyVwIdx, SimplifyVwPreserve, SimplifyVwPreservePolygon,
};
pub use refusal::Refusal;
pub use whole::{
    remove_repeated_points, remove_repeated_points_anywhere, simplify_vw, simplify_vw_idx,
    simplify_vw_preserve, simplify_vw_preserve_polygon, Kept,
};
pub use work_area::{Slot, Step, WorkArea};

/// The index of a point among the points given. Never mixed with a [`Slot`].
#[derive(Clone, Copy, Debug, PartialEq, Eq, PartialOrd, Ord, Hash)]
pub struct PointIndex(pub u32);

impl PointIndex {
    /// The index, to look something up by.
    pub fn get(self) -> usize {
        self.0 as usize
    }
}
