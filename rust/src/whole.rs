//! The whole calls, with memory of their own.

use crate::sizes::{POINTS, SCRATCH_FLOATS_PER_POINT, SCRATCH_WORDS_PER_POINT};
use crate::{lent, Refusal};

/// The kept points of a polygon.
#[derive(Clone, Debug, PartialEq, Eq)]
pub struct Kept {
    /// The kept indices of all rings, in order.
    pub points: Vec<u32>,
    /// The ring table of that list: per ring, the position one past its last point.
    pub rings: Vec<u32>,
}

/// Output and scratch for a call on some points.
struct Memory {
    out: Vec<u32>,
    floats: Vec<f64>,
    words: Vec<u32>,
}

impl Memory {
    /// Enough for this many points. A call on more than 4,096 is refused before it looks at its memory.
    fn for_points(count: usize) -> Memory {
        let count = count.min(POINTS);
        Memory {
            out: vec![0; count],
            floats: vec![0.0; SCRATCH_FLOATS_PER_POINT * count],
            words: vec![0; SCRATCH_WORDS_PER_POINT * count],
        }
    }
}

/// The list that a call wrote at the start of `out`.
fn listed(mut out: Vec<u32>, count: u32) -> Vec<u32> {
    out.truncate(count as usize);
    out
}

/// One of the three thinning calls of a line.
type OfALine = fn(&[f64], &[f64], f64, &mut [u32], &mut [f64], &mut [u32]) -> Result<u32, Refusal>;

fn thin(call: OfALine, x: &[f64], y: &[f64], tolerance: f64) -> Result<Vec<u32>, Refusal> {
    let mut memory = Memory::for_points(x.len());
    let count = call(
        x,
        y,
        tolerance,
        &mut memory.out,
        &mut memory.floats,
        &mut memory.words,
    )?;
    Ok(listed(memory.out, count))
}

/// Plain thinning by the index rule: the kept indices.
///
/// A tolerance of 0 removes flat points, and a negative one removes nothing.
///
/// ```
/// use pylonfrith::simplify_vw_idx;
///
/// let (x, y) = ([5.0, 3.0, 6.0, 7.0, 10.0], [2.0, 8.0, 20.0, 25.0, 10.0]);
/// assert_eq!(simplify_vw_idx(&x, &y, 30.0)?, [0, 3, 4]);
/// assert_eq!(simplify_vw_idx(&x, &y, 28.5)?, [0, 1, 3, 4]);
/// # Ok::<(), pylonfrith::Refusal>(())
/// ```
pub fn simplify_vw_idx(x: &[f64], y: &[f64], tolerance: f64) -> Result<Vec<u32>, Refusal> {
    thin(lent::simplify_vw_idx, x, y, tolerance)
}

/// Plain thinning by the point rule: the kept indices. A tolerance of zero or less keeps every point.
///
/// ```
/// use pylonfrith::{simplify_vw, simplify_vw_idx};
///
/// let (x, y) = ([0.0, 1.0, 2.0], [0.0, 1.0, 2.0]);
/// assert_eq!(simplify_vw(&x, &y, 0.0)?, [0, 1, 2]);
/// assert_eq!(simplify_vw_idx(&x, &y, 0.0)?, [0, 2]);
/// # Ok::<(), pylonfrith::Refusal>(())
/// ```
pub fn simplify_vw(x: &[f64], y: &[f64], tolerance: f64) -> Result<Vec<u32>, Refusal> {
    thin(lent::simplify_vw, x, y, tolerance)
}

/// Topology-preserving thinning of a line: the kept indices. A tolerance of zero or less keeps every point.
///
/// Where a removal makes the line cross itself, the point before the removed one goes next.
///
/// ```
/// use pylonfrith::simplify_vw_preserve;
///
/// let x = [10.0, 135.0, 94.0, 126.0, 280.0, 117.0, 300.0, 301.0];
/// let y = [60.0, 68.0, 48.0, 31.0, 19.0, 48.0, 40.0, 10.0];
/// assert_eq!(simplify_vw_preserve(&x, &y, 668.6)?, [0, 3, 4, 5, 6, 7]);
/// # Ok::<(), pylonfrith::Refusal>(())
/// ```
pub fn simplify_vw_preserve(x: &[f64], y: &[f64], tolerance: f64) -> Result<Vec<u32>, Refusal> {
    thin(lent::simplify_vw_preserve, x, y, tolerance)
}

/// Topology-preserving thinning of a polygon: the kept indices and their ring table.
///
/// `rings` holds, per ring, the position one past its last point; the shell is first; empty rings are allowed. A ring with points
/// ends on its first one.
///
/// ```
/// use pylonfrith::simplify_vw_preserve_polygon;
///
/// let (x, y) = ([0.0, 4.0, 4.0, 0.0, 0.0], [0.0, 0.0, 4.0, 4.0, 0.0]);
/// let kept = simplify_vw_preserve_polygon(&x, &y, 100.0, &[5])?;
/// assert_eq!(kept.points, [0, 2, 3, 4]);
/// assert_eq!(kept.rings, [4]);
/// # Ok::<(), pylonfrith::Refusal>(())
/// ```
pub fn simplify_vw_preserve_polygon(
    x: &[f64],
    y: &[f64],
    tolerance: f64,
    rings: &[u32],
) -> Result<Kept, Refusal> {
    let mut memory = Memory::for_points(x.len());
    let mut ring_out = vec![0; rings.len()];
    let count = lent::simplify_vw_preserve_polygon(
        x,
        y,
        tolerance,
        rings,
        &mut memory.out,
        &mut ring_out,
        &mut memory.floats,
        &mut memory.words,
    )?;
    Ok(Kept {
        points: listed(memory.out, count),
        rings: ring_out,
    })
}

/// Consecutive repeated points: keeps the first of each run of equal points. -0.0 equals 0.
///
/// ```
/// use pylonfrith::remove_repeated_points;
///
/// let (x, y) = ([0.0, 0.0, 1.0, 0.0], [0.0, 0.0, 0.0, 0.0]);
/// assert_eq!(remove_repeated_points(&x, &y)?, [0, 2, 3]);
/// # Ok::<(), pylonfrith::Refusal>(())
/// ```
pub fn remove_repeated_points(x: &[f64], y: &[f64]) -> Result<Vec<u32>, Refusal> {
    let mut out = vec![0; x.len().min(POINTS)];
    let count = lent::remove_repeated_points(x, y, &mut out)?;
    Ok(listed(out, count))
}

/// Points repeated anywhere: keeps the first appearance of each point. -0.0 equals 0.
///
/// ```
/// use pylonfrith::remove_repeated_points_anywhere;
///
/// let (x, y) = ([0.0, 0.0, 1.0, 0.0], [0.0, 0.0, 0.0, 0.0]);
/// assert_eq!(remove_repeated_points_anywhere(&x, &y)?, [0, 2]);
/// # Ok::<(), pylonfrith::Refusal>(())
/// ```
pub fn remove_repeated_points_anywhere(x: &[f64], y: &[f64]) -> Result<Vec<u32>, Refusal> {
    let mut out = vec![0; x.len().min(POINTS)];
    let count = lent::remove_repeated_points_anywhere(x, y, &mut out)?;
    Ok(listed(out, count))
}

#[cfg(test)]
mod tests {
    use super::*;
    use crate::PointIndex;

    const L: ([f64; 5], [f64; 5]) = ([5.0, 3.0, 6.0, 7.0, 10.0], [2.0, 8.0, 20.0, 25.0, 10.0]);
    const M: ([f64; 8], [f64; 8]) = (
        [10.0, 135.0, 94.0, 126.0, 280.0, 117.0, 300.0, 301.0],
        [60.0, 68.0, 48.0, 31.0, 19.0, 48.0, 40.0, 10.0],
    );

    #[test]
    fn p1_to_p3() {
        assert_eq!(simplify_vw_idx(&L.0, &L.1, 30.0), Ok(vec![0, 3, 4]));
        assert_eq!(simplify_vw_idx(&L.0, &L.1, 29.0), Ok(vec![0, 3, 4]));
        assert_eq!(simplify_vw_idx(&L.0, &L.1, 28.5), Ok(vec![0, 1, 3, 4]));
    }

    #[test]
    fn p4_and_p5() {
        let line = [0.0, 1.0, 2.0];
        assert_eq!(simplify_vw_idx(&line, &line, 0.0), Ok(vec![0, 2]));
        assert_eq!(simplify_vw(&line, &line, 0.0), Ok(vec![0, 1, 2]));
    }

    #[test]
    fn p6_takes_the_lower_index_in_a_tie() {
        let (x, y) = ([0.0, 1.0, 2.0, 3.0, 4.0], [0.0, 1.0, 0.0, 1.0, 0.0]);
        assert_eq!(simplify_vw_idx(&x, &y, 1.0), Ok(vec![0, 3, 4]));
    }

    #[test]
    fn p7_to_p9() {
        let all: Vec<u32> = (0..8).collect();
        assert_eq!(
            simplify_vw(&M.0, &M.1, 668.6),
            Ok(vec![0, 1, 3, 4, 5, 6, 7])
        );
        assert_eq!(
            simplify_vw_preserve(&M.0, &M.1, 668.6),
            Ok(vec![0, 3, 4, 5, 6, 7])
        );
        assert_eq!(simplify_vw(&M.0, &M.1, 668.0), Ok(all.clone()));
        assert_eq!(simplify_vw_preserve(&M.0, &M.1, 668.0), Ok(all));
    }

    #[test]
    fn p10_with_an_empty_ring() {
        let (x, y) = ([0.0, 4.0, 4.0, 0.0, 0.0], [0.0, 0.0, 4.0, 4.0, 0.0]);
        let kept = simplify_vw_preserve_polygon(&x, &y, 100.0, &[5, 5]);
        let expected = Kept {
            points: vec![0, 2, 3, 4],
            rings: vec![4, 4],
        };
        assert_eq!(kept, Ok(expected));
    }

    #[test]
    fn p12_no_points() {
        assert_eq!(simplify_vw_idx(&[], &[], 1.0), Ok(vec![]));
        assert_eq!(simplify_vw_preserve(&[], &[], 1.0), Ok(vec![]));
        assert_eq!(remove_repeated_points(&[], &[]), Ok(vec![]));
        assert_eq!(remove_repeated_points_anywhere(&[], &[]), Ok(vec![]));
        let kept = simplify_vw_preserve_polygon(&[], &[], 1.0, &[0]).expect("accepted");
        assert_eq!(kept.rings, [0]);
    }

    #[test]
    fn minus_zero_is_zero() {
        let (x, y) = ([0.0, -0.0, 1.0], [-0.0, 0.0, 0.0]);
        assert_eq!(remove_repeated_points(&x, &y), Ok(vec![0, 2]));
    }

    #[test]
    fn refusals() {
        assert_eq!(
            simplify_vw_idx(&[0.0], &[], 1.0),
            Err(Refusal::LengthsDiffer)
        );
        let many = vec![0.0; POINTS + 1];
        assert_eq!(simplify_vw(&many, &many, 1.0), Err(Refusal::TooManyPoints));
        assert_eq!(
            remove_repeated_points_anywhere(&many, &many),
            Err(Refusal::TooManyPoints)
        );
        assert_eq!(
            simplify_vw_preserve(&[16_777_217.0], &[0.0], 1.0),
            Err(Refusal::OffGrid(PointIndex(0)))
        );
        assert_eq!(
            simplify_vw_idx(&[16_777_217.0], &[0.0], f64::NAN),
            Err(Refusal::ToleranceNotFinite)
        );
        assert_eq!(
            simplify_vw_preserve_polygon(&[0.0], &[0.0], 1.0, &[]),
            Err(Refusal::RingTable)
        );
        assert_eq!(
            simplify_vw_preserve_polygon(&[0.0, 1.0], &[0.0, 0.0], 1.0, &[2]),
            Err(Refusal::RingNotClosed)
        );
    }

    #[test]
    fn the_most_points() {
        let x: Vec<f64> = (0..POINTS as u32).map(f64::from).collect();
        let y = vec![-16_777_216.0; POINTS];
        assert_eq!(simplify_vw_idx(&x, &y, 0.0), Ok(vec![0, 4_095]));
    }
}
