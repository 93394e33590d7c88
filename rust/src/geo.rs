//! The calls as methods of a slice of points, with the names of crate geo.
//!
//! A point is anything that can be copied and turned into `(f64, f64)`: the pair itself, or a type of one's own. This is meant
//! for geo's `Coord<f64>` and `Point<f64>` too, so that `line.simplify_vw_idx(30.0)` of a `LineString` becomes
//! `line.0.simplify_vw_idx(30.0)?`; but nothing here is compiled against geo, so that is not tried.

use crate::{
    remove_repeated_points, remove_repeated_points_anywhere, simplify_vw, simplify_vw_idx,
    simplify_vw_preserve, simplify_vw_preserve_polygon, Refusal,
};

/// Plain thinning by the point rule, answered with points.
pub trait SimplifyVw<P> {
    /// The kept points. An `epsilon` of zero or less keeps every point.
    ///
    /// ```
    /// use pylonfrith::SimplifyVw;
    ///
    /// let line = [(5.0, 2.0), (3.0, 8.0), (6.0, 20.0), (7.0, 25.0), (10.0, 10.0)];
    /// assert_eq!(line.simplify_vw(30.0)?, [(5.0, 2.0), (7.0, 25.0), (10.0, 10.0)]);
    /// # Ok::<(), pylonfrith::Refusal>(())
    /// ```
    fn simplify_vw(&self, epsilon: f64) -> Result<Vec<P>, Refusal>;
}

/// Plain thinning by the index rule.
pub trait SimplifyVwIdx {
    /// The kept indices. An `epsilon` of 0 removes flat points, and a negative one removes nothing.
    ///
    /// ```
    /// use pylonfrith::SimplifyVwIdx;
    ///
    /// let line = [(5.0, 2.0), (3.0, 8.0), (6.0, 20.0), (7.0, 25.0), (10.0, 10.0)];
    /// let depths = [12.1, 12.4, 13.0, 12.8, 11.9];
    /// let kept: Vec<f64> = line.simplify_vw_idx(30.0)?.into_iter().map(|i| depths[i]).collect();
    /// assert_eq!(kept, [12.1, 12.8, 11.9]);
    /// # Ok::<(), pylonfrith::Refusal>(())
    /// ```
    fn simplify_vw_idx(&self, epsilon: f64) -> Result<Vec<usize>, Refusal>;
}

/// Topology-preserving thinning of a line, answered with points.
pub trait SimplifyVwPreserve<P> {
    /// The kept points. An `epsilon` of zero or less keeps every point.
    ///
    /// ```
    /// use pylonfrith::SimplifyVwPreserve;
    ///
    /// let line = [
    ///     (10.0, 60.0), (135.0, 68.0), (94.0, 48.0), (126.0, 31.0),
    ///     (280.0, 19.0), (117.0, 48.0), (300.0, 40.0), (301.0, 10.0),
    /// ];
    /// let kept = line.simplify_vw_preserve(668.6)?;
    /// assert_eq!(kept[..2], [(10.0, 60.0), (126.0, 31.0)]);
    /// assert_eq!(kept[2..], line[4..]);
    /// # Ok::<(), pylonfrith::Refusal>(())
    /// ```
    fn simplify_vw_preserve(&self, epsilon: f64) -> Result<Vec<P>, Refusal>;
}

/// Topology-preserving thinning of a polygon's rings, answered with points.
pub trait SimplifyVwPreservePolygon<P> {
    /// The kept points of each ring, the shell first. A ring with points ends on its first one. An `epsilon` of zero or less
    /// keeps every point.
    ///
    /// ```
    /// use pylonfrith::SimplifyVwPreservePolygon;
    ///
    /// let shell = vec![(0.0, 0.0), (4.0, 0.0), (4.0, 4.0), (0.0, 4.0), (0.0, 0.0)];
    /// let kept = [shell].simplify_vw_preserve_polygon(100.0)?;
    /// assert_eq!(kept, [[(0.0, 0.0), (4.0, 4.0), (0.0, 4.0), (0.0, 0.0)]]);
    /// # Ok::<(), pylonfrith::Refusal>(())
    /// ```
    fn simplify_vw_preserve_polygon(&self, epsilon: f64) -> Result<Vec<Vec<P>>, Refusal>;
}

/// Repeated points. Points are equal by value: -0.0 equals 0.
pub trait RemoveRepeatedPoints<P> {
    /// The first of each run of equal points, as geo has it for a `LineString`.
    ///
    /// ```
    /// use pylonfrith::RemoveRepeatedPoints;
    ///
    /// let line = [(0.0, 0.0), (0.0, 0.0), (1.0, 0.0), (0.0, 0.0)];
    /// assert_eq!(line.remove_repeated_points()?, [(0.0, 0.0), (1.0, 0.0), (0.0, 0.0)]);
    /// # Ok::<(), pylonfrith::Refusal>(())
    /// ```
    fn remove_repeated_points(&self) -> Result<Vec<P>, Refusal>;

    /// The first appearance of each point, as geo has it for a `MultiPoint`.
    ///
    /// ```
    /// use pylonfrith::RemoveRepeatedPoints;
    ///
    /// let points = [(0.0, 0.0), (0.0, 0.0), (1.0, 0.0), (0.0, 0.0)];
    /// assert_eq!(points.remove_repeated_points_anywhere()?, [(0.0, 0.0), (1.0, 0.0)]);
    /// # Ok::<(), pylonfrith::Refusal>(())
    /// ```
    fn remove_repeated_points_anywhere(&self) -> Result<Vec<P>, Refusal>;
}

impl<P: Copy + Into<(f64, f64)>> SimplifyVw<P> for [P] {
    fn simplify_vw(&self, epsilon: f64) -> Result<Vec<P>, Refusal> {
        let (x, y) = apart(self);
        Ok(picked(self, &simplify_vw(&x, &y, epsilon)?))
    }
}

impl<P: Copy + Into<(f64, f64)>> SimplifyVwIdx for [P] {
    fn simplify_vw_idx(&self, epsilon: f64) -> Result<Vec<usize>, Refusal> {
        let (x, y) = apart(self);
        let kept = simplify_vw_idx(&x, &y, epsilon)?;
        Ok(kept.into_iter().map(|index| index as usize).collect())
    }
}

impl<P: Copy + Into<(f64, f64)>> SimplifyVwPreserve<P> for [P] {
    fn simplify_vw_preserve(&self, epsilon: f64) -> Result<Vec<P>, Refusal> {
        let (x, y) = apart(self);
        Ok(picked(self, &simplify_vw_preserve(&x, &y, epsilon)?))
    }
}

impl<P: Copy + Into<(f64, f64)>> SimplifyVwPreservePolygon<P> for [Vec<P>] {
    fn simplify_vw_preserve_polygon(&self, epsilon: f64) -> Result<Vec<Vec<P>>, Refusal> {
        let all = self.concat();
        let (x, y) = apart(&all);
        let kept = simplify_vw_preserve_polygon(&x, &y, epsilon, &ring_table(self))?;
        let mut start = 0;
        let rings = kept.rings.iter().map(|&end| {
            let ring = start..end as usize;
            start = end as usize;
            picked(&all, &kept.points[ring])
        });
        Ok(rings.collect())
    }
}

impl<P: Copy + Into<(f64, f64)>> RemoveRepeatedPoints<P> for [P] {
    fn remove_repeated_points(&self) -> Result<Vec<P>, Refusal> {
        let (x, y) = apart(self);
        Ok(picked(self, &remove_repeated_points(&x, &y)?))
    }

    fn remove_repeated_points_anywhere(&self) -> Result<Vec<P>, Refusal> {
        let (x, y) = apart(self);
        Ok(picked(self, &remove_repeated_points_anywhere(&x, &y)?))
    }
}

fn apart<P: Copy + Into<(f64, f64)>>(points: &[P]) -> (Vec<f64>, Vec<f64>) {
    points.iter().map(|&point| point.into()).unzip()
}

fn picked<P: Copy>(points: &[P], kept: &[u32]) -> Vec<P> {
    kept.iter().map(|&index| points[index as usize]).collect()
}

/// The ring table of these rings. An end that is no u32 becomes the greatest one: a call on so many points is refused anyway.
fn ring_table<P>(rings: &[Vec<P>]) -> Vec<u32> {
    let mut end = 0;
    let ends = rings.iter().map(|ring| {
        end += ring.len();
        u32::try_from(end).unwrap_or(u32::MAX)
    });
    ends.collect()
}

#[cfg(test)]
mod tests {
    use super::*;
    use crate::PointIndex;

    /// A point as a geometry crate has it.
    #[derive(Clone, Copy, Debug, PartialEq)]
    struct Coord {
        x: f64,
        y: f64,
    }

    impl From<Coord> for (f64, f64) {
        fn from(coord: Coord) -> (f64, f64) {
            (coord.x, coord.y)
        }
    }

    fn coords(points: &[(f64, f64)]) -> Vec<Coord> {
        points.iter().map(|&(x, y)| Coord { x, y }).collect()
    }

    #[test]
    fn a_type_of_ones_own() {
        let line = coords(&[
            (5.0, 2.0),
            (3.0, 8.0),
            (6.0, 20.0),
            (7.0, 25.0),
            (10.0, 10.0),
        ]);
        assert_eq!(line.simplify_vw_idx(30.0), Ok(vec![0, 3, 4]));
        let kept = coords(&[(5.0, 2.0), (7.0, 25.0), (10.0, 10.0)]);
        assert_eq!(line.simplify_vw(30.0), Ok(kept.clone()));
        assert_eq!(line.simplify_vw_preserve(30.0), Ok(kept));
    }

    #[test]
    fn rings_stay_apart() {
        let square = |from: f64, to: f64| {
            coords(&[(from, from), (to, from), (to, to), (from, to), (from, from)])
        };
        let rings = [square(0.0, 90.0), vec![], square(30.0, 60.0)];
        assert_eq!(rings.simplify_vw_preserve_polygon(0.0), Ok(rings.to_vec()));
        let kept = rings.simplify_vw_preserve_polygon(450.0).expect("accepted");
        assert_eq!(kept[..2], rings[..2]);
        assert_eq!(
            kept[2],
            coords(&[(30.0, 30.0), (60.0, 60.0), (30.0, 60.0), (30.0, 30.0)])
        );
    }

    #[test]
    fn a_kept_point_keeps_its_sign_of_zero() {
        let points = [(-0.0, 0.0), (0.0, -0.0)];
        let kept = points.remove_repeated_points().expect("accepted");
        assert_eq!(kept.len(), 1);
        assert!(kept[0].0.is_sign_negative());
    }

    #[test]
    fn refusals_come_through() {
        let line = [(0.0, 0.0), (0.5, 0.0)];
        let refused = Refusal::OffGrid(PointIndex(1));
        assert_eq!(line.simplify_vw_idx(1.0), Err(refused));
        assert_eq!(line.remove_repeated_points_anywhere(), Err(refused));
        let open = [vec![(0.0, 0.0), (1.0, 0.0)]];
        assert_eq!(
            open.simplify_vw_preserve_polygon(1.0),
            Err(Refusal::RingNotClosed)
        );
    }
}
