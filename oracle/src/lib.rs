//! The given text of crate geo run beside a model of document 01. See README.md.

// The given text names `geo_types::GeometryCollection`; the geometry stand-ins are at this crate's root.
extern crate self as geo_types;

pub mod cases;
pub mod explain;
pub mod model;
pub mod random;
pub mod stand_ins;
pub mod vectors;

pub use stand_ins::*;

/// What the given text takes in by `use crate::prelude::*`. It also finds `rstar` here.
pub mod prelude {
    pub use crate::stand_ins::rstar;
    pub use crate::stand_ins::{Area, BoundingRect, Intersects};
}

/// The given text, unchanged.
#[rustfmt::skip]
#[allow(clippy::all)]
#[path = "../given/simplify_vw.rs"]
pub mod simplify_vw;

/// The given text, unchanged.
#[rustfmt::skip]
#[allow(clippy::all)]
#[path = "../given/remove_repeated_points.rs"]
pub mod remove_repeated_points;

/// The given text with the tie order, made by `make-tied`.
#[rustfmt::skip]
#[allow(clippy::all)]
#[path = "../given_tied/simplify_vw.rs"]
pub mod simplify_vw_tied;

pub type Pair = (f64, f64);

/// The thinning calls over one of the two texts, on point lists. `kept` has the same calls answered with
/// indices: the text is run on `Tagged` numbers, and the tags of the listed points are read.
macro_rules! face {
    ($(#[$doc:meta])* $name:ident, $text:ident) => {
        $(#[$doc])*
        pub mod $name {
            use crate::{coords, polygon_of, rings_of, Pair};
            use crate::$text::{SimplifyVw, SimplifyVwIdx, SimplifyVwPreserve};
            use crate::LineString;

            /// `simplify_vw_idx`: the kept indices.
            pub fn idx(points: &[Pair], tolerance: f64) -> Vec<usize> {
                LineString(coords::plain(points)).simplify_vw_idx(tolerance)
            }

            /// `simplify_vw`: the kept points.
            pub fn points(points: &[Pair], tolerance: f64) -> Vec<Pair> {
                coords::pairs(&LineString(coords::plain(points)).simplify_vw(tolerance).0)
            }

            /// `simplify_vw_preserve` of a line: the kept points.
            pub fn preserve_line(points: &[Pair], tolerance: f64) -> Vec<Pair> {
                coords::pairs(&LineString(coords::plain(points)).simplify_vw_preserve(tolerance).0)
            }

            /// `simplify_vw_preserve` of a polygon, shell first: the kept points of each ring.
            pub fn preserve_polygon(rings: &[Vec<Pair>], tolerance: f64) -> Vec<Vec<Pair>> {
                let rings = rings.iter().map(|ring| coords::plain(ring)).collect();
                rings_of(&polygon_of(rings).simplify_vw_preserve(tolerance))
                    .iter()
                    .map(|ring| coords::pairs(ring))
                    .collect()
            }

            /// The same calls, answered with indices.
            pub mod kept {
                use crate::{coords, polygon_of, rings_of, CoordFloat, Pair, Tagged};
                use crate::$text::{SimplifyVw, SimplifyVwIdx, SimplifyVwPreserve};
                use crate::LineString;

                pub fn idx(points: &[Pair], tolerance: f64) -> Vec<usize> {
                    LineString(coords::tagged(points, 0)).simplify_vw_idx(Tagged::from_f64(tolerance))
                }

                pub fn points(points: &[Pair], tolerance: f64) -> Vec<usize> {
                    let line = LineString(coords::tagged(points, 0));
                    coords::indices(&line.simplify_vw(Tagged::from_f64(tolerance)).0)
                }

                pub fn preserve_line(points: &[Pair], tolerance: f64) -> Vec<usize> {
                    let line = LineString(coords::tagged(points, 0));
                    coords::indices(&line.simplify_vw_preserve(Tagged::from_f64(tolerance)).0)
                }

                /// Points are numbered through all rings.
                pub fn preserve_polygon(rings: &[Vec<Pair>], tolerance: f64) -> Vec<Vec<usize>> {
                    let mut first = 0;
                    let mut numbered = Vec::new();
                    for ring in rings {
                        numbered.push(coords::tagged(ring, first));
                        first += ring.len();
                    }
                    let thinned = polygon_of(numbered).simplify_vw_preserve(Tagged::from_f64(tolerance));
                    rings_of(&thinned).iter().map(|ring| coords::indices(ring)).collect()
                }
            }
        }
    };
}

face!(
    /// The given text as it is: no order among equal areas.
    given,
    simplify_vw
);
face!(
    /// The given text with the tie order: the lower index first.
    tied,
    simplify_vw_tied
);

/// The given text for repeated points.
pub mod repeated {
    use crate::remove_repeated_points::RemoveRepeatedPoints;
    use crate::{coords, LineString, MultiPoint, Pair, Point};

    pub fn consecutive(points: &[Pair]) -> Vec<Pair> {
        coords::pairs(&LineString(coords::plain(points)).remove_repeated_points().0)
    }

    pub fn anywhere(points: &[Pair]) -> Vec<Pair> {
        let all = coords::plain(points).into_iter().map(Point).collect();
        let firsts = MultiPoint(all).remove_repeated_points();
        coords::pairs(&firsts.0.iter().map(|point| point.0).collect::<Vec<_>>())
    }

    /// The same calls, answered with indices.
    pub mod kept {
        use crate::remove_repeated_points::RemoveRepeatedPoints;
        use crate::{coords, LineString, MultiPoint, Pair, Point};

        pub fn consecutive(points: &[Pair]) -> Vec<usize> {
            coords::indices(
                &LineString(coords::tagged(points, 0))
                    .remove_repeated_points()
                    .0,
            )
        }

        pub fn anywhere(points: &[Pair]) -> Vec<usize> {
            let all = coords::tagged(points, 0).into_iter().map(Point).collect();
            let firsts = MultiPoint(all).remove_repeated_points();
            coords::indices(&firsts.0.iter().map(|point| point.0).collect::<Vec<_>>())
        }
    }
}

/// Whether `listed` is the list of the points at `kept`, by value (-0.0 equals 0).
pub fn same_points(points: &[Pair], kept: &[usize], listed: &[Pair]) -> bool {
    kept.len() == listed.len()
        && kept
            .iter()
            .zip(listed)
            .all(|(&index, &point)| points[index] == point)
}

/// Points to and from the stand-ins.
mod coords {
    use crate::{Coord, Pair, Tagged};

    pub fn plain(points: &[Pair]) -> Vec<Coord<f64>> {
        points.iter().map(|&(x, y)| Coord { x, y }).collect()
    }

    pub fn pairs(coords: &[Coord<f64>]) -> Vec<Pair> {
        coords.iter().map(|coord| (coord.x, coord.y)).collect()
    }

    pub fn tagged(points: &[Pair], first: usize) -> Vec<Coord<Tagged>> {
        let number = |value, at| Tagged {
            value,
            index: Some(first + at),
        };
        let numbered = points.iter().enumerate();
        numbered
            .map(|(at, &(x, y))| Coord {
                x: number(x, at),
                y: number(y, at),
            })
            .collect()
    }

    pub fn indices(coords: &[Coord<Tagged>]) -> Vec<usize> {
        coords
            .iter()
            .map(|coord| {
                assert_eq!(coord.x.index, coord.y.index, "a point not of the input");
                coord.x.index.expect("a point not of the input")
            })
            .collect()
    }
}

/// Shell first. Panics without a ring.
fn polygon_of<T: CoordNum>(mut rings: Vec<Vec<Coord<T>>>) -> Polygon<T> {
    let shell = LineString(rings.remove(0));
    Polygon::new(shell, rings.into_iter().map(LineString).collect())
}

fn rings_of<T: CoordNum>(polygon: &Polygon<T>) -> Vec<Vec<Coord<T>>> {
    let mut rings = vec![polygon.exterior().0.clone()];
    rings.extend(polygon.interiors().iter().map(|ring| ring.0.clone()));
    rings
}
