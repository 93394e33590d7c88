//! Stand-ins: the least that lets the given text compile. None of this is the text of geo, geo-types,
//! rstar or approx; it is written from what the given text asks of them.
//!
//! Of geo-types:
//! - `CoordNum`, `CoordFloat`: the number types. Two are supplied: `f64`, and `Tagged`, an `f64` that carries
//!   the index of its point and is compared by value alone, so that a point list can be read back as indices.
//! - `Coord`, `Point`, `Line` (`new`, `points`), `Triangle` (`new`), `Rect` (`min`, `max`)
//! - `LineString` (`lines`, `triangles`, indexing, `From<Vec<Coord>>`)
//! - `Polygon` (`new` closes open rings, `exterior`, `interiors`, `exterior_mut`, `interiors_mut`)
//! - `MultiPoint`, `MultiLineString`, `MultiPolygon`, `Geometry`, `GeometryCollection`: containers
//! - `line_string!`: for the doc examples
//!
//! Of geo:
//! - `GeoFloat`: as `CoordFloat`
//! - `Area::unsigned_area` of a triangle: half of the absolute cross product, in the number type
//! - `BoundingRect::bounding_rect` of a triangle: least and greatest x and y
//! - `Intersects` of two lines: closed segments share a point, by orientation and on-segment tests in whole
//!   numbers; panics off the grid
//!
//! Of rstar (module `rstar`):
//! - `RTreeNum`, `RTreeObject`, `AABB` (`from_corners`), `primitives::CachedEnvelope` (`new`, deref)
//! - `RTree` (`bulk_load`, `insert`, `remove` of one equal object, `locate_in_envelope_intersecting`): a list,
//!   searched from the start, with the box test
//!
//! Of approx:
//! - `assert_relative_eq!`: for one doc example; exact equality, which is stronger

use std::fmt::Debug;
use std::ops::{Add, Div, Index, Mul, Neg, Sub};

// ---- numbers ----

pub trait CoordNum: Copy + Debug + PartialEq + PartialOrd {}

pub trait CoordFloat:
    CoordNum
    + Add<Output = Self>
    + Sub<Output = Self>
    + Mul<Output = Self>
    + Div<Output = Self>
    + Neg<Output = Self>
{
    fn from_f64(value: f64) -> Self;
    fn to_f64(self) -> f64;

    fn zero() -> Self {
        Self::from_f64(0.0)
    }
}

pub trait GeoFloat: CoordFloat {}

impl CoordNum for f64 {}
impl GeoFloat for f64 {}
impl rstar::RTreeNum for f64 {}

impl CoordFloat for f64 {
    fn from_f64(value: f64) -> f64 {
        value
    }

    fn to_f64(self) -> f64 {
        self
    }
}

/// An f64 that carries the index of the point it belongs to. Compared by value; the result of an operation
/// carries no index.
#[derive(Clone, Copy, Debug)]
pub struct Tagged {
    pub value: f64,
    pub index: Option<usize>,
}

impl PartialEq for Tagged {
    fn eq(&self, other: &Tagged) -> bool {
        self.value == other.value
    }
}

impl PartialOrd for Tagged {
    fn partial_cmp(&self, other: &Tagged) -> Option<std::cmp::Ordering> {
        self.value.partial_cmp(&other.value)
    }
}

macro_rules! tagged_operation {
    ($operation:ident, $method:ident) => {
        impl $operation for Tagged {
            type Output = Tagged;
            fn $method(self, other: Tagged) -> Tagged {
                Tagged::from_f64(self.value.$method(other.value))
            }
        }
    };
}

tagged_operation!(Add, add);
tagged_operation!(Sub, sub);
tagged_operation!(Mul, mul);
tagged_operation!(Div, div);

impl Neg for Tagged {
    type Output = Tagged;
    fn neg(self) -> Tagged {
        Tagged::from_f64(-self.value)
    }
}

impl CoordNum for Tagged {}
impl GeoFloat for Tagged {}
impl rstar::RTreeNum for Tagged {}

impl CoordFloat for Tagged {
    fn from_f64(value: f64) -> Tagged {
        Tagged { value, index: None }
    }

    fn to_f64(self) -> f64 {
        self.value
    }
}

// ---- geometry types ----

#[derive(Clone, Copy, Debug, PartialEq)]
pub struct Coord<T: CoordNum> {
    pub x: T,
    pub y: T,
}

#[derive(Clone, Copy, Debug, PartialEq)]
pub struct Point<T: CoordNum>(pub Coord<T>);

impl<T: CoordNum> From<Coord<T>> for Point<T> {
    fn from(coord: Coord<T>) -> Point<T> {
        Point(coord)
    }
}

#[derive(Clone, Copy, Debug, PartialEq)]
pub struct Line<T: CoordNum> {
    pub start: Coord<T>,
    pub end: Coord<T>,
}

impl<T: CoordNum> Line<T> {
    pub fn new(start: Point<T>, end: Point<T>) -> Line<T> {
        Line {
            start: start.0,
            end: end.0,
        }
    }

    pub fn points(&self) -> (Point<T>, Point<T>) {
        (Point(self.start), Point(self.end))
    }
}

#[derive(Clone, Copy, Debug, PartialEq)]
pub struct Triangle<T: CoordNum>(pub Coord<T>, pub Coord<T>, pub Coord<T>);

impl<T: CoordNum> Triangle<T> {
    pub fn new(a: Coord<T>, b: Coord<T>, c: Coord<T>) -> Triangle<T> {
        Triangle(a, b, c)
    }
}

#[derive(Clone, Copy, Debug, PartialEq)]
pub struct Rect<T: CoordNum> {
    least: Coord<T>,
    greatest: Coord<T>,
}

impl<T: CoordNum> Rect<T> {
    pub fn min(self) -> Coord<T> {
        self.least
    }

    pub fn max(self) -> Coord<T> {
        self.greatest
    }
}

#[derive(Clone, Debug, PartialEq)]
pub struct LineString<T: CoordNum>(pub Vec<Coord<T>>);

impl<T: CoordNum> LineString<T> {
    pub fn lines(&self) -> impl Iterator<Item = Line<T>> + '_ {
        self.0
            .windows(2)
            .map(|two| Line::new(Point(two[0]), Point(two[1])))
    }

    pub fn triangles(&self) -> impl Iterator<Item = Triangle<T>> + '_ {
        self.0
            .windows(3)
            .map(|three| Triangle::new(three[0], three[1], three[2]))
    }

    fn close(&mut self) {
        if self.0.first() != self.0.last() {
            self.0.push(self.0[0]);
        }
    }
}

impl<T: CoordNum> From<Vec<Coord<T>>> for LineString<T> {
    fn from(coords: Vec<Coord<T>>) -> LineString<T> {
        LineString(coords)
    }
}

impl<T: CoordNum> Index<usize> for LineString<T> {
    type Output = Coord<T>;
    fn index(&self, at: usize) -> &Coord<T> {
        &self.0[at]
    }
}

#[derive(Clone, Debug, PartialEq)]
pub struct Polygon<T: CoordNum> {
    exterior: LineString<T>,
    interiors: Vec<LineString<T>>,
}

impl<T: CoordNum> Polygon<T> {
    pub fn new(mut exterior: LineString<T>, mut interiors: Vec<LineString<T>>) -> Polygon<T> {
        exterior.close();
        interiors.iter_mut().for_each(LineString::close);
        Polygon {
            exterior,
            interiors,
        }
    }

    pub fn exterior(&self) -> &LineString<T> {
        &self.exterior
    }

    pub fn interiors(&self) -> &[LineString<T>] {
        &self.interiors
    }

    pub fn exterior_mut(&mut self, change: impl FnOnce(&mut LineString<T>)) {
        change(&mut self.exterior);
        self.exterior.close();
    }

    pub fn interiors_mut(&mut self, change: impl FnOnce(&mut [LineString<T>])) {
        change(&mut self.interiors);
        self.interiors.iter_mut().for_each(LineString::close);
    }
}

#[derive(Clone, Debug, PartialEq)]
pub struct MultiPoint<T: CoordNum>(pub Vec<Point<T>>);

#[derive(Clone, Debug, PartialEq)]
pub struct MultiLineString<T: CoordNum>(pub Vec<LineString<T>>);

impl<T: CoordNum> MultiLineString<T> {
    pub fn new(lines: Vec<LineString<T>>) -> MultiLineString<T> {
        MultiLineString(lines)
    }

    pub fn iter(&self) -> std::slice::Iter<'_, LineString<T>> {
        self.0.iter()
    }
}

#[derive(Clone, Debug, PartialEq)]
pub struct MultiPolygon<T: CoordNum>(pub Vec<Polygon<T>>);

impl<T: CoordNum> MultiPolygon<T> {
    pub fn new(polygons: Vec<Polygon<T>>) -> MultiPolygon<T> {
        MultiPolygon(polygons)
    }

    pub fn iter(&self) -> std::slice::Iter<'_, Polygon<T>> {
        self.0.iter()
    }
}

#[derive(Clone, Debug, PartialEq)]
pub enum Geometry<T: CoordNum> {
    Point(Point<T>),
    Line(Line<T>),
    LineString(LineString<T>),
    Polygon(Polygon<T>),
    MultiPoint(MultiPoint<T>),
    MultiLineString(MultiLineString<T>),
    MultiPolygon(MultiPolygon<T>),
    GeometryCollection(GeometryCollection<T>),
    Rect(Rect<T>),
    Triangle(Triangle<T>),
}

#[derive(Clone, Debug, PartialEq)]
pub struct GeometryCollection<T: CoordNum>(pub Vec<Geometry<T>>);

impl<T: CoordNum> GeometryCollection<T> {
    pub fn new_from(geometries: Vec<Geometry<T>>) -> GeometryCollection<T> {
        GeometryCollection(geometries)
    }
}

#[macro_export]
macro_rules! line_string {
    ($((x: $x:expr, y: $y:expr)),* $(,)?) => {
        $crate::LineString(vec![$($crate::Coord { x: $x, y: $y }),*])
    };
}

#[macro_export]
macro_rules! assert_relative_eq {
    ($left:expr, $right:expr, epsilon = $epsilon:expr) => {{
        let _: f64 = $epsilon;
        assert_eq!($left, $right)
    }};
}

// ---- what geo works out of them ----

pub trait Area<T> {
    fn unsigned_area(&self) -> T;
}

impl<T: CoordFloat> Area<T> for Triangle<T> {
    fn unsigned_area(&self) -> T {
        let Triangle(a, b, c) = *self;
        let cross = (b.x - a.x) * (c.y - a.y) - (c.x - a.x) * (b.y - a.y);
        T::from_f64(cross.to_f64().abs() / 2.0)
    }
}

pub trait BoundingRect<T: CoordNum> {
    fn bounding_rect(&self) -> Rect<T>;
}

impl<T: CoordNum> BoundingRect<T> for Triangle<T> {
    fn bounding_rect(&self) -> Rect<T> {
        let Triangle(a, b, c) = *self;
        Rect {
            least: Coord {
                x: lesser(lesser(a.x, b.x), c.x),
                y: lesser(lesser(a.y, b.y), c.y),
            },
            greatest: Coord {
                x: greater(greater(a.x, b.x), c.x),
                y: greater(greater(a.y, b.y), c.y),
            },
        }
    }
}

fn lesser<T: CoordNum>(a: T, b: T) -> T {
    if b < a {
        b
    } else {
        a
    }
}

fn greater<T: CoordNum>(a: T, b: T) -> T {
    if a < b {
        b
    } else {
        a
    }
}

pub trait Intersects<Other> {
    fn intersects(&self, other: &Other) -> bool;
}

impl<T: GeoFloat> Intersects<Line<T>> for Line<T> {
    fn intersects(&self, other: &Line<T>) -> bool {
        let (a, b) = (whole(self.start), whole(self.end));
        let (c, d) = (whole(other.start), whole(other.end));
        let (side_a, side_b) = (orientation(c, d, a), orientation(c, d, b));
        let (side_c, side_d) = (orientation(a, b, c), orientation(a, b, d));
        if side_a * side_b < 0 && side_c * side_d < 0 {
            return true;
        }
        (side_a == 0 && in_box(c, d, a))
            || (side_b == 0 && in_box(c, d, b))
            || (side_c == 0 && in_box(a, b, c))
            || (side_d == 0 && in_box(a, b, d))
    }
}

fn whole<T: GeoFloat>(coord: Coord<T>) -> (i64, i64) {
    let exact = |value: f64| {
        let whole = value as i64;
        assert!(
            whole as f64 == value && whole.abs() <= 1 << 24,
            "off the grid: {value}"
        );
        whole
    };
    (exact(coord.x.to_f64()), exact(coord.y.to_f64()))
}

/// The side of the line through `a` and `b` on which `c` lies: 1 left, -1 right, 0 on it.
fn orientation(a: (i64, i64), b: (i64, i64), c: (i64, i64)) -> i64 {
    ((b.0 - a.0) * (c.1 - a.1) - (b.1 - a.1) * (c.0 - a.0)).signum()
}

/// Whether `p`, known to be in line with `a` and `b`, is between them.
fn in_box(a: (i64, i64), b: (i64, i64), p: (i64, i64)) -> bool {
    a.0.min(b.0) <= p.0 && p.0 <= a.0.max(b.0) && a.1.min(b.1) <= p.1 && p.1 <= a.1.max(b.1)
}

// ---- rstar ----

pub mod rstar {
    use super::{greater, lesser, CoordNum, Line, Point};

    pub trait RTreeNum: CoordNum {}

    pub trait RTreeObject {
        type Envelope: Envelope;
        fn envelope(&self) -> Self::Envelope;
    }

    pub trait Envelope {
        fn intersects(&self, other: &Self) -> bool;
    }

    /// A box, closed on all sides.
    #[derive(Clone, Copy, Debug, PartialEq)]
    pub struct AABB<P> {
        lower: P,
        upper: P,
    }

    impl<T: RTreeNum> AABB<Point<T>> {
        pub fn from_corners(one: Point<T>, other: Point<T>) -> Self {
            let (mut lower, mut upper) = (one, one);
            lower.0.x = lesser(one.0.x, other.0.x);
            lower.0.y = lesser(one.0.y, other.0.y);
            upper.0.x = greater(one.0.x, other.0.x);
            upper.0.y = greater(one.0.y, other.0.y);
            AABB { lower, upper }
        }
    }

    impl<T: RTreeNum> Envelope for AABB<Point<T>> {
        fn intersects(&self, other: &Self) -> bool {
            self.lower.0.x <= other.upper.0.x
                && other.lower.0.x <= self.upper.0.x
                && self.lower.0.y <= other.upper.0.y
                && other.lower.0.y <= self.upper.0.y
        }
    }

    impl<T: RTreeNum> RTreeObject for Line<T> {
        type Envelope = AABB<Point<T>>;
        fn envelope(&self) -> AABB<Point<T>> {
            AABB::from_corners(Point(self.start), Point(self.end))
        }
    }

    pub struct RTree<O: RTreeObject> {
        objects: Vec<O>,
    }

    impl<O: RTreeObject + PartialEq> RTree<O> {
        pub fn bulk_load(objects: Vec<O>) -> RTree<O> {
            RTree { objects }
        }

        pub fn insert(&mut self, object: O) {
            self.objects.push(object);
        }

        pub fn remove(&mut self, object: &O) -> Option<O> {
            let at = self.objects.iter().position(|other| other == object)?;
            Some(self.objects.remove(at))
        }

        pub fn locate_in_envelope_intersecting<'a>(
            &'a self,
            envelope: &'a O::Envelope,
        ) -> impl Iterator<Item = &'a O> {
            self.objects
                .iter()
                .filter(move |object| object.envelope().intersects(envelope))
        }
    }

    pub mod primitives {
        use super::RTreeObject;

        /// An object beside its box. Equal exactly if the objects are.
        pub struct CachedEnvelope<O: RTreeObject> {
            object: O,
            envelope: O::Envelope,
        }

        impl<O: RTreeObject> CachedEnvelope<O> {
            pub fn new(object: O) -> CachedEnvelope<O> {
                let envelope = object.envelope();
                CachedEnvelope { object, envelope }
            }
        }

        impl<O: RTreeObject> std::ops::Deref for CachedEnvelope<O> {
            type Target = O;
            fn deref(&self) -> &O {
                &self.object
            }
        }

        impl<O: RTreeObject + PartialEq> PartialEq for CachedEnvelope<O> {
            fn eq(&self, other: &CachedEnvelope<O>) -> bool {
                self.object == other.object
            }
        }

        impl<O: RTreeObject> RTreeObject for CachedEnvelope<O>
        where
            O::Envelope: Clone,
        {
            type Envelope = O::Envelope;
            fn envelope(&self) -> O::Envelope {
                self.envelope.clone()
            }
        }
    }
}

#[cfg(test)]
mod tests {
    use super::*;

    fn coord(x: f64, y: f64) -> Coord<f64> {
        Coord { x, y }
    }

    #[test]
    fn area_does_not_depend_on_the_formula_at_the_ends_of_the_grid() {
        let ends = [
            -16777216.0,
            -16777215.0,
            -1.0,
            0.0,
            1.0,
            16777215.0,
            16777216.0,
        ];
        let determinant = |p: Coord<f64>, q: Coord<f64>| p.x * q.y - p.y * q.x;
        for code in 0..7_usize.pow(6) {
            let at = |place: u32| ends[code / 7_usize.pow(place) % 7];
            let (a, b, c) = (
                coord(at(0), at(1)),
                coord(at(2), at(3)),
                coord(at(4), at(5)),
            );
            let sum = determinant(a, b) + determinant(b, c) + determinant(c, a);
            let area = Triangle::new(a, b, c).unsigned_area();
            assert_eq!(area.to_bits(), (sum / 2.0).abs().to_bits());
        }
    }

    #[test]
    fn touching_overlap_and_zero_length_count_as_meeting() {
        let line = |a: (f64, f64), b: (f64, f64)| {
            Line::new(Point(coord(a.0, a.1)), Point(coord(b.0, b.1)))
        };
        let meet = |p: Line<f64>, q: Line<f64>| {
            assert_eq!(p.intersects(&q), q.intersects(&p));
            p.intersects(&q)
        };
        assert!(meet(line((0., 0.), (4., 4.)), line((0., 4.), (4., 0.))));
        assert!(meet(line((0., 0.), (4., 0.)), line((2., 0.), (2., 9.))));
        assert!(meet(line((0., 0.), (4., 0.)), line((3., 0.), (9., 0.))));
        assert!(meet(line((0., 0.), (4., 0.)), line((1., 0.), (1., 0.))));
        assert!(meet(line((1., 0.), (1., 0.)), line((1., 0.), (1., 0.))));
        assert!(!meet(line((0., 0.), (4., 0.)), line((5., 0.), (9., 0.))));
        assert!(!meet(line((0., 0.), (4., 0.)), line((0., 1.), (4., 1.))));
        assert!(!meet(line((0., 0.), (4., 4.)), line((1., 2.), (1., 2.))));
        assert!(!meet(line((1., 0.), (1., 0.)), line((2., 0.), (2., 0.))));
    }
}
