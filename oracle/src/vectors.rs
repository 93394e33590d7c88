//! The stored list of vectors: one whole call a line, with all that is lent to it. README.md has the format.

use crate::cases::{case, line_of, ring_of, ring_table, Case};
use crate::model::{self, Reason, Scratch};
use crate::random::Random;
use crate::{repeated, tied, Pair};
use std::fmt::Write;

/// The whole calls, with their numbers in the list.
#[derive(Clone, Copy, Debug, PartialEq, Eq)]
pub enum Call {
    Idx = 1,
    Points = 2,
    Line = 3,
    Polygon = 4,
    Consecutive = 5,
    Anywhere = 6,
}

pub const CALLS: [Call; 6] = [
    Call::Idx,
    Call::Points,
    Call::Line,
    Call::Polygon,
    Call::Consecutive,
    Call::Anywhere,
];

impl Call {
    fn takes_scratch(self) -> bool {
        !matches!(self, Call::Consecutive | Call::Anywhere)
    }
}

/// A call with what is lent to it; output and scratch by their lengths.
#[derive(Clone, Debug)]
struct Lent {
    call: Call,
    tolerance: f64,
    x: Vec<f64>,
    y: Vec<f64>,
    rings: Vec<u32>,
    out: usize,
    ring_out: usize,
    floats: usize,
    words: usize,
}

impl Lent {
    /// Just enough is lent. A line has no ring table, and repeated points have no tolerance.
    fn new(call: Call, points: &[Pair], table: &[usize], tolerance: f64) -> Lent {
        let (x, y): (Vec<f64>, Vec<f64>) = points.iter().copied().unzip();
        let (scratch, tolerance) = if call.takes_scratch() {
            (points.len(), tolerance)
        } else {
            (0, 0.0)
        };
        let rings: Vec<u32> = match call {
            Call::Polygon => table.iter().map(|&end| end as u32).collect(),
            _ => Vec::new(),
        };
        Lent {
            call,
            tolerance,
            out: points.len(),
            ring_out: rings.len(),
            floats: model::SCRATCH_FLOATS_PER_POINT * scratch,
            words: model::SCRATCH_WORDS_PER_POINT * scratch,
            x,
            y,
            rings,
        }
    }

    fn line(call: Call, points: &[Pair], tolerance: f64) -> Lent {
        Lent::new(call, points, &[points.len()], tolerance)
    }

    fn of_case(call: Call, case: &Case) -> Lent {
        match call {
            Call::Polygon => Lent::new(
                call,
                &case.rings.concat(),
                &ring_table(&case.rings),
                case.tolerance,
            ),
            _ => Lent::line(call, &case.line, case.tolerance),
        }
    }

    /// Some places more than enough.
    fn with_more(mut self, random: &mut Random) -> Lent {
        self.out += random.below(3);
        if self.call == Call::Polygon {
            self.ring_out += random.below(3);
        }
        if self.call.takes_scratch() {
            self.floats += random.below(4);
            self.words += random.below(4);
        }
        self
    }

    /// One thing that a reason of document 01 is about, changed for the worse. It may still be accepted.
    fn with_fault(mut self, random: &mut Random) -> Lent {
        match random.below(if self.call.takes_scratch() { 8 } else { 4 }) {
            0 => {
                if self.y.pop().is_none() || random.one_in(2) {
                    self.x.pop();
                    self.x.pop();
                }
            }
            1 | 2 if !self.x.is_empty() && !self.y.is_empty() => self.leave_grid(random),
            4 => self.tolerance = random.pick(&[f64::NAN, f64::INFINITY, f64::NEG_INFINITY]),
            5 if !self.rings.is_empty() => self.spoil_table(random),
            6 if !self.rings.is_empty() => self.open_ring(random),
            5..=7 => {
                if random.one_in(2) {
                    self.floats = self.floats.saturating_sub(1 + random.below(4));
                } else {
                    self.words = self.words.saturating_sub(1 + random.below(4));
                }
            }
            _ => {
                if self.ring_out > 0 && random.one_in(2) {
                    self.ring_out = self.rings.len() - 1;
                } else {
                    self.out = self.x.len().saturating_sub(1 + random.below(2));
                }
            }
        }
        self
    }

    fn leave_grid(&mut self, random: &mut Random) {
        let end = model::GRID_END;
        let off = [
            0.5,
            -0.5,
            end + 1.0,
            -end - 1.0,
            end + 0.5,
            end - 0.5,
            9007199254740992.0,
            f64::NAN,
            f64::INFINITY,
            f64::NEG_INFINITY,
        ];
        let list = if random.one_in(2) {
            &mut self.x
        } else {
            &mut self.y
        };
        let at = random.below(list.len());
        list[at] = random.pick(&off);
    }

    fn spoil_table(&mut self, random: &mut Random) {
        let last = self.rings[self.rings.len() - 1];
        let at = random.below(self.rings.len());
        match random.below(5) {
            0 => self.rings.clear(),
            1 => self.rings[at] += 1,
            2 => self.rings[at] = self.rings[at].saturating_sub(1),
            3 => self.rings.resize(model::RINGS, last),
            _ => self.rings.resize(model::RINGS + 1, last),
        }
        self.ring_out = self.rings.len();
    }

    fn open_ring(&mut self, random: &mut Random) {
        let end = self.rings[random.below(self.rings.len())] as usize;
        // A table spoiled before may end past the points.
        if let Some(x) = end.checked_sub(1).and_then(|last| self.x.get_mut(last)) {
            *x += 1.0;
        }
    }

    /// The model's answer: the kept list and its ring table.
    fn answer(&self) -> Result<(Vec<u32>, Vec<u32>), Reason> {
        let (x, y, t) = (&self.x, &self.y, self.tolerance);
        let mut out = vec![0; self.out];
        let mut ring_out = vec![0; self.ring_out];
        let (mut floats, mut words) = (vec![0.0; self.floats], vec![0; self.words]);
        let scratch = Scratch {
            floats: &mut floats,
            words: &mut words,
        };
        let count = match self.call {
            Call::Idx => model::simplify_vw_idx(x, y, t, &mut out, scratch),
            Call::Points => model::simplify_vw(x, y, t, &mut out, scratch),
            Call::Line => model::simplify_vw_preserve(x, y, t, &mut out, scratch),
            Call::Polygon => model::simplify_vw_preserve_polygon(
                x,
                y,
                t,
                &self.rings,
                &mut out,
                &mut ring_out,
                scratch,
            ),
            Call::Consecutive => model::remove_repeated_points(x, y, &mut out),
            Call::Anywhere => model::remove_repeated_points_anywhere(x, y, &mut out),
        }?;
        out.truncate(count);
        ring_out.truncate(self.rings.len());
        self.check(&out, &ring_out);
        Ok((out, ring_out))
    }

    /// The given text with the tie order must keep the same.
    fn check(&self, kept: &[u32], kept_table: &[u32]) {
        let points: Vec<Pair> = self.x.iter().copied().zip(self.y.iter().copied()).collect();
        let t = self.tolerance;
        let rings: Vec<Vec<usize>> = match self.call {
            Call::Idx => vec![tied::kept::idx(&points, t)],
            Call::Points => vec![tied::kept::points(&points, t)],
            Call::Line => vec![tied::kept::preserve_line(&points, t)],
            Call::Polygon => {
                let table: Vec<usize> = self.rings.iter().map(|&end| end as usize).collect();
                let ring = |ring: Vec<usize>| ring.into_iter().map(|at| points[at]).collect();
                let rings: Vec<Vec<Pair>> = model::rings_of_table(&table)
                    .into_iter()
                    .map(ring)
                    .collect();
                tied::kept::preserve_polygon(&rings, t)
            }
            Call::Consecutive => vec![repeated::kept::consecutive(&points)],
            Call::Anywhere => vec![repeated::kept::anywhere(&points)],
        };
        let list: Vec<u32> = rings.concat().into_iter().map(|at| at as u32).collect();
        assert_eq!(kept, list, "{self:?}");
        if self.call == Call::Polygon {
            let mut end = 0;
            for (ring, &kept_end) in rings.iter().zip(kept_table) {
                end += ring.len();
                assert_eq!(end, kept_end as usize, "{self:?}");
            }
        }
    }

    fn text(&self) -> String {
        let (reason, number, kept, table) = match self.answer() {
            Ok((kept, table)) => (0, kept.len(), kept, table),
            Err(Reason::OffGrid(at)) => (3, at, Vec::new(), Vec::new()),
            Err(reason) => (reason.number(), 0, Vec::new(), Vec::new()),
        };
        let mut line = format!(
            "{} {} {} {} {} {} {} {} {reason} {number} {}",
            self.call as u32,
            self.x.len(),
            self.y.len(),
            self.rings.len(),
            self.out,
            self.ring_out,
            self.floats,
            self.words,
            self.tolerance.to_bits(),
        );
        for &value in self.x.iter().chain(&self.y) {
            write!(line, " {}", coordinate(value)).expect("a string");
        }
        for index in self.rings.iter().chain(&kept).chain(&table) {
            write!(line, " {index}").expect("a string");
        }
        line
    }
}

/// The bits of NaN, whatever bits it has.
const NAN_BITS: u64 = 9221120237041090560;

/// Whole numbers up to this are printed as such.
const WHOLE: f64 = 9007199254740992.0;

fn coordinate(value: f64) -> String {
    if value.is_nan() {
        format!("b{NAN_BITS}")
    } else if value.fract() == 0.0 && value.abs() <= WHOLE {
        let sign = if value.is_sign_negative() { "-" } else { "" };
        format!("{sign}{}", value.abs() as u64)
    } else {
        format!("b{}", value.to_bits())
    }
}

/// Checkpoints P1 to P11.
fn checkpoints() -> Vec<Lent> {
    let l = [(5., 2.), (3., 8.), (6., 20.), (7., 25.), (10., 10.)];
    let m = [
        (10., 60.),
        (135., 68.),
        (94., 48.),
        (126., 31.),
        (280., 19.),
        (117., 48.),
        (300., 40.),
        (301., 10.),
    ];
    let flat = [(0., 0.), (1., 1.), (2., 2.)];
    let zigzag = [(0., 0.), (1., 1.), (2., 0.), (3., 1.), (4., 0.)];
    let ring = [(0., 0.), (4., 0.), (4., 4.), (0., 4.), (0., 0.)];
    let twice = [(0., 0.), (0., 0.), (1., 0.), (0., 0.)];
    vec![
        Lent::line(Call::Idx, &l, 30.0),
        Lent::line(Call::Idx, &l, 29.0),
        Lent::line(Call::Idx, &l, 28.5),
        Lent::line(Call::Idx, &flat, 0.0),
        Lent::line(Call::Points, &flat, 0.0),
        Lent::line(Call::Idx, &zigzag, 1.0),
        Lent::line(Call::Idx, &m, 668.6),
        Lent::line(Call::Line, &m, 668.6),
        Lent::line(Call::Line, &m, 668.0),
        Lent::line(Call::Polygon, &ring, 100.0),
        Lent::line(Call::Consecutive, &twice, 0.0),
        Lent::line(Call::Anywhere, &twice, 0.0),
    ]
}

/// For each call no points, which is P12, and the ends of the range.
fn ends() -> Vec<Lent> {
    let mut list = Vec::new();
    let end = model::GRID_END;
    for call in CALLS {
        list.push(Lent::line(call, &[], 1.0));
        for value in [end, -end, end + 1.0, -end - 1.0, 0.5, -0.5] {
            let square = [(0., 0.), (value, 0.), (value, value), (0., 0.)];
            list.push(Lent::line(call, &square, 1.0));
        }
    }
    list
}

/// The most points and one more; the most rings and one more.
fn sizes(random: &mut Random) -> Vec<Lent> {
    let mut list = Vec::new();
    for call in CALLS {
        for count in [model::POINTS, model::POINTS + 1] {
            let mut lent = if call == Call::Polygon {
                let each = model::POINTS / model::RINGS;
                let mut rings: Vec<Vec<Pair>> =
                    (0..model::RINGS).map(|_| ring_of(random, each)).collect();
                if count > model::POINTS {
                    rings[0].push((0.0, 0.0));
                }
                Lent::new(call, &rings.concat(), &ring_table(&rings), 9.0)
            } else {
                Lent::line(call, &line_of(random, count), 9.0)
            };
            lent = lent.with_more(random);
            list.push(lent);
        }
    }
    let point: Vec<Vec<Pair>> = vec![vec![(0.0, 0.0)]; model::RINGS + 1];
    list.push(Lent::new(
        Call::Polygon,
        &point.concat(),
        &ring_table(&point),
        1.0,
    ));
    list
}

/// The checkpoints and the sizes; then `count` random ones, the calls by turns, one in four with a fault or two.
pub fn vectors(seed: u64, count: usize) -> Vec<String> {
    let mut random = Random::new(seed);
    let mut list = checkpoints();
    list.append(&mut ends());
    list.append(&mut sizes(&mut random));
    for at in 0..count {
        // The repeated points calls are simple: each gets one line in ten, the others two.
        let call = CALLS[[0, 3, 2, 1, 3, 0, 2, 4, 1, 5][at % 10]];
        let mut lent = Lent::of_case(call, &case(&mut random)).with_more(&mut random);
        if random.one_in(4) {
            lent = lent.with_fault(&mut random);
            if random.one_in(2) {
                lent = lent.with_fault(&mut random);
            }
        }
        list.push(lent);
    }
    list.iter().map(Lent::text).collect()
}
