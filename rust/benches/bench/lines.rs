//! The lines that are measured.

use oracle::random::Random;
use oracle::{Coord, LineString, MultiPoint, Point};
use pylonfrith::{Slot, Step, WorkArea};

pub const SEED: u64 = 1;
/// A tolerance that no area is above.
pub const ALL: f64 = 1e18;

/// A line in the forms that both sides take.
pub struct Line {
    pub kind: &'static str,
    pub x: Vec<f64>,
    pub y: Vec<f64>,
    pub string: LineString<f64>,
    pub points: MultiPoint<f64>,
}

impl Line {
    fn new(kind: &'static str, places: Vec<(i64, i64)>) -> Line {
        let coords: Vec<Coord<f64>> = places
            .iter()
            .map(|&(x, y)| Coord {
                x: x as f64,
                y: y as f64,
            })
            .collect();
        Line {
            kind,
            x: coords.iter().map(|coord| coord.x).collect(),
            y: coords.iter().map(|coord| coord.y).collect(),
            points: MultiPoint(coords.iter().copied().map(Point).collect()),
            string: LineString(coords),
        }
    }

    pub fn len(&self) -> usize {
        self.x.len()
    }

    /// The least tolerance at which the index rule removes half of the points.
    pub fn half(&self) -> f64 {
        let mut work = WorkArea::new();
        work.open(Slot(0), &self.x, &self.y, ALL).expect("accepted");
        let mut greatest = 0.0_f64;
        for _ in 0..self.len() / 2 {
            if let Ok(Step::Removed { area, .. }) = work.step(Slot(0)) {
                greatest = greatest.max(area);
            }
        }
        greatest
    }
}

/// For each count a line of each kind.
pub fn lines(counts: &[usize]) -> Vec<Line> {
    let mut random = Random::new(SEED);
    let mut lines = Vec::new();
    for &count in counts {
        lines.push(Line::new("walk", walk(count, &mut random)));
        lines.push(Line::new("coast", coast(count, &mut random)));
        lines.push(Line::new("random", anywhere(count, &mut random)));
        lines.push(Line::new("survey", survey(count, &mut random)));
    }
    lines
}

fn walk(count: usize, random: &mut Random) -> Vec<(i64, i64)> {
    let mut at = (0, 0);
    let mut places = Vec::new();
    for _ in 0..count {
        at.0 += random.from_to(-100, 100);
        at.1 += random.from_to(-100, 100);
        places.push(at);
    }
    places
}

/// A shore: the middle of each stretch is moved by up to a quarter of its length, again and again.
fn coast(count: usize, random: &mut Random) -> Vec<(i64, i64)> {
    let mut places = vec![(-4_000_000, 0), (4_000_000, 0)];
    while places.len() < count {
        let mut finer = Vec::new();
        for pair in places.windows(2) {
            let (from, to): ((i64, i64), (i64, i64)) = (pair[0], pair[1]);
            let reach = ((from.0 - to.0).abs() + (from.1 - to.1).abs()) / 4 + 1;
            let mut moved = |a: i64, b: i64| (a + b) / 2 + random.from_to(-reach, reach);
            finer.push(from);
            finer.push((moved(from.0, to.0), moved(from.1, to.1)));
        }
        finer.push((4_000_000, 0));
        places = finer;
    }
    places.truncate(count);
    places
}

fn anywhere(count: usize, random: &mut Random) -> Vec<(i64, i64)> {
    let mut draw = || random.from_to(-1_000_000, 1_000_000);
    (0..count).map(|_| (draw(), draw())).collect()
}

/// A survey line, which never crosses itself: x rises, y wavers.
fn survey(count: usize, random: &mut Random) -> Vec<(i64, i64)> {
    (0..count as i64)
        .map(|i| (100 * i, random.from_to(-1_000, 1_000)))
        .collect()
}
