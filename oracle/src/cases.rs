//! Random small grids, made to be awkward: ties, flat runs, repeats, overlaps, zero lengths, the ends of the range,
//! shared coordinates between rings.

use crate::random::Random;
use crate::Pair;

/// A line, a polygon and a tolerance for both.
#[derive(Clone, Debug)]
pub struct Case {
    pub line: Vec<Pair>,
    pub rings: Vec<Vec<Pair>>,
    pub tolerance: f64,
}

const END: i64 = 1 << 24;

/// The coordinates that a list of points is drawn from.
#[derive(Clone, Copy)]
enum Style {
    /// A square of this side: many ties and repeats.
    Square(i64),
    /// One step from the point before: shared coordinates, zero-length segments.
    Walk,
    /// To and fro along one direction, with turns: flat runs and overlaps in line.
    Flat,
    /// Up and down by turns: equal areas.
    Zigzag,
    /// A few points, each drawn many times.
    Few,
    /// The ends of the range and their neighbours.
    Ends,
    /// The whole range.
    Wide,
}

fn style(random: &mut Random) -> Style {
    match random.below(12) {
        0 | 1 => Style::Square(2),
        2 | 3 => Style::Square(4),
        4 => Style::Square(9),
        5 => Style::Square(60),
        6 => Style::Walk,
        7 => Style::Flat,
        8 => Style::Zigzag,
        9 => Style::Few,
        10 => Style::Ends,
        _ => Style::Wide,
    }
}

type Whole = (i64, i64);

fn in_square(random: &mut Random, side: i64) -> Whole {
    (random.from_to(0, side), random.from_to(0, side))
}

/// The next point of a list: its number, the one before it, the points drawn often and the way in which a flat run goes.
fn next(
    random: &mut Random,
    style: Style,
    at: i64,
    last: Whole,
    few: &[Whole],
    direction: &mut Whole,
) -> Whole {
    match style {
        Style::Square(side) => in_square(random, side),
        Style::Walk => (
            last.0 + random.from_to(-1, 1),
            last.1 + random.from_to(-1, 1),
        ),
        Style::Flat => {
            if random.one_in(4) {
                *direction = (random.from_to(-2, 2), random.from_to(-2, 2));
            }
            let steps = random.from_to(-2, 3);
            (last.0 + steps * direction.0, last.1 + steps * direction.1)
        }
        Style::Zigzag => {
            let height = if random.one_in(6) { 2 } else { 1 };
            (at, (at % 2) * height)
        }
        Style::Few => random.pick(few),
        Style::Ends => {
            let ends = [-END, -END, -END + 1, -1, 0, 1, END - 1, END, END];
            (random.pick(&ends), random.pick(&ends))
        }
        Style::Wide => (random.from_to(-END, END), random.from_to(-END, END)),
    }
}

fn points(random: &mut Random, style: Style, count: usize) -> Vec<Pair> {
    let mut list: Vec<Whole> = Vec::new();
    let few: Vec<Whole> = (0..4).map(|_| in_square(random, 5)).collect();
    let mut direction = (1, 0);
    for at in 0..count {
        let last = list.last().copied().unwrap_or((0, 0));
        let point = next(random, style, at as i64, last, &few, &mut direction);
        list.push(point);
        if random.one_in(12) {
            list.push(point);
        }
    }
    list.truncate(count);
    let mut signed = |value: i64| {
        if value == 0 && random.one_in(3) {
            -0.0
        } else {
            value as f64
        }
    };
    list.into_iter()
        .map(|(x, y)| (signed(x), signed(y)))
        .collect()
}

/// A closed ring, or none at all. Takes some points, or all, from the rings before it.
fn ring(random: &mut Random, style: Style, earlier: &[Vec<Pair>]) -> Vec<Pair> {
    let count = match random.below(8) {
        0 => random.below(4),
        1 => 4,
        _ => 3 + random.below(12),
    };
    let mut ring = points(random, style, count);
    let all: Vec<Pair> = earlier.concat();
    if !all.is_empty() {
        match random.below(8) {
            0 => ring = earlier[random.below(earlier.len())].clone(),
            1 => {
                ring = earlier[random.below(earlier.len())].clone();
                ring.reverse();
            }
            2..=4 => {
                for point in &mut ring {
                    if random.one_in(4) {
                        *point = random.pick(&all);
                    }
                }
            }
            _ => {}
        }
    }
    if let Some(&first) = ring.first() {
        // A single point is closed as it is.
        if ring.len() > 1 || random.one_in(2) {
            ring.push(first);
        }
    }
    ring
}

fn tolerance(random: &mut Random, points: &[Pair]) -> f64 {
    let fixed = [
        0.0,
        -0.0,
        -1.0,
        -0.5,
        -1e300,
        0.25,
        0.5,
        1.0,
        1.5,
        2.0,
        3.0,
        5.5,
        28.5,
        29.0,
        100.0,
        668.0,
        668.6,
        1e9,
        562949953421312.0,
        1e300,
        f64::MAX,
        5e-324,
        -5e-324,
    ];
    if points.len() < 3 || random.one_in(2) {
        return random.pick(&fixed);
    }
    // An area that occurs, or a value just beside one.
    let mut draw = || points[random.below(points.len())];
    let (a, b, c) = (draw(), draw(), draw());
    let area = ((b.0 - a.0) * (c.1 - a.1) - (c.0 - a.0) * (b.1 - a.1)).abs() / 2.0;
    match random.below(4) {
        0 => next_up(area),
        1 => next_down(area),
        _ => area,
    }
}

/// The next f64 above one that is not negative. (`f64::next_up` needs a newer Rust.)
pub fn next_up(value: f64) -> f64 {
    f64::from_bits(value.to_bits() + 1)
}

/// The next f64 below one that is not negative.
pub fn next_down(value: f64) -> f64 {
    if value == 0.0 {
        -f64::from_bits(1)
    } else {
        f64::from_bits(value.to_bits() - 1)
    }
}

pub fn case(random: &mut Random) -> Case {
    let line_style = style(random);
    let count = match random.below(6) {
        0 => random.below(4),
        1 => 20 + random.below(20),
        _ => 3 + random.below(14),
    };
    let line = points(random, line_style, count);

    let ring_style = style(random);
    let mut rings = Vec::new();
    for _ in 0..1 + random.below(5) {
        let next = ring(random, ring_style, &rings);
        rings.push(next);
    }

    let drawn_from = if random.one_in(2) {
        line.clone()
    } else {
        rings.concat()
    };
    let tolerance = tolerance(random, &drawn_from);
    Case {
        line,
        rings,
        tolerance,
    }
}

/// A line of so many points, with many ties and repeats.
pub fn line_of(random: &mut Random, count: usize) -> Vec<Pair> {
    points(random, Style::Square(9), count)
}

/// A closed ring of so many points, two at least.
pub fn ring_of(random: &mut Random, count: usize) -> Vec<Pair> {
    let mut ring = points(random, Style::Square(9), count - 1);
    ring.push(ring[0]);
    ring
}

/// The ring table of these rings.
pub fn ring_table(rings: &[Vec<Pair>]) -> Vec<usize> {
    let mut end = 0;
    rings
        .iter()
        .map(|ring| {
            end += ring.len();
            end
        })
        .collect()
}
