//! Document 01, written out in whole numbers: the grid, the reasons, the rules, the whole calls and the slots.
//! Naive on purpose: every step looks at every candidate and every segment again.

use std::collections::BTreeSet;

// ---- sizes ----

pub const GRID_END: f64 = 16_777_216.0;
pub const POINTS: usize = 4_096;
pub const RINGS: usize = 64;
pub const SLOTS: usize = 8;
pub const SCRATCH_FLOATS_PER_POINT: usize = 3;
pub const SCRATCH_WORDS_PER_POINT: usize = 12;
pub const WORK_FLOATS: usize = 163_840;
pub const WORK_WORDS: usize = 393_344;

// ---- the grid ----

/// A point of the grid.
#[derive(Clone, Copy, Debug, PartialEq, Eq)]
pub struct Place {
    pub x: i128,
    pub y: i128,
}

impl Place {
    fn minus(self, other: Place) -> Place {
        Place {
            x: self.x - other.x,
            y: self.y - other.y,
        }
    }

    fn cross(self, other: Place) -> i128 {
        self.x * other.y - self.y * other.x
    }

    fn dot(self, other: Place) -> i128 {
        self.x * other.x + self.y * other.y
    }
}

pub fn on_grid(coordinate: f64) -> bool {
    (-GRID_END..=GRID_END).contains(&coordinate) && coordinate.fract() == 0.0
}

/// The points, all on the grid. Panics off it.
pub fn places(points: &[(f64, f64)]) -> Vec<Place> {
    points.iter().map(|&(x, y)| place(x, y)).collect()
}

fn place(x: f64, y: f64) -> Place {
    assert!(on_grid(x) && on_grid(y), "off the grid");
    Place {
        x: x as i128,
        y: y as i128,
    }
}

/// Twice the area of the triangle.
pub fn doubled_area(a: Place, b: Place, c: Place) -> i128 {
    b.minus(a).cross(c.minus(a)).abs()
}

/// The exact value of a finite f64, plus or minus `significand` times two to the `exponent`.
#[derive(Clone, Copy, Debug)]
pub struct Tolerance {
    negative: bool,
    significand: i128,
    exponent: i32,
}

impl Tolerance {
    /// Nothing for NaN and the infinities.
    pub fn read(value: f64) -> Option<Tolerance> {
        let bits = value.to_bits();
        let fraction = (bits % (1 << 52)) as i128;
        let biased = (bits >> 52) % (1 << 11);
        let (significand, exponent) = match biased {
            0x7ff => return None,
            0 => (fraction, -1074),
            _ => ((1 << 52) + fraction, biased as i32 - 1075),
        };
        Some(Tolerance {
            negative: bits >> 63 == 1,
            significand,
            exponent,
        })
    }

    pub fn is_above_zero(self) -> bool {
        !self.negative && self.significand > 0
    }

    /// Whether half of `doubled` is greater than the tolerance.
    pub fn is_exceeded(self, doubled: i128) -> bool {
        assert!((0..1 << 60).contains(&doubled));
        if self.significand == 0 {
            return doubled > 0;
        }
        if self.negative {
            return true;
        }
        // Half of doubled against significand * 2^exponent, so doubled against significand * 2^power.
        let power = self.exponent + 1;
        if power >= 60 {
            false
        } else if power >= 0 {
            doubled > self.significand << power
        } else if power > -60 {
            doubled << -power > self.significand
        } else {
            doubled > 0
        }
    }
}

// ---- segments ----

/// A place along a segment: `over / under` of the way from its start, `under` above 0.
#[derive(Clone, Copy, Debug, PartialEq, Eq)]
pub struct Along {
    pub over: i128,
    pub under: i128,
}

impl Along {
    fn new(over: i128, under: i128) -> Along {
        let sign = under.signum();
        Along {
            over: over * sign,
            under: under * sign,
        }
    }

    fn is_within(self) -> bool {
        0 <= self.over && self.over <= self.under
    }
}

const START: Along = Along { over: 0, under: 1 };
const END: Along = Along { over: 1, under: 1 };

/// A common point of the closed segments `a b` and `c d`, as its rational place along each; nothing if there is none.
pub fn meeting_place(a: Place, b: Place, c: Place, d: Place) -> Option<(Along, Along)> {
    let (ab, cd, ac) = (b.minus(a), d.minus(c), c.minus(a));
    let turn = ab.cross(cd);
    if turn != 0 {
        // Two lines with one common point: a + s ab = c + t cd gives both places.
        let s = Along::new(ac.cross(cd), turn);
        let t = Along::new(ac.cross(ab), turn);
        return (s.is_within() && t.is_within()).then_some((s, t));
    }
    // In line or parallel, or one of them a point: if they meet, an end of one is on the other.
    let ends = [
        place_along(a, c, d).map(|t| (START, t)),
        place_along(b, c, d).map(|t| (END, t)),
        place_along(c, a, b).map(|s| (s, START)),
        place_along(d, a, b).map(|s| (s, END)),
    ];
    ends.into_iter().flatten().next()
}

/// The place of `p` along the closed segment `a b`; nothing if `p` is not on it.
fn place_along(p: Place, a: Place, b: Place) -> Option<Along> {
    let (ab, ap) = (b.minus(a), p.minus(a));
    if ab.dot(ab) == 0 {
        return (ap.dot(ap) == 0).then_some(START);
    }
    let along = Along::new(ap.dot(ab), ab.dot(ab));
    (ap.cross(ab) == 0 && along.is_within()).then_some(along)
}

// ---- the rules ----

/// The area of a candidate, in order: a demoted one is below every other, because the tolerance is above 0 then.
#[derive(Clone, Copy, Debug, PartialEq, Eq, PartialOrd, Ord)]
pub enum Area {
    MinusTolerance,
    Doubled(i128),
}

impl Area {
    pub fn is_above(self, tolerance: Tolerance) -> bool {
        match self {
            Area::MinusTolerance => false,
            Area::Doubled(doubled) => tolerance.is_exceeded(doubled),
        }
    }
}

#[derive(Clone, Copy, Debug, PartialEq, Eq)]
pub struct Removal {
    pub index: usize,
    pub area: Area,
    /// Always false in the plain rule, which does not look.
    pub crossed: bool,
}

/// What a rule did. `kept` has one list for each ring; a line is one ring.
#[derive(Clone, Debug, Default, PartialEq, Eq)]
pub struct Run {
    pub kept: Vec<Vec<usize>>,
    pub removals: Vec<Removal>,
    /// At some step two candidates had the least area, and which of them was taken could matter.
    pub had_tie: bool,
    pub stops_at_first_minimum: usize,
    pub stops_at_second_minimum: usize,
}

impl Run {
    /// The kept list of all rings.
    pub fn list(&self) -> Vec<usize> {
        self.kept.concat()
    }

    /// The ring table of the kept list.
    pub fn ring_table(&self) -> Vec<usize> {
        let mut end = 0;
        let mut table = Vec::new();
        for ring in &self.kept {
            end += ring.len();
            table.push(end);
        }
        table
    }

    pub fn removed(&self) -> Vec<usize> {
        self.removals.iter().map(|removal| removal.index).collect()
    }
}

/// The least area among the candidates of `kept` and the positions in `kept` that have it, in order.
pub fn least_candidates(
    points: &[Place],
    kept: &[usize],
    demoted: &BTreeSet<usize>,
) -> Option<(Area, Vec<usize>)> {
    let area_at = |at: usize| {
        if demoted.contains(&kept[at]) {
            Area::MinusTolerance
        } else {
            Area::Doubled(doubled_area(
                points[kept[at - 1]],
                points[kept[at]],
                points[kept[at + 1]],
            ))
        }
    };
    let candidates = 1..kept.len().max(2) - 1;
    let least = candidates.clone().map(area_at).min()?;
    let positions = candidates.filter(|&at| area_at(at) == least).collect();
    Some((least, positions))
}

/// The next removal of the plain rule, as a position in `kept`, and its doubled area.
fn plain_step(points: &[Place], kept: &[usize], tolerance: Tolerance) -> Option<(usize, i128)> {
    let (area, positions) = least_candidates(points, kept, &BTreeSet::new())?;
    match area {
        Area::Doubled(doubled) if !tolerance.is_exceeded(doubled) => Some((positions[0], doubled)),
        _ => None,
    }
}

/// The index rule.
pub fn index_rule(points: &[Place], tolerance: Tolerance) -> Run {
    let mut run = Run::default();
    let mut kept: Vec<usize> = (0..points.len()).collect();
    while let Some((at, doubled)) = plain_step(points, &kept, tolerance) {
        let tied = least_candidates(points, &kept, &BTreeSet::new());
        run.had_tie |= matches!(tied, Some((_, positions)) if positions.len() > 1);
        run.removals.push(Removal {
            index: kept.remove(at),
            area: Area::Doubled(doubled),
            crossed: false,
        });
    }
    run.kept = vec![kept];
    run
}

/// The point rule.
pub fn point_rule(points: &[Place], tolerance: Tolerance) -> Run {
    if tolerance.is_above_zero() {
        index_rule(points, tolerance)
    } else {
        Run {
            kept: vec![(0..points.len()).collect()],
            ..Run::default()
        }
    }
}

/// The two minima of the preserving rule.
#[derive(Clone, Copy, Debug)]
pub struct Minima {
    pub first: usize,
    pub second: usize,
}

pub const LINE: Minima = Minima {
    first: 2,
    second: 4,
};
pub const RING: Minima = Minima {
    first: 4,
    second: 5,
};

/// Whether the segment from `left` to `right` crosses a present segment of any ring.
pub fn crosses(points: &[Place], rings: &[Vec<usize>], left: usize, right: usize) -> bool {
    let (from, to) = (points[left], points[right]);
    rings.iter().any(|ring| {
        ring.windows(2).any(|segment| {
            let (start, end) = (points[segment[0]], points[segment[1]]);
            let shares_an_end = start == from || start == to || end == from || end == to;
            !shares_an_end && meeting_place(from, to, start, end).is_some()
        })
    })
}

/// Step 5: removes the point at `at` of a ring, and demotes its left neighbour if it crossed and that is a candidate.
pub fn remove_preserving(
    kept: &mut Vec<usize>,
    demoted: &mut BTreeSet<usize>,
    at: usize,
    crossed: bool,
) -> usize {
    let (left, right) = (kept[at - 1], kept[at + 1]);
    let removed = kept.remove(at);
    demoted.remove(&removed);
    demoted.remove(&left);
    demoted.remove(&right);
    if crossed && at - 1 > 0 {
        demoted.insert(left);
    }
    removed
}

fn preserve(
    points: &[Place],
    mut rings: Vec<Vec<usize>>,
    tolerance: Tolerance,
    minima: Minima,
) -> Run {
    let mut run = Run::default();
    for ring in 0..rings.len() {
        if tolerance.is_above_zero() && rings[ring].len() >= 3 {
            preserve_ring(points, &mut rings, ring, tolerance, minima, &mut run);
        }
    }
    run.kept = rings;
    run
}

/// One ring thinned beside the others.
fn preserve_ring(
    points: &[Place],
    rings: &mut [Vec<usize>],
    ring: usize,
    tolerance: Tolerance,
    minima: Minima,
    run: &mut Run,
) {
    let mut demoted = BTreeSet::new();
    // 1.
    while let Some((area, positions)) = least_candidates(points, &rings[ring], &demoted) {
        if area.is_above(tolerance) {
            break;
        }
        // 2.
        let count = rings[ring].len();
        if count <= minima.first {
            run.stops_at_first_minimum += 1;
            break;
        }
        run.had_tie |= positions.len() > 1;
        // 3.
        let at = positions[0];
        let (left, right) = (rings[ring][at - 1], rings[ring][at + 1]);
        let crossed = crosses(points, rings, left, right);
        // 4.
        if crossed && count <= minima.second {
            run.stops_at_second_minimum += 1;
            break;
        }
        // 5.
        let index = remove_preserving(&mut rings[ring], &mut demoted, at, crossed);
        run.removals.push(Removal {
            index,
            area,
            crossed,
        });
    }
}

/// The preserving rule for a line.
pub fn preserve_line(points: &[Place], tolerance: Tolerance) -> Run {
    preserve(points, vec![(0..points.len()).collect()], tolerance, LINE)
}

/// The preserving rule for a polygon with this ring table.
pub fn preserve_polygon(points: &[Place], table: &[usize], tolerance: Tolerance) -> Run {
    preserve(points, rings_of_table(table), tolerance, RING)
}

/// The point indices of each ring.
pub fn rings_of_table(table: &[usize]) -> Vec<Vec<usize>> {
    let mut start = 0;
    let mut rings = Vec::new();
    for &end in table {
        rings.push((start..end).collect());
        start = end;
    }
    rings
}

/// The first of each run of equal points.
pub fn consecutive(points: &[Place]) -> Vec<usize> {
    (0..points.len())
        .filter(|&index| index == 0 || points[index] != points[index - 1])
        .collect()
}

/// The first appearance of each point.
pub fn anywhere(points: &[Place]) -> Vec<usize> {
    (0..points.len())
        .filter(|&index| !points[..index].contains(&points[index]))
        .collect()
}

// ---- reasons ----

#[derive(Clone, Copy, Debug, PartialEq, Eq)]
pub enum Reason {
    LengthsDiffer,
    TooManyPoints,
    OffGrid(usize),
    ToleranceNotFinite,
    RingTable,
    RingNotClosed,
    OutputTooShort,
    MemoryTooShort,
    SlotNumber,
    SlotOpen,
    SlotNotOpen,
}

impl Reason {
    /// Document 01's number.
    pub fn number(self) -> u32 {
        match self {
            Reason::LengthsDiffer => 1,
            Reason::TooManyPoints => 2,
            Reason::OffGrid(_) => 3,
            Reason::ToleranceNotFinite => 4,
            Reason::RingTable => 5,
            Reason::RingNotClosed => 6,
            Reason::OutputTooShort => 7,
            Reason::MemoryTooShort => 8,
            Reason::SlotNumber => 9,
            Reason::SlotOpen => 10,
            Reason::SlotNotOpen => 11,
        }
    }
}

type Checked<T> = Result<T, Reason>;

fn refuse_if(applies: bool, reason: Reason) -> Checked<()> {
    if applies {
        Err(reason)
    } else {
        Ok(())
    }
}

/// 1 and 2.
fn check_lengths(x: &[f64], y: &[f64]) -> Checked<()> {
    refuse_if(x.len() != y.len(), Reason::LengthsDiffer)?;
    refuse_if(x.len() > POINTS, Reason::TooManyPoints)
}

/// 3.
fn check_grid(x: &[f64], y: &[f64]) -> Checked<()> {
    match (0..x.len()).find(|&index| !on_grid(x[index]) || !on_grid(y[index])) {
        Some(index) => Err(Reason::OffGrid(index)),
        None => Ok(()),
    }
}

/// 4.
fn check_tolerance(tolerance: f64) -> Checked<Tolerance> {
    Tolerance::read(tolerance).ok_or(Reason::ToleranceNotFinite)
}

/// 5.
fn check_ring_table(rings: &[u32], count: usize) -> Checked<()> {
    let decreases = rings.windows(2).any(|two| two[0] > two[1]);
    let last_differs = rings.last().map(|&end| end as usize) != Some(count);
    refuse_if(
        rings.len() > RINGS || decreases || last_differs,
        Reason::RingTable,
    )
}

/// 6, of a table that passed 5.
fn check_rings_closed(x: &[f64], y: &[f64], rings: &[u32]) -> Checked<()> {
    let mut start = 0;
    for &end in rings {
        let end = end as usize;
        let open = start < end && (x[start] != x[end - 1] || y[start] != y[end - 1]);
        refuse_if(open, Reason::RingNotClosed)?;
        start = end;
    }
    Ok(())
}

/// The reason of the index rule, the point rule and the preserving rule for a line; the exact tolerance if none.
pub fn check_line(
    x: &[f64],
    y: &[f64],
    tolerance: f64,
    out: usize,
    floats: usize,
    words: usize,
) -> Checked<Tolerance> {
    check_lengths(x, y)?;
    let exact = check_tolerance(tolerance)?;
    check_grid(x, y)?;
    refuse_if(out < x.len(), Reason::OutputTooShort)?;
    check_scratch(x.len(), floats, words)?;
    Ok(exact)
}

/// The reason of the preserving rule for a polygon; the exact tolerance if none.
#[allow(clippy::too_many_arguments)]
pub fn check_polygon(
    x: &[f64],
    y: &[f64],
    tolerance: f64,
    rings: &[u32],
    out: usize,
    ring_out: usize,
    floats: usize,
    words: usize,
) -> Checked<Tolerance> {
    check_lengths(x, y)?;
    let exact = check_tolerance(tolerance)?;
    check_grid(x, y)?;
    check_ring_table(rings, x.len())?;
    check_rings_closed(x, y, rings)?;
    refuse_if(
        out < x.len() || ring_out < rings.len(),
        Reason::OutputTooShort,
    )?;
    check_scratch(x.len(), floats, words)?;
    Ok(exact)
}

/// The reason of both calls for repeated points.
pub fn check_repeated(x: &[f64], y: &[f64], out: usize) -> Checked<()> {
    check_lengths(x, y)?;
    check_grid(x, y)?;
    refuse_if(out < x.len(), Reason::OutputTooShort)
}

/// 8, of a thinning call.
fn check_scratch(count: usize, floats: usize, words: usize) -> Checked<()> {
    refuse_if(
        floats < SCRATCH_FLOATS_PER_POINT * count || words < SCRATCH_WORDS_PER_POINT * count,
        Reason::MemoryTooShort,
    )
}

// ---- the whole calls, with what they do to lent memory ----

/// What a thinning call borrows to work in.
pub struct Scratch<'a> {
    pub floats: &'a mut [f64],
    pub words: &'a mut [u32],
}

impl Scratch<'_> {
    fn zero(&mut self, count: usize) {
        self.floats[..SCRATCH_FLOATS_PER_POINT * count].fill(0.0);
        self.words[..SCRATCH_WORDS_PER_POINT * count].fill(0);
    }
}

fn joined(x: &[f64], y: &[f64]) -> Vec<Place> {
    x.iter().zip(y).map(|(&x, &y)| place(x, y)).collect()
}

/// Writes the list from the start and gives its count.
fn write(list: &[usize], out: &mut [u32]) -> usize {
    for (place, &index) in out.iter_mut().zip(list) {
        *place = index as u32;
    }
    list.len()
}

fn call_line(
    rule: fn(&[Place], Tolerance) -> Run,
    x: &[f64],
    y: &[f64],
    tolerance: f64,
    out: &mut [u32],
    mut scratch: Scratch,
) -> Checked<usize> {
    let (floats, words) = (scratch.floats.len(), scratch.words.len());
    let exact = check_line(x, y, tolerance, out.len(), floats, words)?;
    scratch.zero(x.len());
    Ok(write(&rule(&joined(x, y), exact).list(), out))
}

pub fn simplify_vw_idx(
    x: &[f64],
    y: &[f64],
    tolerance: f64,
    out: &mut [u32],
    scratch: Scratch,
) -> Checked<usize> {
    call_line(index_rule, x, y, tolerance, out, scratch)
}

pub fn simplify_vw(
    x: &[f64],
    y: &[f64],
    tolerance: f64,
    out: &mut [u32],
    scratch: Scratch,
) -> Checked<usize> {
    call_line(point_rule, x, y, tolerance, out, scratch)
}

pub fn simplify_vw_preserve(
    x: &[f64],
    y: &[f64],
    tolerance: f64,
    out: &mut [u32],
    scratch: Scratch,
) -> Checked<usize> {
    call_line(preserve_line, x, y, tolerance, out, scratch)
}

pub fn simplify_vw_preserve_polygon(
    x: &[f64],
    y: &[f64],
    tolerance: f64,
    rings: &[u32],
    out: &mut [u32],
    ring_out: &mut [u32],
    mut scratch: Scratch,
) -> Checked<usize> {
    let exact = check_polygon(
        x,
        y,
        tolerance,
        rings,
        out.len(),
        ring_out.len(),
        scratch.floats.len(),
        scratch.words.len(),
    )?;
    scratch.zero(x.len());
    let table: Vec<usize> = rings.iter().map(|&end| end as usize).collect();
    let run = preserve_polygon(&joined(x, y), &table, exact);
    write(&run.ring_table(), ring_out);
    Ok(write(&run.list(), out))
}

pub fn remove_repeated_points(x: &[f64], y: &[f64], out: &mut [u32]) -> Checked<usize> {
    check_repeated(x, y, out.len())?;
    Ok(write(&consecutive(&joined(x, y)), out))
}

pub fn remove_repeated_points_anywhere(x: &[f64], y: &[f64], out: &mut [u32]) -> Checked<usize> {
    check_repeated(x, y, out.len())?;
    Ok(write(&anywhere(&joined(x, y)), out))
}

// ---- the slots ----

/// The lengths of the lent work area.
#[derive(Clone, Copy, Debug)]
pub struct AreaSize {
    pub floats: usize,
    pub words: usize,
}

pub const FULL: AreaSize = AreaSize {
    floats: WORK_FLOATS,
    words: WORK_WORDS,
};

#[derive(Clone, Debug)]
struct OpenSlot {
    points: Vec<Place>,
    tolerance: Tolerance,
    kept: Vec<usize>,
}

#[derive(Clone, Copy, Debug, PartialEq)]
pub enum Step {
    Removed { index: usize, area: f64 },
    Finished,
}

/// The eight slots as a reader thinks of them, from a clear on. The lent area is known by its lengths only.
#[derive(Clone, Debug, Default)]
pub struct Slots {
    slots: [Option<OpenSlot>; SLOTS],
}

impl Slots {
    pub fn clear(&mut self, area: AreaSize) -> Checked<()> {
        check_area(area)?;
        *self = Slots::default();
        Ok(())
    }

    pub fn open(
        &mut self,
        area: AreaSize,
        slot: u32,
        x: &[f64],
        y: &[f64],
        tolerance: f64,
    ) -> Checked<()> {
        check_area(area)?;
        let number = check_slot(slot)?;
        refuse_if(self.slots[number].is_some(), Reason::SlotOpen)?;
        check_lengths(x, y)?;
        let exact = check_tolerance(tolerance)?;
        check_grid(x, y)?;
        self.slots[number] = Some(OpenSlot {
            points: joined(x, y),
            tolerance: exact,
            kept: (0..x.len()).collect(),
        });
        Ok(())
    }

    pub fn step(&mut self, area: AreaSize, slot: u32) -> Checked<Step> {
        check_area(area)?;
        let open = self.slots[check_slot(slot)?]
            .as_mut()
            .ok_or(Reason::SlotNotOpen)?;
        Ok(match plain_step(&open.points, &open.kept, open.tolerance) {
            Some((at, doubled)) => Step::Removed {
                index: open.kept.remove(at),
                area: doubled as f64 / 2.0,
            },
            None => Step::Finished,
        })
    }

    pub fn read(&self, area: AreaSize, slot: u32, out: &mut [u32]) -> Checked<usize> {
        check_area(area)?;
        let open = self.slots[check_slot(slot)?]
            .as_ref()
            .ok_or(Reason::SlotNotOpen)?;
        refuse_if(out.len() < open.kept.len(), Reason::OutputTooShort)?;
        Ok(write(&open.kept, out))
    }

    pub fn close(&mut self, area: AreaSize, slot: u32) -> Checked<()> {
        check_area(area)?;
        let number = check_slot(slot)?;
        refuse_if(self.slots[number].is_none(), Reason::SlotNotOpen)?;
        self.slots[number] = None;
        Ok(())
    }
}

/// 8, of a call on the work area.
fn check_area(area: AreaSize) -> Checked<()> {
    refuse_if(
        area.floats < WORK_FLOATS || area.words < WORK_WORDS,
        Reason::MemoryTooShort,
    )
}

/// 9.
fn check_slot(slot: u32) -> Checked<usize> {
    refuse_if(slot as usize >= SLOTS, Reason::SlotNumber)?;
    Ok(slot as usize)
}
