//! The six whole calls: answer, output, scratch and guard places as the model has them, and the list as the given text has it.

use crate::memory::Lent;
use crate::told::{told, Seen, Told};
use crate::Difference;
use oracle::cases::{ring_table, Case};
use oracle::model::{self, Scratch};
use oracle::random::Random;
use oracle::{repeated, tied, Pair};
use pylonfrith::lent;
use pylonfrith::sizes::{POINTS, SCRATCH_FLOATS_PER_POINT, SCRATCH_WORDS_PER_POINT};

#[derive(Clone, Copy, Debug, PartialEq)]
enum Call {
    Index,
    Point,
    Preserve,
    Polygon,
    Consecutive,
    Anywhere,
}

const CALLS: [Call; 6] = [
    Call::Index,
    Call::Point,
    Call::Preserve,
    Call::Polygon,
    Call::Consecutive,
    Call::Anywhere,
];

/// What is given to a call: the points, and how much memory is lent.
#[derive(Clone, Debug)]
struct Given {
    x: Vec<f64>,
    y: Vec<f64>,
    tolerance: f64,
    rings: Vec<u32>,
    out: usize,
    ring_out: usize,
    floats: usize,
    words: usize,
}

/// The memory lent to a call.
#[derive(Clone)]
struct Memory {
    out: Lent<u32>,
    ring_out: Lent<u32>,
    floats: Lent<f64>,
    words: Lent<u32>,
}

impl Memory {
    fn new(given: &Given, random: &mut Random) -> Memory {
        Memory {
            out: Lent::new(given.out, random),
            ring_out: Lent::new(given.ring_out, random),
            floats: Lent::new(given.floats, random),
            words: Lent::new(given.words, random),
        }
    }

    fn is(&self, other: &Memory) -> bool {
        self.out.is(&other.out)
            && self.ring_out.is(&other.ring_out)
            && self.floats.is(&other.floats)
            && self.words.is(&other.words)
    }
}

pub fn check(case: &Case, random: &mut Random, seen: &mut Seen) -> Result<(), Difference> {
    for call in CALLS {
        let given = accepted(call, case, random);
        check_call(call, &given, random, seen)?;
        check_list(call, case)?;
    }
    for _ in 0..2 {
        let call = random.pick(&CALLS);
        let mut given = accepted(call, case, random);
        for _ in 0..random.pick(&[1, 1, 1, 2, 3]) {
            spoil(&mut given, random);
        }
        check_call(call, &given, random, seen)?;
    }
    Ok(())
}

/// Points of the case with memory enough, and often not a place more.
fn accepted(call: Call, case: &Case, random: &mut Random) -> Given {
    let all: Vec<Pair> = match call {
        Call::Polygon => case.rings.concat(),
        _ => case.line.clone(),
    };
    let (x, y): (Vec<f64>, Vec<f64>) = all.iter().copied().unzip();
    let rings: Vec<u32> = ring_table(&case.rings)
        .iter()
        .map(|&end| end as u32)
        .collect();
    let mut spare = || random.pick(&[0, 0, 1, 5]);
    Given {
        out: x.len() + spare(),
        ring_out: rings.len() + spare(),
        floats: SCRATCH_FLOATS_PER_POINT * x.len() + spare(),
        words: SCRATCH_WORDS_PER_POINT * x.len() + spare(),
        x,
        y,
        tolerance: case.tolerance,
        rings,
    }
}

/// One thing that may bring a refusal.
fn spoil(given: &mut Given, random: &mut Random) {
    match random.below(16) {
        0 => drop(given.x.pop()),
        1 => given.y.push(0.0),
        2 if random.one_in(20) => lengthen(given, random),
        2..=4 => put_off_grid(given, random),
        5 => {
            given.tolerance = random.pick(&[f64::NAN, -f64::NAN, f64::INFINITY, f64::NEG_INFINITY])
        }
        6..=8 => spoil_rings(given, random),
        9 => open_a_ring(given, random),
        10 => given.out = shorter(given.x.len(), random),
        11 => given.ring_out = shorter(given.rings.len(), random),
        12 | 13 => given.floats = shorter(SCRATCH_FLOATS_PER_POINT * given.x.len(), random),
        _ => given.words = shorter(SCRATCH_WORDS_PER_POINT * given.x.len(), random),
    }
}

/// One place less than asked for, or any number less.
fn shorter(asked: usize, random: &mut Random) -> usize {
    if random.one_in(2) {
        asked.saturating_sub(1)
    } else {
        random.below(asked + 1)
    }
}

/// One point more than the most, or a few more.
fn lengthen(given: &mut Given, random: &mut Random) {
    let count = POINTS + 1 + random.below(3);
    given.x.resize(count, 0.0);
    given.y.resize(count, 0.0);
}

pub fn off_grid(random: &mut Random) -> f64 {
    random.pick(&[
        16_777_217.0,
        -16_777_217.0,
        f64::from_bits(16_777_216.0_f64.to_bits() + 1),
        0.5,
        -0.5,
        5e-324,
        1e300,
        f64::NAN,
        f64::INFINITY,
        f64::NEG_INFINITY,
    ])
}

fn put_off_grid(given: &mut Given, random: &mut Random) {
    for _ in 0..random.pick(&[1, 1, 2]) {
        let value = off_grid(random);
        let axis = if random.one_in(2) {
            &mut given.x
        } else {
            &mut given.y
        };
        if !axis.is_empty() {
            let at = random.below(axis.len());
            axis[at] = value;
        }
    }
}

fn spoil_rings(given: &mut Given, random: &mut Random) {
    let count = given.x.len() as u32;
    match random.below(6) {
        0 => given.rings.clear(),
        1 => given.rings = vec![count; 64 + random.below(3)],
        2 => given.rings.push(count + 1),
        3 => given
            .rings
            .push(random.pick(&[0, u32::MAX, count.saturating_sub(1)])),
        4 => given
            .rings
            .insert(0, random.pick(&[count, count + 1, u32::MAX])),
        _ => drop(given.rings.pop()),
    }
    if random.one_in(2) {
        given.ring_out = given.rings.len();
    }
}

fn open_a_ring(given: &mut Given, random: &mut Random) {
    if given.rings.is_empty() {
        return;
    }
    let end = random.pick(&given.rings) as usize;
    if (1..=given.x.len()).contains(&end) {
        given.x[end - 1] += if given.x[end - 1] > 0.0 { -1.0 } else { 1.0 };
    }
}

/// Both sides on the same memory.
fn check_call(
    call: Call,
    given: &Given,
    random: &mut Random,
    seen: &mut Seen,
) -> Result<(), Difference> {
    let mut ours = Memory::new(given, random);
    let mut expected = ours.clone();
    let answer = native(call, given, &mut ours);
    let wanted = by_model(call, given, &mut expected);
    seen.note(name(call), answer);
    if answer != wanted {
        return Err(format!(
            "{call:?}: answered {answer:?}, the model {wanted:?}, given {given:?}"
        ));
    }
    if !ours.is(&expected) {
        return Err(format!(
            "{call:?}: lent memory differs after {answer:?}: out {:?}, the model {:?}; given {given:?}",
            ours.out.slice(),
            expected.out.slice()
        ));
    }
    Ok(())
}

fn name(call: Call) -> &'static str {
    match call {
        Call::Index => "simplify_vw_idx",
        Call::Point => "simplify_vw",
        Call::Preserve => "simplify_vw_preserve",
        Call::Polygon => "simplify_vw_preserve_polygon",
        Call::Consecutive => "remove_repeated_points",
        Call::Anywhere => "remove_repeated_points_anywhere",
    }
}

fn native(call: Call, given: &Given, memory: &mut Memory) -> Told {
    let (x, y, tolerance) = (&given.x, &given.y, given.tolerance);
    let out = memory.out.slice_mut();
    let (floats, words) = (memory.floats.slice_mut(), memory.words.slice_mut());
    told(match call {
        Call::Index => lent::simplify_vw_idx(x, y, tolerance, out, floats, words),
        Call::Point => lent::simplify_vw(x, y, tolerance, out, floats, words),
        Call::Preserve => lent::simplify_vw_preserve(x, y, tolerance, out, floats, words),
        Call::Polygon => {
            let ring_out = memory.ring_out.slice_mut();
            lent::simplify_vw_preserve_polygon(
                x,
                y,
                tolerance,
                &given.rings,
                out,
                ring_out,
                floats,
                words,
            )
        }
        Call::Consecutive => lent::remove_repeated_points(x, y, out),
        Call::Anywhere => lent::remove_repeated_points_anywhere(x, y, out),
    })
}

fn by_model(call: Call, given: &Given, memory: &mut Memory) -> Told {
    let (x, y, tolerance) = (&given.x, &given.y, given.tolerance);
    let out = memory.out.slice_mut();
    let scratch = Scratch {
        floats: memory.floats.slice_mut(),
        words: memory.words.slice_mut(),
    };
    told(match call {
        Call::Index => model::simplify_vw_idx(x, y, tolerance, out, scratch),
        Call::Point => model::simplify_vw(x, y, tolerance, out, scratch),
        Call::Preserve => model::simplify_vw_preserve(x, y, tolerance, out, scratch),
        Call::Polygon => {
            let ring_out = memory.ring_out.slice_mut();
            let rings = &given.rings;
            model::simplify_vw_preserve_polygon(x, y, tolerance, rings, out, ring_out, scratch)
        }
        Call::Consecutive => model::remove_repeated_points(x, y, out),
        Call::Anywhere => model::remove_repeated_points_anywhere(x, y, out),
    })
}

/// The list of the safe call beside that of the given text with the tie order.
fn check_list(call: Call, case: &Case) -> Result<(), Difference> {
    let (line, tolerance) = (&case.line, case.tolerance);
    let (x, y): (Vec<f64>, Vec<f64>) = line.iter().copied().unzip();
    let (ours, text) = match call {
        Call::Index => (
            pylonfrith::simplify_vw_idx(&x, &y, tolerance),
            tied::kept::idx(line, tolerance),
        ),
        Call::Point => (
            pylonfrith::simplify_vw(&x, &y, tolerance),
            tied::kept::points(line, tolerance),
        ),
        Call::Preserve => (
            pylonfrith::simplify_vw_preserve(&x, &y, tolerance),
            tied::kept::preserve_line(line, tolerance),
        ),
        Call::Polygon => return check_polygon(case),
        Call::Consecutive => (
            pylonfrith::remove_repeated_points(&x, &y),
            repeated::kept::consecutive(line),
        ),
        Call::Anywhere => (
            pylonfrith::remove_repeated_points_anywhere(&x, &y),
            repeated::kept::anywhere(line),
        ),
    };
    let ours = ours.map_err(|refusal| format!("{call:?}: {refusal}"))?;
    same_list(call, &ours, &text)
}

fn check_polygon(case: &Case) -> Result<(), Difference> {
    let (x, y): (Vec<f64>, Vec<f64>) = case.rings.concat().into_iter().unzip();
    let table: Vec<u32> = ring_table(&case.rings)
        .iter()
        .map(|&end| end as u32)
        .collect();
    let ours = pylonfrith::simplify_vw_preserve_polygon(&x, &y, case.tolerance, &table)
        .map_err(|refusal| format!("polygon: {refusal}"))?;
    let text = tied::kept::preserve_polygon(&case.rings, case.tolerance);
    let ends: Vec<usize> = text
        .iter()
        .scan(0, |end, ring| {
            *end += ring.len();
            Some(*end)
        })
        .collect();
    same_list(Call::Polygon, &ours.points, &text.concat())?;
    same_list(Call::Polygon, &ours.rings, &ends)
}

fn same_list(call: Call, ours: &[u32], text: &[usize]) -> Result<(), Difference> {
    if ours
        .iter()
        .map(|&index| index as usize)
        .eq(text.iter().copied())
    {
        Ok(())
    } else {
        Err(format!("{call:?}: kept {ours:?}, the given text {text:?}"))
    }
}
