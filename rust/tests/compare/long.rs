//! Lines too long for the model, up to the most points, beside the given text with the tie order.

use crate::Difference;
use oracle::random::Random;
use oracle::{repeated, tied, Pair};
use pylonfrith::sizes::POINTS;
use pylonfrith::{Slot, Step, WorkArea};

/// The preserving rule of the stand-ins searches a plain list: lines for it are shorter.
const MOST_PRESERVED: usize = 400;

pub fn check(random: &mut Random) -> Result<(), Difference> {
    let any = 200 + random.below(POINTS - 200);
    let count = random.pick(&[POINTS, POINTS - 1, any]);
    let line = drawn(count, random);
    let (x, y): (Vec<f64>, Vec<f64>) = line.iter().copied().unzip();
    let tolerance = random.pick(&[-1.0, 0.0, 0.5, 3.0, 40.0, 1e5, 1e12, f64::MAX]);

    let kept = tied::idx(&line, tolerance);
    same(
        "index",
        pylonfrith::simplify_vw_idx(&x, &y, tolerance),
        &kept,
    )?;
    same(
        "point",
        pylonfrith::simplify_vw(&x, &y, tolerance),
        &tied::kept::points(&line, tolerance),
    )?;
    same(
        "consecutive",
        pylonfrith::remove_repeated_points(&x, &y),
        &repeated::kept::consecutive(&line),
    )?;
    same(
        "anywhere",
        pylonfrith::remove_repeated_points_anywhere(&x, &y),
        &repeated::kept::anywhere(&line),
    )?;
    let short = &line[..count.min(MOST_PRESERVED)];
    same(
        "preserving",
        pylonfrith::simplify_vw_preserve(&x[..short.len()], &y[..short.len()], tolerance),
        &tied::kept::preserve_line(short, tolerance),
    )?;
    check_steps(&x, &y, tolerance, &kept)
}

fn drawn(count: usize, random: &mut Random) -> Vec<Pair> {
    let reach = random.pick(&[1, 3, 100, 4_000]);
    let walks = random.one_in(2);
    let mut at = (0, 0);
    let mut next = || {
        let draw = (random.from_to(-reach, reach), random.from_to(-reach, reach));
        at = if walks {
            (at.0 + draw.0, at.1 + draw.1)
        } else {
            draw
        };
        (at.0 as f64, at.1 as f64)
    };
    (0..count).map(|_| next()).collect()
}

/// Steps to the end remove what the index rule removes; halfway, what is left and what is gone make the line.
fn check_steps(x: &[f64], y: &[f64], tolerance: f64, kept: &[usize]) -> Result<(), Difference> {
    let mut area = WorkArea::new();
    let slot = Slot(3);
    let refused = |refusal| format!("steps: {refusal}");
    area.open(slot, x, y, tolerance).map_err(refused)?;
    let mut is_left = vec![true; x.len()];
    let mut steps = 0;
    while let Step::Removed { index, area: size } = area.step(slot).map_err(refused)? {
        let was_left = std::mem::replace(&mut is_left[index.get()], false);
        steps += 1;
        if !was_left || size > tolerance || size < 0.0 {
            return Err(format!("steps: removed {index:?} of area {size}"));
        }
        if steps % 500 == 1 {
            check_left(&area, slot, &is_left)?;
        }
    }
    check_left(&area, slot, &is_left)?;
    same("steps", area.read(slot), kept)
}

fn check_left(area: &WorkArea, slot: Slot, is_left: &[bool]) -> Result<(), Difference> {
    let left: Vec<usize> = (0..is_left.len()).filter(|&index| is_left[index]).collect();
    same("read", area.read(slot), &left)
}

fn same(
    call: &str,
    ours: Result<Vec<u32>, pylonfrith::Refusal>,
    wanted: &[usize],
) -> Result<(), Difference> {
    let ours = ours.map_err(|refusal| format!("long line, {call}: {refusal}"))?;
    if ours
        .iter()
        .map(|&index| index as usize)
        .eq(wanted.iter().copied())
    {
        Ok(())
    } else {
        Err(format!(
            "long line, {call}: another list than the given text's"
        ))
    }
}
