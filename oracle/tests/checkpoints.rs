//! Checkpoints P1 to P12 of document 01, of the model and of the given text with the tie order; then the reasons and
//! the slots of the model.

use oracle::cases::{next_down, next_up};
use oracle::model::{
    self, places, Area, AreaSize, Reason, Run, Scratch, Slots, Step, Tolerance, FULL,
};
use oracle::{repeated, tied, Pair};

const L: [Pair; 5] = [(5., 2.), (3., 8.), (6., 20.), (7., 25.), (10., 10.)];
const M: [Pair; 8] = [
    (10., 60.),
    (135., 68.),
    (94., 48.),
    (126., 31.),
    (280., 19.),
    (117., 48.),
    (300., 40.),
    (301., 10.),
];

fn exact(tolerance: f64) -> Tolerance {
    Tolerance::read(tolerance).expect("finite")
}

/// The index rule, by the model and by the text.
fn index_rule(points: &[Pair], tolerance: f64) -> Run {
    let run = model::index_rule(&places(points), exact(tolerance));
    assert_eq!(run.list(), tied::idx(points, tolerance));
    assert_eq!(run.list(), tied::kept::idx(points, tolerance));
    run
}

fn point_rule(points: &[Pair], tolerance: f64) -> Vec<usize> {
    let kept = model::point_rule(&places(points), exact(tolerance)).list();
    assert_eq!(kept, tied::kept::points(points, tolerance));
    kept
}

fn preserve_line(points: &[Pair], tolerance: f64) -> Run {
    let run = model::preserve_line(&places(points), exact(tolerance));
    assert_eq!(run.list(), tied::kept::preserve_line(points, tolerance));
    run
}

fn preserve_ring(points: &[Pair], tolerance: f64) -> Vec<usize> {
    let run = model::preserve_polygon(&places(points), &[points.len()], exact(tolerance));
    assert_eq!(
        run.kept,
        tied::kept::preserve_polygon(&[points.to_vec()], tolerance)
    );
    run.list()
}

fn doubled_areas(run: &Run) -> Vec<Area> {
    run.removals.iter().map(|removal| removal.area).collect()
}

#[test]
fn p1() {
    let run = index_rule(&L, 30.0);
    assert_eq!(run.list(), [0, 3, 4]);
    assert_eq!(run.removed(), [2, 1]);
    assert_eq!(doubled_areas(&run), [Area::Doubled(3), Area::Doubled(58)]);
}

#[test]
fn p2() {
    assert_eq!(index_rule(&L, 29.0), index_rule(&L, 30.0));
}

#[test]
fn p3() {
    assert_eq!(index_rule(&L, 28.5).list(), [0, 1, 3, 4]);
}

#[test]
fn p4() {
    assert_eq!(
        index_rule(&[(0., 0.), (1., 1.), (2., 2.)], 0.0).list(),
        [0, 2]
    );
}

#[test]
fn p5() {
    assert_eq!(point_rule(&[(0., 0.), (1., 1.), (2., 2.)], 0.0), [0, 1, 2]);
}

#[test]
fn p6() {
    let points = [(0., 0.), (1., 1.), (2., 0.), (3., 1.), (4., 0.)];
    assert_eq!(index_rule(&points, 1.0).list(), [0, 3, 4]);
}

#[test]
fn p7() {
    assert_eq!(index_rule(&M, 668.6).list(), [0, 1, 3, 4, 5, 6, 7]);
}

#[test]
fn p8() {
    let run = preserve_line(&M, 668.6);
    assert_eq!(run.list(), [0, 3, 4, 5, 6, 7]);
    assert_eq!(run.removed(), [2, 1]);
}

#[test]
fn p9() {
    let all: Vec<usize> = (0..8).collect();
    assert_eq!(index_rule(&M, 668.0).list(), all);
    assert_eq!(preserve_line(&M, 668.0).list(), all);
}

#[test]
fn p10() {
    let ring = [(0., 0.), (4., 0.), (4., 4.), (0., 4.), (0., 0.)];
    assert_eq!(preserve_ring(&ring, 100.0), [0, 2, 3, 4]);
}

#[test]
fn p11() {
    let points = [(0., 0.), (0., 0.), (1., 0.), (0., 0.)];
    assert_eq!(model::consecutive(&places(&points)), [0, 2, 3]);
    assert_eq!(repeated::kept::consecutive(&points), [0, 2, 3]);
    assert_eq!(model::anywhere(&places(&points)), [0, 2]);
    assert_eq!(repeated::kept::anywhere(&points), [0, 2]);
}

#[test]
fn p12() {
    let none: [Pair; 0] = [];
    assert!(index_rule(&none, 1.0).list().is_empty());
    assert!(point_rule(&none, 1.0).is_empty());
    assert!(preserve_line(&none, 1.0).list().is_empty());
    assert!(preserve_ring(&none, 1.0).is_empty());
    assert!(model::consecutive(&[]).is_empty() && repeated::consecutive(&none).is_empty());
    assert!(model::anywhere(&[]).is_empty() && repeated::anywhere(&none).is_empty());
    let mut slots = Slots::default();
    assert_eq!(slots.open(FULL, 0, &[], &[], 1.0), Ok(()));
    assert_eq!(slots.step(FULL, 0), Ok(Step::Finished));
}

#[test]
fn the_tolerance_is_read_exactly() {
    let is_exceeded = |tolerance: f64, doubled| exact(tolerance).is_exceeded(doubled);
    for tolerance in [0.0, -0.0] {
        assert!(!is_exceeded(tolerance, 0) && is_exceeded(tolerance, 1));
        assert!(!exact(tolerance).is_above_zero());
    }
    assert!(is_exceeded(-5e-324, 0) && is_exceeded(f64::MIN, 0));
    assert!(!is_exceeded(5e-324, 0) && is_exceeded(5e-324, 1));
    assert!(!is_exceeded(f64::MAX, 1 << 50));
    for doubled in [1_i128, 3, 57, 1337, (1 << 50) - 1, 1 << 50] {
        let area = doubled as f64 / 2.0;
        assert!(!is_exceeded(area, doubled) && !is_exceeded(next_up(area), doubled));
        assert!(is_exceeded(next_down(area), doubled));
    }
    // 668.6 is 5881067794648269 * 2^-43.
    assert_eq!(668.6, 5881067794648269.0 * 2_f64.powi(-43));
    assert!(Tolerance::read(f64::NAN).is_none() && Tolerance::read(f64::NEG_INFINITY).is_none());
}

#[test]
fn two_readings_of_meeting_agree_and_the_place_is_common() {
    use oracle::{Coord, Intersects, Line, Point};
    let mut random = oracle::random::Random::new(5);
    let end = 1 << 24;
    for round in 0..200_000 {
        let mut draw = || match round % 3 {
            0 => random.from_to(0, 3),
            1 => random.from_to(-end, end),
            _ => random.pick(&[-end, -end + 1, 0, end - 1, end]),
        };
        let p: Vec<Pair> = (0..4).map(|_| (draw() as f64, draw() as f64)).collect();
        let point = |at: usize| {
            Point(Coord {
                x: p[at].0,
                y: p[at].1,
            })
        };
        let at = places(&p);
        let met = model::meeting_place(at[0], at[1], at[2], at[3]);
        let given = Line::new(point(0), point(1)).intersects(&Line::new(point(2), point(3)));
        assert_eq!(met.is_some(), given, "{p:?}");
        let (s, t) = match met {
            Some(found) => found,
            None => continue,
        };
        assert!(0 <= s.over && s.over <= s.under && 0 <= t.over && t.over <= t.under);
        for axis in [|place: model::Place| place.x, |place: model::Place| place.y] {
            let [a, b, c, d] = [0, 1, 2, 3].map(|i: usize| axis(at[i]));
            let along_first = (a * s.under + s.over * (b - a)) * t.under;
            let along_second = (c * t.under + t.over * (d - c)) * s.under;
            assert_eq!(along_first, along_second, "{p:?}");
        }
    }
}

/// The number of the reason that the index rule's call gives.
fn line_reason(
    x: &[f64],
    y: &[f64],
    tolerance: f64,
    out: usize,
    floats: usize,
    words: usize,
) -> u32 {
    model::check_line(x, y, tolerance, out, floats, words).map_or_else(Reason::number, |_| 0)
}

#[test]
fn reasons_of_a_line_in_order() {
    let (nan, inf) = (f64::NAN, f64::INFINITY);
    let long = vec![nan; 4097];
    assert_eq!(line_reason(&long, &long[..4096], nan, 0, 0, 0), 1);
    assert_eq!(line_reason(&long, &long, nan, 0, 0, 0), 2);
    assert_eq!(line_reason(&long[..4096], &long[..4096], inf, 0, 0, 0), 4);
    assert_eq!(
        model::check_line(&[0., 1., 0.5], &[0., 16777217., 0.], 1.0, 0, 0, 0).map(|_| ()),
        Err(Reason::OffGrid(1))
    );
    assert_eq!(line_reason(&[0.5], &[0.], 1.0, 1, 3, 12), 3);
    assert_eq!(line_reason(&[nan], &[0.], 1.0, 1, 3, 12), 3);
    assert_eq!(line_reason(&[0., 1.], &[0., 1.], 1.0, 1, 0, 0), 7);
    assert_eq!(line_reason(&[0., 1.], &[0., 1.], 1.0, 2, 5, 24), 8);
    assert_eq!(line_reason(&[0., 1.], &[0., 1.], 1.0, 2, 6, 23), 8);
    assert_eq!(line_reason(&[0., 1.], &[0., 1.], 1.0, 2, 6, 24), 0);
    assert_eq!(line_reason(&[16777216.], &[-16777216.], -0.0, 1, 3, 12), 0);
    let most = vec![0.0; 4096];
    assert_eq!(line_reason(&most, &most, 1.0, 4096, 12288, 49152), 0);
}

#[test]
fn reasons_of_a_polygon_and_of_repeated_points() {
    let reason = |points: &[Pair], rings: &[u32], out, ring_out| {
        let (x, y): (Vec<f64>, Vec<f64>) = points.iter().copied().unzip();
        let room = x.len();
        model::check_polygon(&x, &y, 1.0, rings, out, ring_out, 3 * room, 12 * room)
            .map_or_else(Reason::number, |_| 0)
    };
    let square = [(0., 0.), (4., 0.), (4., 4.), (0., 4.), (-0., 0.)];
    assert_eq!(reason(&square, &[5], 5, 1), 0);
    assert_eq!(reason(&square, &[], 5, 1), 5);
    assert_eq!(reason(&square, &[4], 5, 1), 5);
    assert_eq!(reason(&square, &[6], 5, 1), 5);
    assert_eq!(reason(&square, &[5, 4, 5], 5, 3), 5);
    assert_eq!(reason(&square, &[5; 64], 5, 64), 0);
    assert_eq!(reason(&square, &[5; 65], 5, 65), 5);
    assert_eq!(reason(&square, &[0, 5, 5], 5, 3), 0);
    assert_eq!(reason(&square, &[1, 5], 0, 0), 6);
    assert_eq!(reason(&square, &[5], 4, 1), 7);
    assert_eq!(reason(&square, &[5], 5, 0), 7);
    assert_eq!(reason(&[], &[0, 0], 0, 2), 0);
    assert_eq!(reason(&[], &[], 0, 0), 5);
    let none = model::check_polygon(&[0.], &[0.], 1.0, &[1], 1, 1, 2, 12);
    assert_eq!(none.map(|_| ()), Err(Reason::MemoryTooShort));

    assert_eq!(
        model::check_repeated(&[0.], &[], 0),
        Err(Reason::LengthsDiffer)
    );
    assert_eq!(
        model::check_repeated(&[0.5], &[0.], 0),
        Err(Reason::OffGrid(0))
    );
    assert_eq!(
        model::check_repeated(&[0.], &[0.], 0),
        Err(Reason::OutputTooShort)
    );
    assert_eq!(model::check_repeated(&[0.], &[0.], 1), Ok(()));
}

#[test]
fn a_whole_call_writes_its_list_and_zeroes_its_scratch_and_no_more() {
    let (x, y): (Vec<f64>, Vec<f64>) = L.into_iter().unzip();
    let (mut out, mut floats, mut words) = ([9; 6], [9.0; 16], [9; 61]);
    let mut call = |tolerance| {
        let scratch = Scratch {
            floats: &mut floats,
            words: &mut words,
        };
        let answer = model::simplify_vw_idx(&x, &y, tolerance, &mut out, scratch);
        (answer, out, floats, words)
    };
    let refused = call(f64::NAN);
    assert_eq!(
        refused,
        (Err(Reason::ToleranceNotFinite), [9; 6], [9.0; 16], [9; 61])
    );
    let (answer, out, floats, words) = call(30.0);
    assert_eq!((answer, out), (Ok(3), [0, 3, 4, 9, 9, 9]));
    assert!(floats[..15] == [0.0; 15] && floats[15] == 9.0);
    assert!(words[..60] == [0; 60] && words[60] == 9);
}

/// An area with a float too few.
const SHORT: AreaSize = AreaSize {
    floats: FULL.floats - 1,
    ..FULL
};

/// L in slot 0 at 30 and in slot 1 at 28.5.
fn opened_twice() -> Slots {
    let (x, y): (Vec<f64>, Vec<f64>) = L.into_iter().unzip();
    let mut slots = Slots::default();
    assert_eq!(slots.open(FULL, 0, &x, &y, 30.0), Ok(()));
    assert_eq!(slots.open(FULL, 1, &x, &y, 28.5), Ok(()));
    slots
}

#[test]
fn reasons_of_slots_in_order() {
    let x = [0.0; 5];
    let mut slots = opened_twice();
    let mut out = [0; 5];
    assert_eq!(
        slots.open(SHORT, 8, &x, &[], 30.0),
        Err(Reason::MemoryTooShort)
    );
    assert_eq!(slots.open(FULL, 8, &x, &[], 30.0), Err(Reason::SlotNumber));
    assert_eq!(
        slots.open(FULL, 7, &x, &[], f64::NAN),
        Err(Reason::LengthsDiffer)
    );
    assert_eq!(
        slots.open(FULL, 1, &x, &[], f64::NAN),
        Err(Reason::SlotOpen)
    );
    assert_eq!(slots.step(FULL, 7), Err(Reason::SlotNotOpen));
    assert_eq!(slots.read(FULL, 7, &mut out), Err(Reason::SlotNotOpen));
    assert_eq!(slots.close(FULL, 7), Err(Reason::SlotNotOpen));
    assert_eq!(slots.step(FULL, u32::MAX), Err(Reason::SlotNumber));
    assert_eq!(
        slots.read(FULL, 0, &mut out[..4]),
        Err(Reason::OutputTooShort)
    );
    assert_eq!(slots.clear(SHORT), Err(Reason::MemoryTooShort));
}

#[test]
fn slots_stepped_by_turns() {
    let mut slots = opened_twice();
    let mut out = [0; 5];
    let removed = |index, area| Ok(Step::Removed { index, area });
    let finished = Ok(Step::Finished);
    let step = |slots: &mut Slots| (slots.step(FULL, 0), slots.step(FULL, 1));
    assert_eq!(step(&mut slots), (removed(2, 1.5), removed(2, 1.5)));
    assert_eq!(
        slots.read(FULL, 0, &mut out[..3]),
        Err(Reason::OutputTooShort)
    );
    assert_eq!(
        (slots.read(FULL, 0, &mut out), out),
        (Ok(4), [0, 1, 3, 4, 0])
    );
    assert_eq!(step(&mut slots), (removed(1, 29.0), finished));
    assert_eq!(step(&mut slots), (finished, finished));
    assert_eq!(
        (slots.read(FULL, 0, &mut out), &out[..3]),
        (Ok(3), &[0, 3, 4][..])
    );
    assert_eq!(slots.close(FULL, 0), Ok(()));
    assert_eq!(slots.read(FULL, 1, &mut out), Ok(4));
    assert_eq!(slots.clear(SHORT), Err(Reason::MemoryTooShort));
    assert_eq!(slots.clear(FULL), Ok(()));
    assert_eq!(slots.step(FULL, 1), Err(Reason::SlotNotOpen));
}

#[test]
fn a_flat_step_answers_plus_zero() {
    let mut slots = Slots::default();
    assert_eq!(
        slots.open(FULL, 3, &[2., 1., -0.], &[2., 1., -0.], 0.0),
        Ok(())
    );
    match slots.step(FULL, 3) {
        Ok(Step::Removed { index: 1, area }) => assert_eq!(area.to_bits(), 0),
        other => panic!("{other:?}"),
    }
}

#[test]
fn the_second_minimum_is_met_only_through_another_ring() {
    let mut random = oracle::random::Random::new(7);
    let mut stops_with_another_ring = 0;
    for _ in 0..20_000 {
        let case = oracle::cases::case(&mut random);
        let tolerance = exact(case.tolerance);
        let line = model::preserve_line(&places(&case.line), tolerance);
        assert_eq!(line.stops_at_first_minimum, 0);
        assert_eq!(line.stops_at_second_minimum, 0);
        let shell = &case.rings[0];
        let alone = model::preserve_polygon(&places(shell), &[shell.len()], tolerance);
        assert_eq!(alone.stops_at_second_minimum, 0);
        let table = oracle::cases::ring_table(&case.rings);
        let all = model::preserve_polygon(&places(&case.rings.concat()), &table, tolerance);
        stops_with_another_ring += all.stops_at_second_minimum;
    }
    assert!(stops_with_another_ring > 0);
}

#[test]
fn vectors_are_the_same_each_time_and_hold_every_call() {
    let made = oracle::vectors::vectors(1, 50);
    assert_eq!(made, oracle::vectors::vectors(1, 50));
    for call in ["1 ", "2 ", "3 ", "4 ", "5 ", "6 "] {
        assert!(made.iter().any(|line| line.starts_with(call)));
    }
}

#[test]
fn vectors_with_a_spoiled_table_and_an_open_ring() {
    // From this seed a ring is opened whose end is past the points.
    assert!(oracle::vectors::vectors(10, 400).len() > 400);
}
