//! How long the calls take, beside the given text of crate geo, on the same lines in one run.
//!
//!     cargo bench                 # in rust/; some two minutes
//!     cargo bench -- --quick      # a look, with less care
//!
//! 'ours' is the native archive on lent memory, with its tests of the input and the zeroing of its scratch. 'tied' is the given text
//! with the tie order, which gives the same list; 'given' is the given text as it is. Both allocate as they go. Each number is the
//! median of many calls, the three taken by turns. For the preserving rule a plain list stands in for the crate's R* tree.

mod lines;

use lines::{lines, Line, ALL, SEED};
use pylonfrith::sizes::{POINTS, SCRATCH_FLOATS_PER_POINT, SCRATCH_WORDS_PER_POINT};
use pylonfrith::{lent, Slot, Step, WorkArea};
use std::process::ExitCode;
use std::time::{Duration, Instant};

const COUNTS: [usize; 3] = [256, 1_024, POINTS];
/// The growth table begins with so many points, and doubles them up to the limit.
const LEAST: usize = 256;

fn main() -> ExitCode {
    let mut budget = Duration::from_millis(400);
    for word in std::env::args().skip(1) {
        match word.as_str() {
            "--bench" => {}
            "--quick" => budget = Duration::from_millis(20),
            _ => {
                eprintln!("usage: cargo bench [-- --quick]");
                return ExitCode::from(2);
            }
        }
    }
    println!("Seed {SEED}. Microseconds a call, medians; a ratio below 1 is in our favour.\n");
    println!("| call | line | points | kept | given | tied | ours | ours/tied | ours/given |");
    println!("|---|---|---:|---:|---:|---:|---:|---:|---:|");
    let lines = lines(&COUNTS);
    for bench in [index_rule, preserving_rule, slot_steps] {
        for line in &lines {
            bench(line, line.half(), budget);
            bench(line, ALL, budget);
        }
    }
    for line in &lines {
        repeats(line, budget);
    }
    growth(budget);
    latency(&lines);
    ExitCode::SUCCESS
}

// ---- whole calls ----

/// One side of a comparison: makes the call once and gives the number of points kept.
type Side<'a> = &'a mut dyn FnMut() -> usize;

/// Medians of the sides, taken by turns for as long as the budget says and at least five times; and the count kept by the last.
fn medians(sides: &mut [Side], budget: Duration) -> (Vec<f64>, usize) {
    let mut times = vec![Vec::new(); sides.len()];
    let mut kept = 0;
    let begun = Instant::now();
    while begun.elapsed() < budget || times[0].len() < 5 {
        for (side, times) in sides.iter_mut().zip(&mut times) {
            let start = Instant::now();
            kept = side();
            times.push(start.elapsed());
        }
    }
    let median = |times: &mut Vec<Duration>| {
        times.sort_unstable();
        times[times.len() / 2].as_secs_f64() * 1e6
    };
    (times.iter_mut().map(median).collect(), kept)
}

/// What was measured of a call, as far as there is such a side.
struct Times {
    given: Option<f64>,
    tied: Option<f64>,
    ours: f64,
}

fn row(call: &str, line: &Line, kept: usize, times: &Times) {
    let time = |side: Option<f64>| side.map_or(String::new(), |time| format!("{time:.1}"));
    let ratio =
        |side: Option<f64>| side.map_or(String::new(), |time| format!("{:.2}", times.ours / time));
    println!(
        "| {call} | {} | {} | {kept} | {} | {} | {:.1} | {} | {} |",
        line.kind,
        line.len(),
        time(times.given),
        time(times.tied),
        times.ours,
        ratio(times.tied),
        ratio(times.given),
    );
}

/// The given text as it is, with the tie order, and ours.
fn row_of_three(call: &str, line: &Line, sides: &mut [Side; 3], budget: Duration) {
    let (times, kept) = medians(sides, budget);
    let times = Times {
        given: Some(times[0]),
        tied: Some(times[1]),
        ours: times[2],
    };
    row(call, line, kept, &times);
}

/// Output and scratch, lent again and again.
struct Memory {
    out: Vec<u32>,
    floats: Vec<f64>,
    words: Vec<u32>,
}

impl Memory {
    fn new(line: &Line) -> Memory {
        Memory {
            out: vec![0; line.len()],
            floats: vec![0.0; SCRATCH_FLOATS_PER_POINT * line.len()],
            words: vec![0; SCRATCH_WORDS_PER_POINT * line.len()],
        }
    }
}

fn index_rule(line: &Line, tolerance: f64, budget: Duration) {
    let mut memory = Memory::new(line);
    let mut ours = || {
        let Memory { out, floats, words } = &mut memory;
        let count = lent::simplify_vw_idx(&line.x, &line.y, tolerance, out, floats, words);
        count.expect("accepted") as usize
    };
    let mut given = || {
        use oracle::simplify_vw::SimplifyVwIdx;
        line.string.simplify_vw_idx(tolerance).len()
    };
    let mut tied = || {
        use oracle::simplify_vw_tied::SimplifyVwIdx;
        line.string.simplify_vw_idx(tolerance).len()
    };
    let mut sides: [Side; 3] = [&mut given, &mut tied, &mut ours];
    row_of_three("index rule", line, &mut sides, budget);
}

fn preserving_rule(line: &Line, tolerance: f64, budget: Duration) {
    let mut memory = Memory::new(line);
    let mut ours = || preserved(line, tolerance, &mut memory);
    let mut given = || {
        use oracle::simplify_vw::SimplifyVwPreserve;
        line.string.simplify_vw_preserve(tolerance).0.len()
    };
    let mut tied = || preserved_tied(line, tolerance);
    let mut sides: [Side; 3] = [&mut given, &mut tied, &mut ours];
    row_of_three("preserving rule", line, &mut sides, budget);
}

fn preserved(line: &Line, tolerance: f64, memory: &mut Memory) -> usize {
    let Memory { out, floats, words } = memory;
    let count = lent::simplify_vw_preserve(&line.x, &line.y, tolerance, out, floats, words);
    count.expect("accepted") as usize
}

fn preserved_tied(line: &Line, tolerance: f64) -> usize {
    use oracle::simplify_vw_tied::SimplifyVwPreserve;
    line.string.simplify_vw_preserve(tolerance).0.len()
}

/// A slot opened and stepped to the end, beside the whole call of the given text.
fn slot_steps(line: &Line, tolerance: f64, budget: Duration) {
    let mut work = WorkArea::new();
    let mut ours = || {
        opened(&mut work, line, tolerance);
        let mut left = line.len();
        while let Ok(Step::Removed { .. }) = work.step(Slot(0)) {
            left -= 1;
        }
        work.close(Slot(0)).expect("open");
        left
    };
    let mut tied = || {
        use oracle::simplify_vw_tied::SimplifyVwIdx;
        line.string.simplify_vw_idx(tolerance).len()
    };
    let (times, kept) = medians(&mut [&mut tied, &mut ours], budget);
    let times = Times {
        given: None,
        tied: Some(times[0]),
        ours: times[1],
    };
    row("open, all steps, close", line, kept, &times);
}

fn opened(work: &mut WorkArea, line: &Line, tolerance: f64) {
    work.open(Slot(0), &line.x, &line.y, tolerance)
        .expect("accepted");
}

/// The given text has no ties here.
fn repeats(line: &Line, budget: Duration) {
    use oracle::remove_repeated_points::RemoveRepeatedPoints;
    let measure = |call: &str, given: Side, ours: Side| {
        let (times, kept) = medians(&mut [given, ours], budget);
        let times = Times {
            given: Some(times[0]),
            tied: None,
            ours: times[1],
        };
        row(call, line, kept, &times);
    };
    let mut out = vec![0; line.len()];
    measure(
        "repeats, consecutive",
        &mut || line.string.remove_repeated_points().0.len(),
        &mut || {
            let count = lent::remove_repeated_points(&line.x, &line.y, &mut out);
            count.expect("accepted") as usize
        },
    );
    measure(
        "repeats, anywhere",
        &mut || line.points.remove_repeated_points().0.len(),
        &mut || {
            let count = lent::remove_repeated_points_anywhere(&line.x, &line.y, &mut out);
            count.expect("accepted") as usize
        },
    );
}

// ---- growth ----

/// The preserving rule with everything removed, at twice as many points again and again: what a call takes, and how many times as
/// long as at half as many points.
fn growth(budget: Duration) {
    println!("\nThe preserving rule with everything removed, as a line grows; 'times' is to half as many points.\n");
    println!("| line | points | tied | ours | ours/tied | tied, times | ours, times |");
    println!("|---|---:|---:|---:|---:|---:|---:|");
    let counts: Vec<usize> = std::iter::successors(Some(LEAST), |count| Some(2 * count))
        .take_while(|&count| count <= POINTS)
        .collect();
    let lines = lines(&counts);
    let kinds = lines.len() / counts.len();
    for kind in 0..kinds {
        let mut before: Option<(f64, f64)> = None;
        for line in lines.iter().skip(kind).step_by(kinds) {
            let now = grown(line, budget);
            let times = |now: f64, before: Option<f64>| {
                before.map_or(String::new(), |before| format!("{:.1}", now / before))
            };
            println!(
                "| {} | {} | {:.1} | {:.1} | {:.2} | {} | {} |",
                line.kind,
                line.len(),
                now.0,
                now.1,
                now.1 / now.0,
                times(now.0, before.map(|times| times.0)),
                times(now.1, before.map(|times| times.1)),
            );
            before = Some(now);
        }
    }
}

/// Medians of 'tied' and of ours.
fn grown(line: &Line, budget: Duration) -> (f64, f64) {
    let mut memory = Memory::new(line);
    let mut tied = || preserved_tied(line, ALL);
    let mut ours = || preserved(line, ALL, &mut memory);
    let (times, _) = medians(&mut [&mut tied, &mut ours], budget);
    (times[0], times[1])
}

// ---- single steps ----

fn latency(lines: &[Line]) {
    const ROUNDS: usize = 10;
    println!("\nA single step, to the last removal of all, in nanoseconds; reading the clock included.\n");
    println!("| line | points | steps | median | 99th of 100 | worst | open |");
    println!("|---|---:|---:|---:|---:|---:|---:|");
    for line in lines {
        let (steps, opens) = step_times(line, ROUNDS);
        let at = |part: usize| steps[(steps.len() - 1) * part / 100].as_nanos();
        println!(
            "| {} | {} | {} | {} | {} | {} | {} |",
            line.kind,
            line.len(),
            steps.len(),
            at(50),
            at(99),
            at(100),
            opens[ROUNDS / 2].as_nanos()
        );
    }
    println!("\nReading the clock alone: {} ns.", clock());
}

/// How long each step and each open took, in rising order.
fn step_times(line: &Line, rounds: usize) -> (Vec<Duration>, Vec<Duration>) {
    let mut work = WorkArea::new();
    let mut steps = Vec::new();
    let mut opens = Vec::new();
    for _ in 0..rounds {
        let start = Instant::now();
        opened(&mut work, line, ALL);
        opens.push(start.elapsed());
        loop {
            let start = Instant::now();
            let step = work.step(Slot(0));
            let time = start.elapsed();
            match step {
                Ok(Step::Removed { .. }) => steps.push(time),
                _ => break,
            }
        }
        work.close(Slot(0)).expect("open");
    }
    steps.sort_unstable();
    opens.sort_unstable();
    (steps, opens)
}

fn clock() -> u128 {
    let mut times: Vec<Duration> = (0..1_001).map(|_| Instant::now().elapsed()).collect();
    times.sort_unstable();
    times[500].as_nanos()
}
