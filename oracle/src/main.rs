//! `oracle compare --cases N --seed S` and `oracle vectors --seed S --count N`. See README.md.

use oracle::cases::{case, ring_table, Case};
use oracle::explain::{explain, Rule, Verdict};
use oracle::model::{self, places, rings_of_table, Place, Run, Slots, Step, Tolerance};
use oracle::random::Random;
use oracle::vectors::vectors;
use oracle::{given, repeated, same_points, tied, Pair};
use std::io::Write;
use std::process::ExitCode;

const USAGE: &str = "\
usage: oracle compare --cases N --seed S
       oracle vectors --seed S --count N";

fn main() -> ExitCode {
    let words: Vec<String> = std::env::args().skip(1).collect();
    let words: Vec<&str> = words.iter().map(String::as_str).collect();
    match words.as_slice() {
        ["compare", options @ ..] => match read_options(options, "--cases") {
            Some((cases, seed)) => compare(cases, seed),
            None => usage(),
        },
        ["vectors", options @ ..] => match read_options(options, "--count") {
            Some((count, seed)) => print_vectors(count, seed),
            None => usage(),
        },
        _ => usage(),
    }
}

fn usage() -> ExitCode {
    eprintln!("{USAGE}");
    ExitCode::from(2)
}

/// The count and the seed, in either order, both needed.
fn read_options(options: &[&str], count_name: &str) -> Option<(usize, u64)> {
    match *options {
        [a, count, "--seed", seed] | ["--seed", seed, a, count] if a == count_name => {
            Some((count.parse().ok()?, seed.parse().ok()?))
        }
        _ => None,
    }
}

fn print_vectors(count: usize, seed: u64) -> ExitCode {
    let mut out = std::io::stdout().lock();
    for line in vectors(seed, count) {
        if writeln!(out, "{line}").is_err() {
            return ExitCode::from(1);
        }
    }
    ExitCode::SUCCESS
}

/// What was seen of one thinning call.
#[derive(Default)]
struct Seen {
    with_removals: usize,
    with_tie: usize,
    with_crossing: usize,
    first_minimum: usize,
    second_minimum: usize,
    untied_differs: usize,
    untied_points_differ: usize,
    not_searched: usize,
}

impl Seen {
    fn count(&mut self, run: &Run) {
        self.with_removals += usize::from(!run.removals.is_empty());
        self.with_tie += usize::from(run.had_tie);
        self.with_crossing += usize::from(run.removals.iter().any(|removal| removal.crossed));
        self.first_minimum += usize::from(run.stops_at_first_minimum > 0);
        self.second_minimum += usize::from(run.stops_at_second_minimum > 0);
    }

    fn print(&self, call: &str) {
        println!(
            "{call:9} removals {:7}  ties {:7}  crossings {:6}  stops at first minimum {:6}, at second {:6}  \
             untied differs {:6} (points {:6}, not searched {})",
            self.with_removals,
            self.with_tie,
            self.with_crossing,
            self.first_minimum,
            self.second_minimum,
            self.untied_differs,
            self.untied_points_differ,
            self.not_searched,
        );
    }
}

/// A difference, in words.
type Difference = String;

/// One thinning call of a case: the model's run, and what the two texts answered.
struct Thinned<'a> {
    call: &'a str,
    at: &'a [Place],
    tolerance: Tolerance,
    table: Vec<usize>,
    rule: Rule,
    run: &'a Run,
    tied: Vec<Vec<usize>>,
    untied: Vec<Vec<usize>>,
}

impl Thinned<'_> {
    fn check(&self, seen: &mut Seen) -> Result<(), Difference> {
        seen.count(self.run);
        if self.tied != self.run.kept {
            return Err(format!(
                "{}: model keeps {:?}, the tied text {:?}",
                self.call, self.run.kept, self.tied
            ));
        }
        if self.untied == self.run.kept {
            return Ok(());
        }
        seen.untied_differs += 1;
        let values = |kept: &[Vec<usize>]| -> Vec<Vec<Place>> {
            let ring = |ring: &Vec<usize>| ring.iter().map(|&index| self.at[index]).collect();
            kept.iter().map(ring).collect()
        };
        seen.untied_points_differ += usize::from(values(&self.untied) != values(&self.run.kept));
        let rings = rings_of_table(&self.table);
        let verdict = explain(self.at, rings, self.tolerance, self.rule, &self.untied);
        seen.not_searched += usize::from(verdict == Verdict::NotSearched);
        if !self.run.had_tie || verdict == Verdict::Unexplained {
            return Err(format!(
                "{}: model keeps {:?}, the untied text {:?}, tie {}, {verdict:?}",
                self.call, self.run.kept, self.untied, self.run.had_tie
            ));
        }
        Ok(())
    }
}

#[derive(Default)]
struct Counts {
    index: Seen,
    point: Seen,
    line: Seen,
    polygon: Seen,
    repeated: usize,
    steps: usize,
}

fn same_list(
    call: &str,
    points: &[Pair],
    kept: &[usize],
    listed: &[Pair],
) -> Result<(), Difference> {
    if same_points(points, kept, listed) {
        Ok(())
    } else {
        Err(format!("{call}: model keeps {kept:?}, listed {listed:?}"))
    }
}

fn check_case(case: &Case, counts: &mut Counts) -> Result<(), Difference> {
    let exact = Tolerance::read(case.tolerance).expect("a finite tolerance");
    let line = OneLine {
        points: &case.line,
        at: places(&case.line),
        tolerance: case.tolerance,
        exact,
    };
    let index = line.check_index(&mut counts.index)?;
    line.check_point(&mut counts.point)?;
    line.check_preserving(&mut counts.line)?;
    check_polygon(case, exact, &mut counts.polygon)?;
    line.check_repeated(&mut counts.repeated)?;
    check_slot(&case.line, case.tolerance, &index, &mut counts.steps)
}

/// The line of a case, for the calls on it.
struct OneLine<'a> {
    points: &'a [Pair],
    at: Vec<Place>,
    tolerance: f64,
    exact: Tolerance,
}

impl OneLine<'_> {
    fn thinned<'b>(
        &'b self,
        call: &'b str,
        rule: Rule,
        run: &'b Run,
        tied: Vec<usize>,
        untied: Vec<usize>,
    ) -> Thinned<'b> {
        Thinned {
            call,
            at: &self.at,
            tolerance: self.exact,
            table: vec![self.points.len()],
            rule,
            run,
            tied: vec![tied],
            untied: vec![untied],
        }
    }

    fn check_index(&self, seen: &mut Seen) -> Result<Run, Difference> {
        let (points, tolerance) = (self.points, self.tolerance);
        let run = model::index_rule(&self.at, self.exact);
        let tied = tied::idx(points, tolerance);
        let untied = given::idx(points, tolerance);
        self.thinned("index", Rule::Plain, &run, tied, untied)
            .check(seen)?;
        Ok(run)
    }

    fn check_point(&self, seen: &mut Seen) -> Result<(), Difference> {
        let (points, tolerance) = (self.points, self.tolerance);
        let run = model::point_rule(&self.at, self.exact);
        let tied = tied::kept::points(points, tolerance);
        let untied = given::kept::points(points, tolerance);
        self.thinned("point", Rule::Plain, &run, tied, untied)
            .check(seen)?;
        let listed = tied::points(points, tolerance);
        same_list("point", points, &run.list(), &listed)
    }

    fn check_preserving(&self, seen: &mut Seen) -> Result<(), Difference> {
        let (points, tolerance) = (self.points, self.tolerance);
        let run = model::preserve_line(&self.at, self.exact);
        let tied = tied::kept::preserve_line(points, tolerance);
        let untied = given::kept::preserve_line(points, tolerance);
        self.thinned("line", Rule::Preserving(model::LINE), &run, tied, untied)
            .check(seen)?;
        let listed = tied::preserve_line(points, tolerance);
        same_list("line", points, &run.list(), &listed)
    }

    fn check_repeated(&self, with_repeats: &mut usize) -> Result<(), Difference> {
        let points = self.points;
        let consecutive = model::consecutive(&self.at);
        let anywhere = model::anywhere(&self.at);
        let listed = repeated::consecutive(points);
        same_list("consecutive", points, &consecutive, &listed)?;
        same_list("anywhere", points, &anywhere, &repeated::anywhere(points))?;
        if consecutive != repeated::kept::consecutive(points) {
            return Err("consecutive: other indices".to_string());
        }
        if anywhere != repeated::kept::anywhere(points) {
            return Err("anywhere: other indices".to_string());
        }
        *with_repeats += usize::from(anywhere.len() < points.len());
        Ok(())
    }
}

fn check_polygon(case: &Case, exact: Tolerance, seen: &mut Seen) -> Result<(), Difference> {
    let (rings, tolerance) = (&case.rings, case.tolerance);
    let all = rings.concat();
    let at = places(&all);
    let table = ring_table(rings);
    let run = model::preserve_polygon(&at, &table, exact);
    Thinned {
        call: "polygon",
        at: &at,
        tolerance: exact,
        table,
        rule: Rule::Preserving(model::RING),
        run: &run,
        tied: tied::kept::preserve_polygon(rings, tolerance),
        untied: given::kept::preserve_polygon(rings, tolerance),
    }
    .check(seen)?;
    let listed = tied::preserve_polygon(rings, tolerance);
    let lengths_agree = listed
        .iter()
        .map(Vec::len)
        .eq(run.kept.iter().map(Vec::len));
    if !lengths_agree {
        return Err(format!(
            "polygon: model keeps {:?}, listed {listed:?}",
            run.kept
        ));
    }
    same_list("polygon", &all, &run.list(), &listed.concat())
}

/// A slot stepped to the end gives the index rule's removals and leaves its list.
fn check_slot(
    points: &[Pair],
    tolerance: f64,
    index: &Run,
    steps: &mut usize,
) -> Result<(), Difference> {
    let (x, y): (Vec<f64>, Vec<f64>) = points.iter().copied().unzip();
    let refused = |reason: model::Reason| format!("slot: refused with {}", reason.number());
    let mut slots = Slots::default();
    slots
        .open(model::FULL, 7, &x, &y, tolerance)
        .map_err(refused)?;
    let mut removed = Vec::new();
    while let Step::Removed { index, .. } = slots.step(model::FULL, 7).map_err(refused)? {
        removed.push(index);
    }
    *steps += removed.len();
    let mut out = vec![0; points.len()];
    let count = slots.read(model::FULL, 7, &mut out).map_err(refused)?;
    let left: Vec<usize> = out[..count].iter().map(|&index| index as usize).collect();
    if removed == index.removed() && left == index.list() {
        Ok(())
    } else {
        Err(format!(
            "slot: removed {removed:?}, left {left:?}, the index rule {index:?}"
        ))
    }
}

fn compare(cases: usize, seed: u64) -> ExitCode {
    let mut random = Random::new(seed);
    let mut counts = Counts::default();
    for number in 0..cases {
        let case = case(&mut random);
        if let Err(difference) = check_case(&case, &mut counts) {
            println!("case {number}, seed {seed}: {difference}");
            println!("line {:?}", case.line);
            println!("rings {:?}", case.rings);
            println!(
                "tolerance {} (bits {:016x})",
                case.tolerance,
                case.tolerance.to_bits()
            );
            return ExitCode::from(1);
        }
    }
    println!("cases {cases}, seed {seed}: the tied text and the model agree on all six calls");
    counts.index.print("index");
    counts.point.print("point");
    counts.line.print("line");
    counts.polygon.print("polygon");
    println!("repeated  lines with a repeated point {}", counts.repeated);
    println!("slots     removals by steps {}", counts.steps);
    println!("every untied difference had a tie for the least area, and a choice in a tie that gives it where searched");
    ExitCode::SUCCESS
}
