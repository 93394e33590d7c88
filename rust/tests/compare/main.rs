//! The native archive beside the given text of crate geo (with the tie order) and the model of document 01, on random grids.
//!
//!     cargo test --release --test compare -- [--cases N] [--seed S]
//!
//! Each case makes all six whole calls, accepted and refused, and some calls on the eight slots of one work area; some cases
//! take a work area changed by other hands, and some a long line. All lent memory has guard places and is compared before and after.
//! One number, the seed, decides everything.

mod changed;
mod long;
mod memory;
mod slots;
mod told;
mod whole;

use oracle::cases;
use oracle::random::Random;
use std::process::ExitCode;
use std::time::Instant;

/// What differs, in words.
type Difference = String;

const USAGE: &str = "usage: cargo test --release --test compare -- [--cases N] [--seed S]";
const CASES: usize = if cfg!(debug_assertions) {
    2_000
} else {
    100_000
};
/// One case in so many takes a changed work area.
const CHANGED: usize = 100;
/// One case in so many takes a long line.
const LONG: usize = 2_000;
/// From this many cases on, every reason must have been seen in every call that has it.
const ENOUGH: usize = 20_000;

struct Options {
    cases: usize,
    seed: u64,
}

fn main() -> ExitCode {
    let words: Vec<String> = std::env::args().skip(1).collect();
    let options = match read_options(&words) {
        Some(options) => options,
        None => {
            eprintln!("{USAGE}");
            return ExitCode::from(2);
        }
    };
    println!("compare: {} cases, seed {}", options.cases, options.seed);
    match compare(&options) {
        Ok(()) => ExitCode::SUCCESS,
        Err(difference) => {
            println!("{difference}");
            ExitCode::FAILURE
        }
    }
}

fn read_options(words: &[String]) -> Option<Options> {
    let mut options = Options {
        cases: CASES,
        seed: 1,
    };
    for pair in words.chunks(2) {
        match pair {
            [name, value] if name == "--cases" => options.cases = value.parse().ok()?,
            [name, value] if name == "--seed" => options.seed = value.parse().ok()?,
            _ => return None,
        }
    }
    Some(options)
}

fn compare(options: &Options) -> Result<(), Difference> {
    let begun = Instant::now();
    let mut random = Random::new(options.seed);
    let mut seen = told::Seen::default();
    let mut slots = slots::Slots::new(&mut random);
    let mut changed = changed::Changed::new(&mut random);
    for number in 0..options.cases {
        let case = cases::case(&mut random);
        let mut check = || -> Result<(), Difference> {
            whole::check(&case, &mut random, &mut seen)?;
            slots.check(&case, &mut random, &mut seen)?;
            if number % CHANGED == 0 {
                changed.check(&case, &mut random)?;
            }
            if number % LONG == 0 {
                long::check(&mut random)?;
            }
            Ok(())
        };
        check().map_err(|difference| {
            format!(
                "case {number}, seed {}: {difference}\nline {:?}\nrings {:?}\ntolerance {:?}",
                options.seed, case.line, case.rings, case.tolerance
            )
        })?;
    }
    seen.print();
    if options.cases >= ENOUGH {
        seen.is_every_reason_seen()?;
    }
    println!("compare: no difference, {:.1?}", begun.elapsed());
    Ok(())
}
