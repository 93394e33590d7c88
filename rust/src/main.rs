//! The command `pylonfrith`. `pylonfrith --help` tells all.

#![deny(unsafe_code)]

mod demo;
mod input;
mod options;
mod picture;
mod sketch;

use input::Input;
use options::{Command, Rule, Source};
use pylonfrith::sizes::{POINTS, RINGS};
use pylonfrith::{Kept, PointIndex, Refusal, Slot, Step, WorkArea};
use std::fmt::Write as _;
use std::io::{self, Write as _};
use std::path::Path;
use std::process::ExitCode;

/// Why there is no answer, in one line.
#[derive(Debug, PartialEq)]
pub enum Failure {
    /// Status 1.
    Refused(String),
    /// Status 2; also for a file that could not be written.
    NotRead(String),
}

/// What is written to standard output, and a word to the user beside it.
struct Answer {
    text: String,
    note: Option<String>,
}

fn main() -> ExitCode {
    let answer = options::read(std::env::args_os().skip(1).collect())
        .and_then(answer)
        .and_then(|answer| {
            print(&answer.text)?;
            Ok(answer.note)
        });
    match answer {
        Ok(note) => {
            if let Some(note) = note {
                tell(&note);
            }
            ExitCode::SUCCESS
        }
        Err(Failure::Refused(why)) => {
            tell(&why);
            ExitCode::from(1)
        }
        Err(Failure::NotRead(why)) => {
            tell(&format!("{why} (help: pylonfrith --help)"));
            ExitCode::from(2)
        }
    }
}

/// One line on standard error, whatever names and words are in it.
fn tell(what: &str) {
    eprintln!("pylonfrith: {}", input::legible(what));
}

/// A reader that has seen enough, as `head` has, is no failure.
fn print(text: &str) -> Result<(), Failure> {
    let mut out = io::stdout().lock();
    match out.write_all(text.as_bytes()).and_then(|()| out.flush()) {
        Err(error) if error.kind() != io::ErrorKind::BrokenPipe => Err(Failure::NotRead(format!(
            "standard output: {}",
            input::in_words(&error)
        ))),
        _ => Ok(()),
    }
}

fn answer(command: Command) -> Result<Answer, Failure> {
    match command {
        Command::Help => Ok(plain(include_str!("help.txt").to_string())),
        Command::Demo => Ok(plain(demo::text())),
        Command::Thin {
            tolerance,
            rule,
            svg,
            source,
        } => answer_thin(tolerance, rule, svg.as_deref(), &source),
        Command::Repeats { anywhere, source } => answer_repeats(anywhere, &source),
        Command::Steps { tolerance, source } => answer_steps(tolerance, &source),
    }
}

fn answer_thin(
    tolerance: f64,
    rule: Rule,
    svg: Option<&Path>,
    source: &Source,
) -> Result<Answer, Failure> {
    if let Some(path) = svg {
        spare_input(path, source)?;
    }
    let input = input::read(source)?;
    let kept = thin(&input, tolerance, rule).map_err(|refusal| refused(refusal, &input, source))?;
    if let Some(path) = svg {
        let name = input::short_name_of(source);
        let title = format!("{name}, tolerance {} cm\u{b2}", shown(tolerance));
        write_picture(path, &picture::page(&input, &kept, rule, &title))?;
    }
    Ok(with_note(rings_of(&kept), &input, source))
}

fn answer_repeats(anywhere: bool, source: &Source) -> Result<Answer, Failure> {
    let input = input::read(source)?;
    let kept = if anywhere {
        pylonfrith::remove_repeated_points_anywhere(&input.x, &input.y)
    } else {
        pylonfrith::remove_repeated_points(&input.x, &input.y)
    };
    let kept = kept.map_err(|refusal| refused(refusal, &input, source))?;
    Ok(with_note(list_of(&kept), &input, source))
}

fn answer_steps(tolerance: f64, source: &Source) -> Result<Answer, Failure> {
    let input = input::read(source)?;
    let text = steps(&input, tolerance).map_err(|refusal| refused(refusal, &input, source))?;
    Ok(with_note(text, &input, source))
}

fn plain(text: String) -> Answer {
    Answer { text, note: None }
}

fn with_note(text: String, input: &Input, source: &Source) -> Answer {
    let none = input.len() == 0;
    Answer {
        text,
        note: none.then(|| format!("{}: no points, so none are kept", input::name_of(source))),
    }
}

/// The kept points; a line is one ring.
fn thin(input: &Input, tolerance: f64, rule: Rule) -> Result<Kept, Refusal> {
    let (x, y) = (&input.x, &input.y);
    let points = match rule {
        Rule::Index => pylonfrith::simplify_vw_idx(x, y, tolerance)?,
        Rule::Points => pylonfrith::simplify_vw(x, y, tolerance)?,
        Rule::Preserve => pylonfrith::simplify_vw_preserve(x, y, tolerance)?,
        Rule::Polygon => {
            return pylonfrith::simplify_vw_preserve_polygon(x, y, tolerance, &input.rings)
        }
    };
    let rings = vec![points.len() as u32];
    Ok(Kept { points, rings })
}

/// Each removal, 'index,area', in a slot.
fn steps(input: &Input, tolerance: f64) -> Result<String, Refusal> {
    let mut work = WorkArea::new();
    let slot = Slot(0);
    work.open(slot, &input.x, &input.y, tolerance)?;
    let mut text = String::new();
    while let Step::Removed { index, area } = work.step(slot)? {
        let _ = writeln!(text, "{},{area}", index.get());
    }
    Ok(text)
}

/// One index a line.
fn list_of(kept: &[u32]) -> String {
    kept.iter().map(|index| format!("{index}\n")).collect()
}

/// One index a line, and an empty line between two rings.
fn rings_of(kept: &Kept) -> String {
    let mut start = 0;
    let lists = kept.rings.iter().map(|&end| {
        let list = list_of(&kept.points[start..end as usize]);
        start = end as usize;
        list
    });
    lists.collect::<Vec<_>>().join("\n")
}

/// A picture in the input's own place would destroy the input.
fn spare_input(picture: &Path, source: &Source) -> Result<(), Failure> {
    let file = match source {
        Source::File(file) => file,
        Source::StandardInput => return Ok(()),
    };
    let whole = |path: &Path| path.canonicalize().unwrap_or_else(|_| path.to_path_buf());
    if whole(picture) != whole(file) {
        return Ok(());
    }
    Err(Failure::NotRead(format!(
        "--svg '{}' is the input file, which it would overwrite",
        picture.display()
    )))
}

fn write_picture(path: &Path, picture: &str) -> Result<(), Failure> {
    std::fs::write(path, picture).map_err(|error| {
        Failure::NotRead(format!("{}: {}", path.display(), input::in_words(&error)))
    })
}

/// A refusal with the line of the input at fault, and what to do.
fn refused(refusal: Refusal, input: &Input, source: &Source) -> Failure {
    let (name, number) = (input::name_of(source), refusal.number());
    Failure::Refused(match fault(refusal, input) {
        Some((line, what)) => format!("{name}, line {line}: refused, reason {number}: {what}"),
        None if refusal == Refusal::ToleranceNotFinite => {
            "--tolerance: refused, reason 4: it is NaN or infinite; give an area in square centimetres".to_string()
        }
        None => format!("{name}: refused, {refusal}"),
    })
}

/// The line at fault, where a line is, and what is wrong there.
fn fault(refusal: Refusal, input: &Input) -> Option<(usize, String)> {
    let line = |at: usize| input.lines.get(at).copied().unwrap_or(0);
    let (at, what) = match refusal {
        Refusal::TooManyPoints => {
            let count = input.len();
            (
                POINTS,
                format!(
                    "this is point 4,097 of {count}; a line has at most 4,096, so give it in parts"
                ),
            )
        }
        Refusal::OffGrid(PointIndex(point)) => {
            let at = point as usize;
            let (x, y) = (shown(input.x[at]), shown(input.y[at]));
            (at, format!("{x},{y} is off the grid; give whole centimetres from -16,777,216 to 16,777,216"))
        }
        Refusal::RingTable => {
            let count = input.rings.len();
            let at = input.ring_ranges().get(RINGS)?.start;
            (
                at,
                format!("ring 65 of {count} starts here; a polygon has at most 64"),
            )
        }
        Refusal::RingNotClosed => {
            let (first, last) = open_ring(input)?;
            let start = line(first);
            (last, format!("the ring that starts on line {start} ends here on another point; end it on its first one"))
        }
        _ => return None,
    };
    Some((line(at), what))
}

/// A number in few characters: 3, 0.5, 1e308.
fn shown(number: f64) -> String {
    let text = format!("{number:?}");
    text.strip_suffix(".0").unwrap_or(&text).to_string()
}

/// The first and the last point of the first ring that is not closed.
fn open_ring(input: &Input) -> Option<(usize, usize)> {
    let place = |at: usize| (input.x[at], input.y[at]);
    let mut rings = input.ring_ranges().into_iter();
    rings
        .find(|ring| !ring.is_empty() && place(ring.start) != place(ring.end - 1))
        .map(|ring| (ring.start, ring.end - 1))
}
