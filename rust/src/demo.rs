//! `demo`: the sample track before and after, and the depth rows of the points kept.

use crate::input::{self, Input};
use crate::sketch::View;
use std::fmt::Write as _;

const TRACK: &str = include_str!("../../samples/launch.csv");
const ROWS: &str = include_str!("../../samples/launch-rows.csv");
/// Square centimetres.
const TOLERANCE: f64 = 20_000.0;
const COLUMNS: usize = 64;
/// Rows shown at the start and at the end of the list.
const SHOWN: usize = 4;

pub fn text() -> String {
    let input = input::parse(TRACK).expect("the sample is two numbers a line");
    let kept = pylonfrith::simplify_vw_idx(&input.x, &input.y, TOLERANCE)
        .expect("the sample is on the grid");
    let firsts =
        pylonfrith::remove_repeated_points(&input.x, &input.y).expect("the sample is on the grid");
    let all: Vec<u32> = (0..input.len() as u32).collect();
    let view = View::of(&input.x, &input.y, COLUMNS);
    let (count, left) = (input.len(), kept.len());

    let mut text = String::new();
    let mut say = |line: String| {
        text.push_str(&line);
        text.push('\n');
    };
    say(format!(
        "The track of a survey launch: {count} points, of which {} repeat the one before.\n",
        count - firsts.len()
    ));
    say(indented(&view.draw(&places(&input, &all))));
    say(format!(
        "Thinned at {TOLERANCE} square centimetres: {left} points kept, {} removed.\n",
        count - left
    ));
    say(indented(&view.draw(&places(&input, &kept))));
    say(format!(
        "No removed point is further than {:.2} m from the thinned line.",
        greatest_distance(&input, &kept) / 100.0
    ));
    say("The same indices pick the depth rows that stay (samples/launch-rows.csv):\n".to_string());
    text.push_str(&table(&input, &kept));
    text.push_str(&next());
    text
}

/// What to try next.
fn next() -> String {
    [
        "\nA picture for a page, and every removal in order:\n".to_string(),
        format!(
            "  ./pylonfrith thin --tolerance {TOLERANCE} --svg launch.svg samples/launch.csv\n"
        ),
        format!("  ./pylonfrith steps --tolerance {TOLERANCE} samples/launch.csv\n"),
    ]
    .concat()
}

fn places(input: &Input, list: &[u32]) -> Vec<(f64, f64)> {
    let place = |&index: &u32| (input.x[index as usize], input.y[index as usize]);
    list.iter().map(place).collect()
}

fn indented(drawing: &str) -> String {
    drawing
        .lines()
        .map(|line| format!("  {line}").trim_end().to_string() + "\n")
        .collect()
}

/// The row of each point: its time and its depth.
fn table(input: &Input, kept: &[u32]) -> String {
    let rows: Vec<&str> = ROWS.lines().filter(|row| !row.starts_with('#')).collect();
    let mut text = format!(
        "  {:>6} {:>9} {:>9} {:>8} {:>9}\n",
        "index", "x cm", "y cm", "time s", "depth cm"
    );
    for (at, &index) in kept.iter().enumerate() {
        if at == SHOWN && kept.len() > 2 * SHOWN {
            let _ = writeln!(text, "  {:>6}", "..");
        }
        if at < SHOWN || at + SHOWN >= kept.len() {
            let index = index as usize;
            let fields: Vec<&str> = rows[index].split(',').collect();
            let (x, y) = (input.x[index], input.y[index]);
            let _ = writeln!(
                text,
                "  {index:>6} {x:>9} {y:>9} {:>8} {:>9}",
                fields[1], fields[2]
            );
        }
    }
    text
}

/// The greatest distance of a removed point from the kept segment over it.
fn greatest_distance(input: &Input, kept: &[u32]) -> f64 {
    let place = |index: usize| (input.x[index], input.y[index]);
    let mut greatest = 0.0_f64;
    for pair in kept.windows(2) {
        let (first, last) = (pair[0] as usize, pair[1] as usize);
        for index in first + 1..last {
            greatest = greatest.max(distance(place(index), place(first), place(last)));
        }
    }
    greatest
}

/// From a place to a segment.
fn distance(place: (f64, f64), start: (f64, f64), end: (f64, f64)) -> f64 {
    let (along_x, along_y) = (end.0 - start.0, end.1 - start.1);
    let (from_x, from_y) = (place.0 - start.0, place.1 - start.1);
    let squared = along_x * along_x + along_y * along_y;
    let part = if squared == 0.0 {
        0.0
    } else {
        ((from_x * along_x + from_y * along_y) / squared).clamp(0.0, 1.0)
    };
    (from_x - part * along_x).hypot(from_y - part * along_y)
}

#[cfg(test)]
mod tests {
    use super::*;

    #[test]
    fn fits_a_terminal() {
        let text = text();
        assert!(text.is_ascii());
        assert!(text.lines().all(|line| line.len() <= 80), "{text}");
    }

    #[test]
    fn a_row_for_each_point() {
        let points = input::parse(TRACK).expect("read").len();
        let rows: Vec<&str> = ROWS.lines().filter(|row| !row.starts_with('#')).collect();
        assert_eq!(rows.len(), points);
        for (index, row) in rows.iter().enumerate() {
            assert!(row.starts_with(&format!("{index},")));
            assert_eq!(row.split(',').count(), 3);
        }
    }

    #[test]
    fn distances() {
        assert_eq!(distance((1.0, 2.0), (0.0, 0.0), (4.0, 0.0)), 2.0);
        assert_eq!(distance((-3.0, 4.0), (0.0, 0.0), (4.0, 0.0)), 5.0);
        assert_eq!(distance((3.0, 4.0), (0.0, 0.0), (0.0, 0.0)), 5.0);
    }
}
