//! Points from text: a line 'x,y' or 'x y' for each.

use crate::options::Source;
use crate::Failure;
use std::fs;
use std::io::{self, Read};

/// The points of a text, and where each was read.
#[derive(Debug, Default, PartialEq)]
pub struct Input {
    pub x: Vec<f64>,
    pub y: Vec<f64>,
    /// The line of the text of each point, the first line being 1.
    pub lines: Vec<usize>,
    /// The ring table: an empty line ends a ring. There is always a shell, if only an empty one.
    pub rings: Vec<u32>,
}

impl Input {
    pub fn len(&self) -> usize {
        self.x.len()
    }

    /// The points of each ring.
    pub fn ring_ranges(&self) -> Vec<std::ops::Range<usize>> {
        let mut start = 0;
        let range = |&end: &u32| {
            let ring = start..end as usize;
            start = end as usize;
            ring
        };
        self.rings.iter().map(range).collect()
    }
}

/// What the source is called in a message.
pub fn name_of(source: &Source) -> String {
    match source {
        Source::StandardInput => "standard input".to_string(),
        Source::File(path) => path.display().to_string(),
    }
}

/// What the source is called over a picture.
pub fn short_name_of(source: &Source) -> String {
    match source {
        Source::File(path) => match path.file_name() {
            Some(name) => legible(&name.to_string_lossy()),
            None => legible(&name_of(source)),
        },
        Source::StandardInput => name_of(source),
    }
}

/// A text on one line, and one that XML can have: a control character or a code that is no character by its number.
pub fn legible(text: &str) -> String {
    let mut shown = String::new();
    for c in text.chars() {
        if c.is_control() || matches!(c, '\u{fffe}' | '\u{ffff}') {
            shown.extend(c.escape_default());
        } else {
            shown.push(c);
        }
    }
    shown
}

/// Reads the whole source.
pub fn read(source: &Source) -> Result<Input, Failure> {
    let unread = |what: String| Failure::NotRead(format!("{}{what}", name_of(source)));
    let mut bytes = Vec::new();
    let done = match source {
        Source::StandardInput => io::stdin().lock().read_to_end(&mut bytes).map(|_| ()),
        Source::File(path) => fs::read(path).map(|read| bytes = read),
    };
    done.map_err(|error| unread(format!(": {}", in_words(&error))))?;
    let text = String::from_utf8_lossy(&bytes);
    parse(&text).map_err(|(line, what)| unread(format!(", line {line}: {what}")))
}

/// An error of the system, without its number.
pub fn in_words(error: &io::Error) -> String {
    match error.kind() {
        io::ErrorKind::NotFound => "no such file".to_string(),
        io::ErrorKind::PermissionDenied => "permission denied".to_string(),
        _ => {
            let text = error.to_string();
            let words = text.split(" (os error ").next().unwrap_or(&text);
            words.to_string()
        }
    }
}

/// The points of a text, or the line at fault and what is wrong there.
pub fn parse(text: &str) -> Result<Input, (usize, String)> {
    let mut input = Input::default();
    let text = text.strip_prefix('\u{feff}').unwrap_or(text);
    for (at, line) in text.lines().enumerate() {
        let line = line.trim();
        if line.is_empty() {
            end_ring(&mut input);
            continue;
        }
        let numbers = line.split('#').next().unwrap_or("").trim();
        if numbers.is_empty() {
            continue;
        }
        let (x, y) = point(numbers).map_err(|what| (at + 1, what))?;
        input.x.push(x);
        input.y.push(y);
        input.lines.push(at + 1);
    }
    end_ring(&mut input);
    if input.rings.is_empty() {
        input.rings.push(0);
    }
    Ok(input)
}

/// Ends the ring that has been begun, if one has.
fn end_ring(input: &mut Input) {
    let end = u32::try_from(input.len()).unwrap_or(u32::MAX);
    if input.rings.last().copied().unwrap_or(0) < end {
        input.rings.push(end);
    }
}

fn point(text: &str) -> Result<(f64, f64), String> {
    let parts: Vec<&str> = if text.contains(',') {
        text.split(',').map(str::trim).collect()
    } else {
        text.split_whitespace().collect()
    };
    match parts[..] {
        [x, y] => Ok((number(x)?, number(y)?)),
        [_] => Err(format!(
            "'{}' is not two numbers, 'x,y' or 'x y'",
            excerpt(text)
        )),
        _ => Err(format!(
            "'{}' has {} parts where two numbers are wanted, 'x,y' or 'x y'",
            excerpt(text),
            parts.len()
        )),
    }
}

fn number(text: &str) -> Result<f64, String> {
    text.parse()
        .map_err(|_| format!("'{}' is not a number", excerpt(text)))
}

/// The start of a text, on one line.
fn excerpt(text: &str) -> String {
    const MOST: usize = 40;
    let shown: String = text
        .chars()
        .take(MOST)
        .map(|c| if c.is_control() { '?' } else { c })
        .collect();
    if text.chars().count() > MOST {
        shown + ".."
    } else {
        shown
    }
}

#[cfg(test)]
mod tests {
    use super::*;

    #[test]
    fn commas_and_spaces() {
        let input = parse("1,2\n 3 , 4 \n5 6\n7\t8\n").expect("read");
        assert_eq!(input.x, [1.0, 3.0, 5.0, 7.0]);
        assert_eq!(input.y, [2.0, 4.0, 6.0, 8.0]);
        assert_eq!(input.lines, [1, 2, 3, 4]);
        assert_eq!(input.rings, [4]);
    }

    #[test]
    fn line_ends() {
        let lf = parse("1,2\n3,4\n").expect("read");
        assert_eq!(parse("1,2\r\n3,4\r\n"), Ok(lf));
        assert_eq!(parse("1,2\n3,4"), parse("1,2\r\n3,4"));
    }

    #[test]
    fn comments() {
        let input = parse("# a track\n1,2 # the berth\n  # on\n3,4\n").expect("read");
        assert_eq!(input.x, [1.0, 3.0]);
        assert_eq!(input.lines, [2, 4]);
        assert_eq!(input.rings, [2]);
    }

    #[test]
    fn empty_lines_end_rings() {
        let input = parse("\n\n1,2\n1,2\n\n\n3,4\n\n").expect("read");
        assert_eq!(input.rings, [2, 3]);
        assert_eq!(input.ring_ranges(), [0..2, 2..3]);
        assert_eq!(parse("").expect("read").rings, [0]);
    }

    #[test]
    fn every_f64_is_read() {
        let input = parse("1e3,0.5\nnan -inf\n+7,-0\n").expect("read");
        assert_eq!(input.x[0], 1000.0);
        assert_eq!(input.y[0], 0.5);
        assert!(input.x[1].is_nan());
        assert_eq!(input.y[1], f64::NEG_INFINITY);
        assert_eq!(input.x[2], 7.0);
    }

    #[test]
    fn lines_that_are_not_two_numbers() {
        for (text, line, what) in [
            ("1,2\nabc,3\n", 2, "'abc' is not a number"),
            ("7\n", 1, "'7' is not two numbers, 'x,y' or 'x y'"),
            (
                "1,2,3",
                1,
                "'1,2,3' has 3 parts where two numbers are wanted, 'x,y' or 'x y'",
            ),
            ("\n\n1,\n", 3, "'' is not a number"),
            ("1;2", 1, "'1;2' is not two numbers, 'x,y' or 'x y'"),
            ("0x10,2", 1, "'0x10' is not a number"),
        ] {
            assert_eq!(parse(text), Err((line, what.to_string())));
        }
    }

    #[test]
    fn a_long_line_is_cut() {
        let (line, what) = parse(&"x".repeat(1_000)).expect_err("not read");
        assert_eq!(line, 1);
        assert!(what.len() < 100);
    }
}
