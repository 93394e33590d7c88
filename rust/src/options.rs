//! The words of the command line.

use crate::Failure;
use std::ffi::OsString;
use std::path::PathBuf;

/// What is asked for.
#[derive(Debug, PartialEq)]
pub enum Command {
    Help,
    Demo,
    Thin {
        tolerance: f64,
        rule: Rule,
        svg: Option<PathBuf>,
        source: Source,
    },
    Repeats {
        anywhere: bool,
        source: Source,
    },
    Steps {
        tolerance: f64,
        source: Source,
    },
}

#[derive(Clone, Copy, Debug, PartialEq)]
pub enum Rule {
    Index,
    Points,
    Preserve,
    Polygon,
}

/// Where the points come from.
#[derive(Debug, PartialEq)]
pub enum Source {
    StandardInput,
    File(PathBuf),
}

/// The options and the file, as far as they were given.
#[derive(Default)]
struct Given {
    tolerance: Option<OsString>,
    rule: Option<OsString>,
    svg: Option<OsString>,
    anywhere: bool,
    file: Option<OsString>,
    help: bool,
}

/// Reads the words after the command's own name.
pub fn read(words: Vec<OsString>) -> Result<Command, Failure> {
    let mut words = words.into_iter();
    let first = match words.next() {
        Some(word) => word,
        None => return Err(unread("what is to be done? thin, repeats, steps or demo")),
    };
    let name = first.to_string_lossy().into_owned();
    let takes: &[&str] = match name.as_str() {
        "--help" | "-h" | "help" => return Ok(Command::Help),
        "thin" => &["--tolerance", "--rule", "--svg", "FILE"],
        "repeats" => &["--anywhere", "FILE"],
        "steps" => &["--tolerance", "FILE"],
        "demo" => &[],
        _ => return Err(unread(&format!("no such command: '{name}'"))),
    };
    let given = gather(words, &name, takes)?;
    if given.help {
        return Ok(Command::Help);
    }
    match name.as_str() {
        "thin" => Ok(Command::Thin {
            tolerance: tolerance(&name, given.tolerance)?,
            rule: rule(given.rule)?,
            svg: given.svg.map(PathBuf::from),
            source: source(given.file),
        }),
        "repeats" => Ok(Command::Repeats {
            anywhere: given.anywhere,
            source: source(given.file),
        }),
        "steps" => Ok(Command::Steps {
            tolerance: tolerance(&name, given.tolerance)?,
            source: source(given.file),
        }),
        _ => Ok(Command::Demo),
    }
}

/// Sorts the words of a command that takes these options.
fn gather(
    mut words: impl Iterator<Item = OsString>,
    command: &str,
    takes: &[&str],
) -> Result<Given, Failure> {
    let mut given = Given::default();
    let mut only_files = false;
    while let Some(word) = words.next() {
        let text = word.to_string_lossy().into_owned();
        if only_files || text == "-" || !text.starts_with('-') {
            place(&mut given.file, word, command, takes)?;
        } else if text == "--" {
            only_files = true;
        } else if text == "--help" || text == "-h" {
            given.help = true;
        } else {
            let (name, joined) = match text.split_once('=') {
                Some((name, value)) => (name, Some(OsString::from(value))),
                None => (text.as_str(), None),
            };
            if !takes.contains(&name) {
                return Err(unread(&format!("'{command}' has no option '{name}'")));
            }
            set(&mut given, name, joined, &mut words)?;
        }
    }
    Ok(given)
}

/// Takes an option with its value, which is joined to it or is the next word.
fn set(
    given: &mut Given,
    name: &str,
    joined: Option<OsString>,
    words: &mut impl Iterator<Item = OsString>,
) -> Result<(), Failure> {
    if name == "--anywhere" {
        if joined.is_some() {
            return Err(unread("'--anywhere' takes no value"));
        }
        given.anywhere = true;
        return Ok(());
    }
    let value = joined
        .or_else(|| words.next())
        .ok_or_else(|| unread(&format!("'{name}' needs a value after it")))?;
    let option = match name {
        "--tolerance" => &mut given.tolerance,
        "--rule" => &mut given.rule,
        _ => &mut given.svg,
    };
    match option.replace(value) {
        None => Ok(()),
        Some(_) => Err(unread(&format!("'{name}' is given twice"))),
    }
}

/// Takes a word as the file.
fn place(
    file: &mut Option<OsString>,
    word: OsString,
    command: &str,
    takes: &[&str],
) -> Result<(), Failure> {
    let text = word.to_string_lossy().into_owned();
    if !takes.contains(&"FILE") {
        return Err(unread(&format!("'{command}' takes no '{text}'")));
    }
    match file.replace(word) {
        None => Ok(()),
        Some(_) => Err(unread(&format!("'{text}' is one file too many"))),
    }
}

fn tolerance(command: &str, given: Option<OsString>) -> Result<f64, Failure> {
    let given = given.ok_or_else(|| unread(&format!("'{command}' needs --tolerance AREA")))?;
    let text = given.to_string_lossy();
    text.parse()
        .map_err(|_| unread(&format!("--tolerance '{text}' is not a number")))
}

fn rule(given: Option<OsString>) -> Result<Rule, Failure> {
    let given = match given {
        Some(word) => word.to_string_lossy().into_owned(),
        None => return Ok(Rule::Index),
    };
    match given.as_str() {
        "index" => Ok(Rule::Index),
        "points" => Ok(Rule::Points),
        "preserve" => Ok(Rule::Preserve),
        "polygon" => Ok(Rule::Polygon),
        _ => Err(unread(&format!(
            "--rule '{given}' is none of index, points, preserve, polygon"
        ))),
    }
}

fn source(file: Option<OsString>) -> Source {
    match file {
        Some(name) if name != "-" => Source::File(PathBuf::from(name)),
        _ => Source::StandardInput,
    }
}

fn unread(what: &str) -> Failure {
    Failure::NotRead(what.to_string())
}

#[cfg(test)]
mod tests {
    use super::*;

    fn read_words(words: &str) -> Result<Command, Failure> {
        read(words.split_whitespace().map(OsString::from).collect())
    }

    #[test]
    fn thin_with_everything() {
        let expected = Command::Thin {
            tolerance: -1.5,
            rule: Rule::Polygon,
            svg: Some(PathBuf::from("a.svg")),
            source: Source::File(PathBuf::from("b.csv")),
        };
        let words = "thin --tolerance -1.5 b.csv --svg=a.svg --rule polygon";
        assert_eq!(read_words(words), Ok(expected));
    }

    #[test]
    fn defaults() {
        let expected = Command::Thin {
            tolerance: 1000.0,
            rule: Rule::Index,
            svg: None,
            source: Source::StandardInput,
        };
        assert_eq!(read_words("thin --tolerance 1e3"), Ok(expected));
        let expected = Command::Repeats {
            anywhere: false,
            source: Source::StandardInput,
        };
        assert_eq!(read_words("repeats -"), Ok(expected));
    }

    #[test]
    fn a_file_that_looks_like_an_option() {
        let expected = Command::Repeats {
            anywhere: true,
            source: Source::File(PathBuf::from("--anywhere")),
        };
        assert_eq!(read_words("repeats --anywhere -- --anywhere"), Ok(expected));
    }

    #[test]
    fn help_from_everywhere() {
        for words in ["--help", "-h", "help", "thin --help", "demo -h"] {
            assert_eq!(read_words(words), Ok(Command::Help));
        }
    }

    #[test]
    fn words_that_are_not_read() {
        for words in [
            "",
            "thinn",
            "thin",
            "thin --tolerance",
            "thin --tolerance ten a.csv",
            "thin --tolerance 1 --tolerance 2 a.csv",
            "thin --tolerance 1 --rule lines a.csv",
            "thin --tolerance 1 a.csv b.csv",
            "thin --tolerance 1 --anywhere a.csv",
            "steps --tolerance 1 --svg a.svg a.csv",
            "repeats --anywhere=yes",
            "repeats --tolerance 1",
            "demo a.csv",
            "-x",
        ] {
            match read_words(words) {
                Err(Failure::NotRead(_)) => {}
                other => panic!("{words}: {other:?}"),
            }
        }
    }
}
