//! The command as a user calls it: answers, refusals, statuses, and one clear line for each wrong call.

use std::fs;
use std::io::Write;
use std::path::PathBuf;
use std::process::{Command, Output, Stdio};

const L: &str = "5,2\n3,8\n6,20\n7,25\n10,10\n";

/// Runs the command with these words, and this text as standard input.
fn run(words: &[&str], input: &str) -> Output {
    let mut child = Command::new(env!("CARGO_BIN_EXE_pylonfrith"))
        .args(words)
        .stdin(Stdio::piped())
        .stdout(Stdio::piped())
        .stderr(Stdio::piped())
        .spawn()
        .expect("the command starts");
    let mut stdin = child.stdin.take().expect("piped");
    // A command that reads no input has ended before this is written.
    let _ = stdin.write_all(input.as_bytes());
    drop(stdin);
    child.wait_with_output().expect("the command ends")
}

fn text(bytes: &[u8]) -> String {
    String::from_utf8(bytes.to_vec()).expect("text")
}

/// Answered: this on standard output, nothing on standard error.
fn answers(words: &[&str], input: &str, expected: &str) {
    let output = run(words, input);
    assert_eq!(text(&output.stdout), expected, "{words:?}");
    assert_eq!(text(&output.stderr), "", "{words:?}");
    assert_eq!(output.status.code(), Some(0), "{words:?}");
}

/// Not answered: one line on standard error that has these parts, nothing on standard output.
fn fails(words: &[&str], input: &str, status: i32, parts: &[&str]) {
    let output = run(words, input);
    let line = text(&output.stderr);
    assert_eq!(output.status.code(), Some(status), "{words:?}: {line}");
    assert_eq!(text(&output.stdout), "", "{words:?}");
    assert_eq!(line.matches('\n').count(), 1, "{words:?}: {line}");
    assert!(line.starts_with("pylonfrith: ") && line.ends_with('\n'));
    for part in parts {
        assert!(line.contains(part), "{words:?}: '{part}' is not in: {line}");
    }
    assert_eq!(line.contains("(help: pylonfrith --help)"), status == 2);
}

/// A file of this test's own.
fn file(name: &str, contents: &str) -> String {
    let path = folder().join(name);
    fs::write(&path, contents).expect("written");
    path.to_str().expect("text").to_string()
}

fn folder() -> PathBuf {
    let folder = PathBuf::from(env!("CARGO_TARGET_TMPDIR")).join("command");
    fs::create_dir_all(&folder).expect("made");
    folder
}

fn sample(name: &str) -> String {
    format!("{}/../samples/{name}", env!("CARGO_MANIFEST_DIR"))
}

// ---- answers ----

#[test]
fn thin_by_each_rule() {
    let thin = |rule| ["thin", "--tolerance", "30", "--rule", rule];
    answers(&["thin", "--tolerance", "30"], L, "0\n3\n4\n");
    answers(&["thin", "--tolerance=28.5", "-"], L, "0\n1\n3\n4\n");
    for rule in ["index", "points", "preserve"] {
        answers(&thin(rule), L, "0\n3\n4\n");
    }
    let flat = "0,0\n1,1\n2,2\n";
    answers(&["thin", "--tolerance", "0"], flat, "0\n2\n");
    answers(
        &["thin", "--tolerance", "0", "--rule", "points"],
        flat,
        "0\n1\n2\n",
    );
    answers(&["thin", "--tolerance", "-1"], flat, "0\n1\n2\n");
}

#[test]
fn thin_a_polygon() {
    let square = "0,0\n4,0\n4,4\n0,4\n0,0\n";
    let words = ["thin", "--rule", "polygon", "--tolerance", "100"];
    answers(&words, square, "0\n2\n3\n4\n");
    let two = format!("{square}\n100 0\n104 0\n104 4\n100 4\n100 0");
    answers(&words, &two, "0\n2\n3\n4\n\n5\n7\n8\n9\n");
}

#[test]
fn repeats() {
    let input = "0,0\n-0,0\n1,0\n0,0\n";
    answers(&["repeats"], input, "0\n2\n3\n");
    answers(&["repeats", "--anywhere"], input, "0\n2\n");
}

#[test]
fn steps() {
    answers(&["steps", "--tolerance", "30"], L, "2,1.5\n1,29\n");
    answers(&["steps", "--tolerance", "-1"], L, "");
}

#[test]
fn line_ends_comments_and_spaces() {
    let words = ["thin", "--tolerance", "30"];
    let expected = "0\n3\n4\n";
    answers(&words, &L.replace('\n', "\r\n"), expected);
    answers(&words, L.trim_end(), expected);
    answers(&words, L.replace('\n', "\r\n").trim_end(), expected);
    answers(&words, &L.replace(',', " "), expected);
    let remarks = L.replace('\n', "   # a remark\n");
    answers(&words, &format!("# L\n\n{remarks}\n"), expected);
}

#[test]
fn numbers_as_an_f64_is_written() {
    answers(
        &["thin", "--tolerance", "3e1"],
        "5.0,2\n3,8e0\n+6,20\n7,25\n1e1,10\n",
        "0\n3\n4\n",
    );
    answers(&["repeats"], "1e3,0\n1000,0\n", "0\n");
}

#[test]
fn from_a_file() {
    let path = file("l.csv", L);
    answers(&["thin", "--tolerance", "30", &path], "", "0\n3\n4\n");
    answers(&["thin", "--tolerance", "30", "--", &path], "", "0\n3\n4\n");
}

#[test]
fn steps_remove_what_thin_does_not_keep() {
    let path = sample("launch.csv");
    let kept = text(&run(&["thin", "--tolerance", "20000", &path], "").stdout);
    let steps = text(&run(&["steps", "--tolerance", "20000", &path], "").stdout);
    let mut all: Vec<usize> = kept
        .lines()
        .chain(steps.lines().filter_map(|line| line.split(',').next()))
        .map(|index| index.parse().expect("an index"))
        .collect();
    all.sort_unstable();
    let count = fs::read_to_string(&path)
        .expect("the sample")
        .lines()
        .filter(|line| !line.starts_with('#'))
        .count();
    assert!(all.into_iter().eq(0..count));
}

#[test]
fn a_picture() {
    let svg = folder().join("harbour.svg");
    let words = [
        "thin",
        "--rule",
        "polygon",
        "--tolerance",
        "100000",
        "--svg",
    ];
    let mut words = words.to_vec();
    let (svg_name, path) = (svg.to_str().expect("text"), sample("harbour.csv"));
    words.extend([svg_name, path.as_str()]);
    let output = run(&words, "");
    assert_eq!(output.status.code(), Some(0), "{}", text(&output.stderr));
    assert!(text(&output.stdout).contains("\n\n"));
    let picture = fs::read_to_string(svg).expect("a picture");
    assert!(picture.starts_with("<svg ") && picture.contains("harbour.csv, tolerance 100000"));
}

#[test]
fn a_picture_that_cannot_be_written() {
    let nowhere = folder().join("no-such-folder").join("a.svg");
    let nowhere = nowhere.to_str().expect("text");
    fails(
        &["thin", "--tolerance", "30", "--svg", nowhere],
        L,
        2,
        &[nowhere],
    );
}

/// The input file is spared, by whatever name the picture has it.
#[test]
fn a_picture_over_the_input() {
    let path = file("survey.csv", L);
    let here = folder().join(".").join("survey.csv");
    let link = folder().join("survey.svg");
    let _ = fs::remove_file(&link);
    std::os::unix::fs::symlink(&path, &link).expect("a link");
    for svg in [
        &path,
        here.to_str().expect("text"),
        link.to_str().expect("text"),
    ] {
        let words = ["thin", "--tolerance", "30", "--svg", svg, &path];
        fails(&words, "", 2, &["--svg", "is the input file"]);
        assert_eq!(fs::read_to_string(&path).expect("there"), L);
    }
}

/// A name with control characters is shown with their numbers: on one line, and in a picture that can be parsed.
#[test]
fn names_with_control_characters() {
    let path = file("two\nlines\u{1}\u{ffff}.csv", "0.5,0\n");
    let parts = ["two\\nlines\\u{1}\\u{ffff}.csv, line 1"];
    fails(&["repeats", &path], "", 1, &parts);
    fails(
        &["repeats", "no\nsuch"],
        "",
        2,
        &["no\\nsuch: no such file"],
    );
    fails(&["th\nin"], "", 2, &["'th\\nin'"]);

    let path = file("two\nlines\u{1}\u{ffff}.csv", L);
    let svg = folder().join("named.svg");
    let words = [
        "thin",
        "--tolerance",
        "30",
        "--svg",
        svg.to_str().expect("text"),
        &path,
    ];
    answers(&words, "", "0\n3\n4\n");
    let picture = fs::read_to_string(svg).expect("a picture");
    assert!(picture.contains("<title>two\\nlines\\u{1}\\u{ffff}.csv, tolerance 30 "));
    assert!(!picture.contains(['\u{1}', '\u{ffff}']));
}

#[test]
fn demo_and_help() {
    let demo = run(&["demo"], "");
    assert_eq!(demo.status.code(), Some(0));
    assert!(text(&demo.stdout).contains("points kept"));
    assert!(text(&demo.stderr).is_empty());

    let help = text(&run(&["--help"], "").stdout);
    let words = "thin repeats steps demo --tolerance --rule --svg --anywhere --help index points preserve polygon status";
    for word in words.split(' ') {
        assert!(help.contains(word), "--help does not tell of {word}");
    }
    assert!(help.lines().all(|line| line.len() <= 100));
    for words in [
        &["-h"][..],
        &["help"],
        &["thin", "--help"],
        &["steps", "-h"],
    ] {
        answers(words, "", &help);
    }
}

/// The script in the top folder tells the same, and makes nothing for it: no archive is there that it could use.
#[test]
fn help_from_the_script() {
    let script = format!("{}/../pylonfrith", env!("CARGO_MANIFEST_DIR"));
    for word in ["--help", "-h", "help"] {
        let output = Command::new(&script)
            .arg(word)
            .env("PYLONFRITH_ARCHIVE", "/no/such/archive")
            .output()
            .expect("the script starts");
        assert_eq!(output.status.code(), Some(0), "{word}");
        assert_eq!(text(&output.stdout), text(&run(&[word], "").stdout));
        assert_eq!(text(&output.stderr), "");
    }
}

// ---- refused: status 1 ----

#[test]
fn off_the_grid() {
    let words = ["thin", "--tolerance", "30"];
    for number in [
        "0.5",
        "99999999",
        "16777217",
        "-16777217",
        "nan",
        "inf",
        "1e300",
    ] {
        let input = format!("# x,y\n1,2\n3,{number}\n0.5,0.5\n");
        let parts = ["standard input, line 3", "reason 3", "off the grid"];
        fails(&words, &input, 1, &parts);
        fails(&["repeats"], &input, 1, &parts);
        fails(&["steps", "--tolerance", "30"], &input, 1, &parts);
    }
    answers(&words, "16777216,-16777216\n", "0\n");
}

#[test]
fn numbers_are_told_in_few_characters() {
    for (input, told) in [
        ("1e308,2\n", ": 1e308,2 is off"),
        ("-7,5e-324\n", ": -7,5e-324 is off"),
        ("16777217,-0\n", ": 16777217,-0 is off"),
        ("0.25,nan\n", ": 0.25,NaN is off"),
    ] {
        fails(&["repeats"], input, 1, &[told]);
    }
}

#[test]
fn too_many_points() {
    let line = |count: usize| -> String { (0..count).map(|at| format!("{at},0\n")).collect() };
    let path = file("many.csv", &line(5_000));
    let parts = ["many.csv, line 4097", "reason 2", "4,096"];
    fails(&["thin", "--tolerance", "30", &path], "", 1, &parts);
    fails(&["steps", "--tolerance", "30", &path], "", 1, &parts);
    fails(&["repeats", &path], "", 1, &parts);
    answers(&["thin", "--tolerance", "0"], &line(4_096), "0\n4095\n");
}

#[test]
fn tolerances() {
    for tolerance in ["nan", "inf", "-inf", "1e999"] {
        let parts = ["--tolerance", "reason 4"];
        fails(&["thin", "--tolerance", tolerance], L, 1, &parts);
        fails(&["steps", "--tolerance", tolerance], L, 1, &parts);
    }
}

#[test]
fn rings() {
    let words = ["thin", "--rule", "polygon", "--tolerance", "30"];
    let open = "0,0\n4,0\n0,0\n\n1,1\n2,1\n2,2\n";
    let parts = ["line 7", "reason 6", "starts on line 5"];
    fails(&words, open, 1, &parts);
    let many = "0,0\n\n".repeat(65);
    fails(&words, &many, 1, &["line 129", "reason 5", "64"]);
}

// ---- not read: status 2 ----

#[test]
fn no_such_file() {
    for words in [
        &["thin", "--tolerance", "30", "no-such.csv"][..],
        &["repeats", "no-such.csv"],
        &["steps", "--tolerance", "30", "no-such.csv"],
    ] {
        fails(words, "", 2, &["no-such.csv: no such file"]);
    }
    let here = folder();
    fails(
        &["repeats", here.to_str().expect("text")],
        "",
        2,
        &["command: Is a directory (help"],
    );
}

#[test]
fn lines_that_are_not_two_numbers() {
    let words = ["thin", "--tolerance", "30"];
    for (input, parts) in [
        ("1,2\nabc,def\n", ["line 2", "'abc' is not a number"]),
        ("1,2\n\n7\n", ["line 3", "'7' is not two numbers"]),
        ("7", ["line 1", "'7' is not two numbers"]),
        ("1,2,3\n", ["line 1", "3 parts"]),
        ("1,2\n3,4x\n", ["line 2", "'4x' is not a number"]),
        ("x,y\n1,2\n", ["line 1", "'x' is not a number"]),
        ("1,\n", ["line 1", "'' is not a number"]),
        ("1;2\n", ["line 1", "'1;2' is not two numbers"]),
    ] {
        fails(&words, input, 2, &parts);
        fails(&["repeats"], input, 2, &parts);
    }
    let path = file("letters.csv", "some words\n");
    fails(
        &["repeats", &path],
        "",
        2,
        &["letters.csv, line 1", "'some'"],
    );
}

#[test]
fn bytes_that_are_no_text() {
    let path = folder().join("bytes.csv");
    fs::write(&path, [0x31, 0x2c, 0x32, 0x0a, 0xff, 0x00, 0xfe]).expect("written");
    let path = path.to_str().expect("text");
    fails(&["repeats", path], "", 2, &["bytes.csv, line 2"]);
}

#[test]
fn words_that_are_not_read() {
    for (words, part) in [
        (&[][..], "thin, repeats, steps or demo"),
        (&["thinn"], "'thinn'"),
        (&["--version"], "'--version'"),
        (&["thin"], "needs --tolerance"),
        (&["steps"], "needs --tolerance"),
        (&["thin", "--tolerance"], "needs a value"),
        (&["thin", "--tolerance", "ten"], "'ten' is not a number"),
        (&["thin", "--tolerance", "30", "--rule", "lines"], "'lines'"),
        (&["thin", "--tolerence", "30"], "'--tolerence'"),
        (&["thin", "--tolerance", "30", "-x"], "'-x'"),
        (&["thin", "--tolerance", "30", "--anywhere"], "'--anywhere'"),
        (&["thin", "--tolerance", "1", "--tolerance", "2"], "twice"),
        (&["thin", "--tolerance", "30", "a.csv", "b.csv"], "'b.csv'"),
        (&["repeats", "--tolerance", "30"], "'--tolerance'"),
        (&["repeats", "--anywhere=1"], "takes no value"),
        (&["steps", "--tolerance", "30", "--svg", "a.svg"], "'--svg'"),
        (&["demo", "a.csv"], "'a.csv'"),
    ] {
        fails(words, L, 2, &[part]);
    }
}

// ---- nothing to do ----

/// An answer, an empty one: the user is told on standard error.
#[test]
fn an_empty_file() {
    let path = file("empty.csv", "");
    for words in [
        &["thin", "--tolerance", "30", &path][..],
        &["thin", "--tolerance", "30", "--rule", "polygon", &path],
        &["repeats", &path],
        &["steps", "--tolerance", "30", &path],
    ] {
        let output = run(words, "");
        assert_eq!(output.status.code(), Some(0), "{words:?}");
        assert_eq!(text(&output.stdout), "");
        let line = text(&output.stderr);
        assert!(line.contains("empty.csv: no points"), "{line}");
        assert_eq!(line.matches('\n').count(), 1);
    }
}
