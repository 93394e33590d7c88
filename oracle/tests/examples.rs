//! The three doc examples of the given text, run on it and on the copy with the tie order. They are all the tests
//! that the given text has. Each file in examples/ is one example between braces; a test holds it to the given text.

// What the examples call approx is this crate's stand-in.
extern crate oracle as approx;

macro_rules! examples {
    ($name:ident, $text:ident) => {
        mod $name {
            mod geo {
                pub use oracle::line_string;
                pub use oracle::$text::{SimplifyVw, SimplifyVwIdx, SimplifyVwPreserve};
            }

            #[test]
            fn simplify_vw() {
                include!("examples/simplify_vw.rs")
            }

            #[test]
            fn simplify_vw_idx() {
                include!("examples/simplify_vw_idx.rs")
            }

            #[test]
            fn simplify_vw_preserve() {
                include!("examples/simplify_vw_preserve.rs")
            }
        }
    };
}

examples!(given, simplify_vw);
examples!(tied, simplify_vw_tied);

#[test]
fn the_examples_are_those_of_the_given_text() {
    let mut found = Vec::new();
    let mut inside = false;
    for line in include_str!("../given/simplify_vw.rs").lines() {
        let comment = match line.trim().strip_prefix("///") {
            Some(comment) => comment,
            None => continue,
        };
        if comment == " ```" {
            inside = !inside;
            found.push(if inside { "{" } else { "}" }.to_string());
        } else if inside {
            found.push(comment.strip_prefix(' ').unwrap_or(comment).to_string());
        }
    }
    let stored = [
        include_str!("examples/simplify_vw.rs"),
        include_str!("examples/simplify_vw_idx.rs"),
        include_str!("examples/simplify_vw_preserve.rs"),
    ];
    assert_eq!(found, stored.concat().lines().collect::<Vec<_>>());
}
