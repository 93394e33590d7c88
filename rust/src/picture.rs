//! A picture of a line before and after, as SVG: one page, A4 across.

use crate::input::Input;
use crate::options::Rule;
use pylonfrith::Kept;
use std::fmt::Write as _;

// Millimetres.
const WIDTH: f64 = 297.0;
const HEIGHT: f64 = 210.0;
const MARGIN: f64 = 14.0;
const HEAD: f64 = 17.0;
const FOOT: f64 = 13.0;

const BEFORE: &str = "#b9cde0";
const AFTER: &str = "#12324f";
const REMOVED: &str = "#d1571b";
const INK: &str = "#222222";
const FAINT: &str = "#666666";

/// Where the points lie on the page.
struct Sheet {
    least_x: f64,
    greatest_y: f64,
    /// Millimetres for a centimetre.
    scale: f64,
    left: f64,
    top: f64,
}

impl Sheet {
    /// All points in the middle of the page, to one scale both ways.
    fn of(input: &Input) -> Sheet {
        let (least_x, greatest_x) = ends(&input.x);
        let (least_y, greatest_y) = ends(&input.y);
        let (room_x, room_y) = (WIDTH - 2.0 * MARGIN, HEIGHT - 2.0 * MARGIN - HEAD - FOOT);
        let (wide, high) = (greatest_x - least_x, greatest_y - least_y);
        let scale = (room_x / wide.max(1.0)).min(room_y / high.max(1.0));
        Sheet {
            least_x,
            greatest_y,
            scale,
            left: MARGIN + (room_x - wide * scale) / 2.0,
            top: MARGIN + HEAD + (room_y - high * scale) / 2.0,
        }
    }

    fn place(&self, input: &Input, index: usize) -> (f64, f64) {
        (
            self.left + (input.x[index] - self.least_x) * self.scale,
            self.top + (self.greatest_y - input.y[index]) * self.scale,
        )
    }

    /// A path through these points.
    fn path(&self, input: &Input, list: &[usize]) -> String {
        let mut path = String::new();
        for (at, &index) in list.iter().enumerate() {
            let (x, y) = self.place(input, index);
            let _ = write!(path, "{}{x:.2} {y:.2}", if at == 0 { "M" } else { "L" });
        }
        path
    }

    /// Dots, drawn as lines of no length with round ends.
    fn dots(&self, input: &Input, list: &[usize]) -> String {
        let dot = |&index: &usize| {
            let (x, y) = self.place(input, index);
            format!("M{x:.2} {y:.2}h0")
        };
        list.iter().map(dot).collect()
    }
}

fn ends(values: &[f64]) -> (f64, f64) {
    let least = values.iter().copied().reduce(f64::min).unwrap_or(0.0);
    let greatest = values.iter().copied().reduce(f64::max).unwrap_or(0.0);
    (least, greatest)
}

/// The whole picture. The points have passed the call, so they are on the grid.
pub fn page(input: &Input, kept: &Kept, rule: Rule, title: &str) -> String {
    let sheet = Sheet::of(input);
    let (before, after) = lists(input, kept, rule);
    let mut is_kept = vec![false; input.len()];
    kept.points
        .iter()
        .for_each(|&index| is_kept[index as usize] = true);
    let removed: Vec<usize> = (0..input.len()).filter(|&index| !is_kept[index]).collect();

    let mut svg = String::new();
    let mut add = |element: String| {
        svg.push_str(&element);
        svg.push('\n');
    };
    add(format!(
        "<svg xmlns=\"http://www.w3.org/2000/svg\" width=\"{WIDTH}mm\" height=\"{HEIGHT}mm\" viewBox=\"0 0 {WIDTH} {HEIGHT}\" \
         font-family=\"Helvetica, Arial, sans-serif\" stroke-linecap=\"round\" stroke-linejoin=\"round\">"
    ));
    add(format!("<title>{}</title>", escaped(title)));
    add(format!(
        "<rect width=\"{WIDTH}\" height=\"{HEIGHT}\" fill=\"#ffffff\"/>"
    ));
    add(heading(input, kept, rule, title));
    for list in &before {
        add(stroked(&sheet.path(input, list), BEFORE, 1.1));
    }
    for list in &after {
        add(stroked(&sheet.path(input, list), AFTER, 0.35));
    }
    let size = dot_size(input.len());
    add(stroked(&sheet.dots(input, &removed), REMOVED, size));
    let all_kept: Vec<usize> = after.concat();
    let kept_size = 1.35 * dot_size(all_kept.len());
    add(stroked(&sheet.dots(input, &all_kept), AFTER, kept_size));
    add(legend(size.max(0.9), kept_size));
    add(scale_bar(sheet.scale));
    add("</svg>".to_string());
    svg
}

/// The rings before and after; a line is one.
fn lists(input: &Input, kept: &Kept, rule: Rule) -> (Vec<Vec<usize>>, Vec<Vec<usize>>) {
    let before = match rule {
        Rule::Polygon => input
            .ring_ranges()
            .into_iter()
            .map(Iterator::collect)
            .collect(),
        _ => vec![(0..input.len()).collect()],
    };
    let mut start = 0;
    let after = kept.rings.iter().map(|&end| {
        let list = &kept.points[start..end as usize];
        start = end as usize;
        list.iter().map(|&index| index as usize).collect()
    });
    (before, after.collect())
}

/// A dot's width: less where there are many.
fn dot_size(count: usize) -> f64 {
    (24.0 / (count.max(1) as f64).sqrt()).clamp(0.5, 1.2)
}

fn stroked(path: &str, colour: &str, width: f64) -> String {
    if path.is_empty() {
        return String::new();
    }
    format!("<path d=\"{path}\" fill=\"none\" stroke=\"{colour}\" stroke-width=\"{width:.2}\"/>")
}

fn written(x: f64, y: f64, size: f64, colour: &str, anchor: &str, words: &str) -> String {
    format!(
        "<text x=\"{x:.2}\" y=\"{y:.2}\" font-size=\"{size}\" fill=\"{colour}\" text-anchor=\"{anchor}\">{}</text>",
        escaped(words)
    )
}

fn heading(input: &Input, kept: &Kept, rule: Rule, title: &str) -> String {
    let rule = match rule {
        Rule::Index => "index rule",
        Rule::Points => "point rule",
        Rule::Preserve => "preserving rule",
        Rule::Polygon => "preserving rule of a polygon",
    };
    let (count, left) = (input.len(), kept.points.len());
    let counts = format!(
        "{rule}: {count} points, {left} kept, {} removed",
        count - left
    );
    written(MARGIN, MARGIN + 4.5, 5.5, INK, "start", title)
        + "\n"
        + &written(MARGIN, MARGIN + 10.5, 3.8, FAINT, "start", &counts)
}

fn legend(removed_size: f64, kept_size: f64) -> String {
    let y = HEIGHT - MARGIN - 1.5;
    let sample = |x: f64, colour: &str, width: f64| {
        stroked(&format!("M{x:.2} {:.2}h9", y - 1.3), colour, width)
    };
    let dot = |x: f64, colour: &str, width: f64| {
        stroked(&format!("M{x:.2} {:.2}h0", y - 1.3), colour, width)
    };
    let word = |x: f64, words: &str| written(x, y, 3.8, INK, "start", words);
    [
        sample(MARGIN, BEFORE, 1.1),
        word(MARGIN + 12.0, "before"),
        sample(MARGIN + 32.0, AFTER, 0.35),
        dot(MARGIN + 36.5, AFTER, kept_size),
        word(MARGIN + 44.0, "after, with the points kept"),
        dot(MARGIN + 100.0, REMOVED, removed_size),
        word(MARGIN + 103.0, "points removed"),
    ]
    .join("\n")
}

/// A bar of 1, 2 or 5 times a power of ten, some 40 millimetres long.
fn scale_bar(scale: f64) -> String {
    let most = 45.0 / scale;
    let power = 10.0_f64.powf(most.log10().floor());
    let length = [5.0, 2.0, 1.0]
        .iter()
        .map(|times| times * power)
        .find(|&length| length <= most)
        .unwrap_or(power);
    let wide = length * scale;
    let (right, y) = (WIDTH - MARGIN, HEIGHT - MARGIN - 2.0);
    let left = right - wide;
    let bar = format!("M{left:.2} {:.2}v2h{wide:.2}v-2", y - 2.0);
    stroked(&bar, INK, 0.3) + "\n" + &written(left - 3.0, y, 3.8, INK, "end", &in_metres(length))
}

fn in_metres(centimetres: f64) -> String {
    if centimetres >= 100_000.0 {
        format!("{} km", centimetres / 100_000.0)
    } else if centimetres >= 100.0 {
        format!("{} m", centimetres / 100.0)
    } else {
        format!("{centimetres} cm")
    }
}

fn escaped(text: &str) -> String {
    text.replace('&', "&amp;")
        .replace('<', "&lt;")
        .replace('>', "&gt;")
        .replace('"', "&quot;")
}

#[cfg(test)]
mod tests {
    use super::*;
    use crate::input::parse;

    fn page_of(text: &str, points: &[u32], rings: &[u32], rule: Rule) -> String {
        let kept = Kept {
            points: points.to_vec(),
            rings: rings.to_vec(),
        };
        page(&parse(text).expect("read"), &kept, rule, "a < b & c")
    }

    #[test]
    fn both_lines_and_the_removed_points() {
        let svg = page_of("0,0\n10,1\n20,0\n", &[0, 2], &[2], Rule::Index);
        assert!(svg.starts_with("<svg ") && svg.ends_with("</svg>\n"));
        assert!(svg.contains("a &lt; b &amp; c"));
        assert!(svg.contains("3 points, 2 kept, 1 removed"));
        for colour in [BEFORE, AFTER, REMOVED] {
            assert!(svg.contains(colour));
        }
        assert!(!svg.contains("NaN") && !svg.contains("inf"));
    }

    #[test]
    fn no_points_and_one_place() {
        for text in ["", "7,7\n", "7,7\n7,7\n"] {
            let count = parse(text).expect("read").len() as u32;
            let points: Vec<u32> = (0..count).collect();
            let svg = page_of(text, &points, &[count], Rule::Points);
            assert!(!svg.contains("NaN") && !svg.contains("inf"), "{svg}");
        }
    }

    #[test]
    fn a_path_for_each_ring() {
        let text = "0,0\n9,0\n9,9\n0,0\n\n4,2\n6,2\n6,4\n4,2\n";
        let all: Vec<u32> = (0..8).collect();
        let svg = page_of(text, &all, &[4, 8], Rule::Polygon);
        assert_eq!(svg.matches(&format!("stroke=\"{BEFORE}\"")).count(), 3);
    }

    #[test]
    fn bars_of_round_lengths() {
        assert!(scale_bar(0.01).contains(">20 m<"));
        assert!(scale_bar(45.0).contains(">1 cm<"));
        assert!(scale_bar(0.000_02).contains(">20 km<"));
    }
}
