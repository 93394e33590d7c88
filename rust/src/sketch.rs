//! A line drawn in characters.

/// How the points are laid on a page: its size, and what of the plane is on it.
#[derive(Clone, Copy)]
pub struct View {
    left: f64,
    top: f64,
    /// Centimetres for a column; a row is twice as high.
    scale: f64,
    columns: usize,
    rows: usize,
}

impl View {
    /// All of these points, on so many columns.
    pub fn of(x: &[f64], y: &[f64], columns: usize) -> View {
        let least = |values: &[f64]| values.iter().copied().fold(f64::INFINITY, f64::min);
        let greatest = |values: &[f64]| values.iter().copied().fold(f64::NEG_INFINITY, f64::max);
        let (left, top) = (least(x), greatest(y));
        let scale = ((greatest(x) - left) / (columns - 1) as f64).max(1.0);
        View {
            left,
            top,
            scale,
            columns,
            rows: ((top - least(y)) / (2.0 * scale)).round() as usize + 1,
        }
    }

    /// Column and row of a place.
    fn cell(&self, x: f64, y: f64) -> (usize, usize) {
        let column = ((x - self.left) / self.scale).round() as usize;
        let row = ((self.top - y) / (2.0 * self.scale)).round() as usize;
        (column.min(self.columns - 1), row.min(self.rows - 1))
    }

    /// The line through these points: 'o' for a point, '.' for the way between two.
    pub fn draw(&self, points: &[(f64, f64)]) -> String {
        let mut cells = vec![vec![' '; self.columns]; self.rows];
        for pair in points.windows(2) {
            self.draw_way(&mut cells, pair[0], pair[1]);
        }
        for &(x, y) in points {
            let (column, row) = self.cell(x, y);
            cells[row][column] = 'o';
        }
        let line = |row: Vec<char>| row.into_iter().collect::<String>().trim_end().to_string();
        cells.into_iter().map(|row| line(row) + "\n").collect()
    }

    fn draw_way(&self, cells: &mut [Vec<char>], from: (f64, f64), to: (f64, f64)) {
        let (start, end) = (self.cell(from.0, from.1), self.cell(to.0, to.1));
        let steps = start.0.abs_diff(end.0).max(start.1.abs_diff(end.1)).max(1);
        for step in 0..=steps {
            let part = step as f64 / steps as f64;
            let x = from.0 + (to.0 - from.0) * part;
            let y = from.1 + (to.1 - from.1) * part;
            let (column, row) = self.cell(x, y);
            cells[row][column] = '.';
        }
    }
}

#[cfg(test)]
mod tests {
    use super::*;

    #[test]
    fn a_corner() {
        let (x, y) = ([0.0, 8.0, 8.0], [0.0, 0.0, 8.0]);
        let points: Vec<(f64, f64)> = x.iter().copied().zip(y).collect();
        let drawn = View::of(&x, &y, 9).draw(&points);
        let expected = "        o\n        .\n        .\n        .\no.......o\n";
        assert_eq!(drawn, expected);
    }

    #[test]
    fn one_place() {
        assert_eq!(View::of(&[5.0], &[5.0], 10).draw(&[(5.0, 5.0)]), "o\n");
    }
}
