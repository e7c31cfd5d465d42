//! A table in text: columns as wide as they need, long cells broken between words.

use crate::wrap;

/// Wider cells are broken.
const WIDEST: usize = 32;

const BETWEEN: &str = "  ";

/// The lines of each row; rows have equally many cells.
pub fn draw<const N: usize>(rows: &[[String; N]]) -> Vec<Vec<String>> {
    let broken: Vec<Vec<Vec<String>>> = rows
        .iter()
        .map(|cells| cells.iter().map(|cell| broken(cell)).collect())
        .collect();
    let widths: Vec<usize> = (0..N).map(|column| width(&broken, column)).collect();
    broken.iter().map(|cells| lines(cells, &widths)).collect()
}

fn width(rows: &[Vec<Vec<String>>], column: usize) -> usize {
    let lines = rows.iter().flat_map(|cells| &cells[column]);
    lines.map(|line| line.len()).max().unwrap_or(0)
}

/// A cell's lines, broken at blanks.
fn broken(cell: &str) -> Vec<String> {
    wrap::lines(cell.split(' ').map(String::from), WIDEST)
}

fn lines(cells: &[Vec<String>], widths: &[usize]) -> Vec<String> {
    let height = cells.iter().map(Vec::len).max().unwrap_or(0);
    let line = |index: usize| {
        let columns = cells.iter().zip(widths);
        let padded: Vec<String> = columns
            .map(|(cell, width)| {
                let text = cell.get(index).map_or("", String::as_str);
                format!("{text:width$}")
            })
            .collect();
        padded.join(BETWEEN).trim_end().to_string()
    };
    (0..height).map(line).collect()
}

#[cfg(test)]
mod tests {
    use super::*;

    fn drawn(rows: &[[&str; 3]]) -> Vec<String> {
        let rows: Vec<[String; 3]> = rows.iter().map(|row| row.map(String::from)).collect();
        draw(&rows).concat()
    }

    #[test]
    fn columns_are_as_wide_as_they_need() {
        let rows = [["place", "holds", "awaits"], ["p0", "t0:0-2,5", "-"]];
        assert_eq!(
            drawn(&rows),
            ["place  holds     awaits", "p0     t0:0-2,5  -"]
        );
    }

    #[test]
    fn long_cells_are_broken_between_words() {
        let long = "t0:0-63 t1:0-63 t2:0-63 t3:0-63 t4:0-63";
        let lines = drawn(&[["p0", long, "-"]]);
        assert_eq!(
            lines,
            ["p0  t0:0-63 t1:0-63 t2:0-63 t3:0-63  -", "    t4:0-63"]
        );
    }

    #[test]
    fn a_word_wider_than_a_cell_stands_alone() {
        let wide = "t0:0,2,4,6,8,10,12,14,16,18,20,22,24,26";
        let cell = format!("t1:0 {wide} t2:0");
        assert_eq!(broken(&cell), ["t1:0", wide, "t2:0"]);
    }
}
