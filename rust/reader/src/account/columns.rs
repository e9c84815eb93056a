//! The columns of the steps of a fact.

use yovanelum_record::listed::IntoList;

/// How many spaces are after each column.
const SPACES: [usize; 5] = [3, 3, 2, 3, 0];

/// A step of the run: which one, what was called, by whom, where, and what there is to say of it.
/// What isn't known is empty.
pub(super) type Cells = [String; 5];

fn length(text: &str) -> usize {
    text.chars().count()
}

/// Returns the lines of these steps. A column that is empty in each of them has no width.
pub(super) fn aligned(steps: &[&Cells]) -> Vec<String> {
    let mut widths = [0; 5];
    for cells in steps {
        widen(&mut widths, cells);
    }
    steps.iter().map(|cells| line(cells, &widths)).listed()
}

fn widen(widths: &mut [usize; 5], cells: &Cells) {
    for (width, cell) in widths.iter_mut().zip(cells) {
        *width = length(cell).max(*width);
    }
}

/// Returns the columns of a step side by side.
fn line(cells: &Cells, widths: &[usize; 5]) -> String {
    let mut out = String::from("  ");
    for ((cell, width), spaces) in cells.iter().zip(widths).zip(SPACES.iter()) {
        if *width > 0 {
            out.push_str(cell);
            out.push_str(&" ".repeat(width - length(cell) + spaces));
        }
    }
    out.truncate(out.trim_end().len());
    out
}

#[cfg(test)]
mod tests {
    use super::*;

    #[test]
    fn the_columns_are_aligned() {
        let steps = [
            ["call 3", "é.send(1)", "ticker", "a.rs:15", "b"],
            ["call 17", "told", "auditor", "", ""],
        ];
        let steps = steps.map(|cells| cells.map(String::from));
        let wanted = [
            "  call 3    é.send(1)   ticker   a.rs:15   b",
            "  call 17   told        auditor",
        ];
        assert_eq!(aligned(&steps.each_ref()), wanted);
        let step = ["call 1", "told", "x", "", "d"].map(String::from);
        assert_eq!(aligned(&[&step]), ["  call 1   told   x  d"]);
    }
}
