//! The columns of a table. If they do not fit the width of the output, the row goes on in further lines, and so does
//! the header: no column is left out.

pub struct Column {
    pub head: &'static str,
    pub width: usize,
    /// Words begin at the left of their column, and numbers end at its right.
    pub left: bool,
}

pub const fn words(head: &'static str, width: usize) -> Column {
    Column { head, width, left: true }
}

pub const fn number(head: &'static str, width: usize) -> Column {
    Column { head, width, left: false }
}

const GAP: usize = 2;

pub struct Layout {
    columns: Vec<Column>,
    /// The number of the columns that name the record. Further lines begin after them.
    leading: usize,
    /// For each column, whether it begins a line.
    begins: Vec<bool>,
}

impl Layout {
    /// Returns the layout of these columns for a width, or on one line if no width is given.
    pub fn new(columns: Vec<Column>, leading: usize, width: Option<usize>) -> Layout {
        let mut layout = Layout { begins: vec![false; columns.len()], columns, leading };
        let indent = layout.indent();
        let mut used = 0;
        for (i, column) in layout.columns.iter().enumerate() {
            used += column.width + if i == 0 { 0 } else { GAP };
            if i > leading && width.is_some_and(|width| used > width) {
                layout.begins[i] = true;
                used = indent + column.width;
            }
        }
        layout
    }

    /// Returns the position at which the columns after the leading ones begin.
    pub fn indent(&self) -> usize {
        self.columns[..self.leading].iter().map(|column| column.width + GAP).sum()
    }

    pub fn head(&self) -> String {
        self.row(&self.columns.iter().map(|column| column.head.to_string()).collect::<Vec<_>>())
    }

    /// Returns the lines of a row. A cell that is wider than its column moves the next ones to the right.
    pub fn row(&self, cells: &[String]) -> String {
        let mut text = String::new();
        for ((column, begins), cell) in self.columns.iter().zip(&self.begins).zip(cells) {
            if *begins {
                text = text.trim_end().to_string() + "\n" + &" ".repeat(self.indent());
            } else if !text.is_empty() {
                text += &" ".repeat(GAP);
            }
            let width = column.width;
            text += &if column.left { format!("{cell:<width$}") } else { format!("{cell:>width$}") };
        }
        text.trim_end().to_string() + "\n"
    }
}

#[cfg(test)]
mod tests {
    use super::*;

    fn layout(width: Option<usize>) -> Layout {
        let columns = vec![number("job", 4), words("kind", 5), number("km", 6), number("deg", 6)];
        Layout::new(columns, 1, width)
    }

    fn row(width: Option<usize>) -> String {
        layout(width).row(&["7", "a", "1.5", "90"].map(String::from))
    }

    #[test]
    fn a_wide_output_has_one_line() {
        assert_eq!(layout(None).head(), " job  kind       km     deg\n");
        assert_eq!(row(None), "   7  a         1.5      90\n");
        assert_eq!(row(Some(27)), row(None));
    }

    #[test]
    fn a_narrow_output_has_more_lines() {
        assert_eq!(row(Some(26)), "   7  a         1.5\n          90\n");
        assert_eq!(row(Some(1)), "   7  a\n         1.5\n          90\n");
        for width in 13..40 {
            let lines = layout(Some(width)).head() + &row(Some(width));
            assert!(lines.lines().all(|line| line.len() <= width), "{width}");
        }
    }
}
