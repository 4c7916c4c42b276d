//! Tables in plain text, their columns aligned.

/// On which side the cells of a column stand.
#[derive(Clone, Copy, Debug, PartialEq, Eq)]
pub enum Side {
    /// Words.
    Left,
    /// Numbers.
    Right,
}

/// A table with its heads, indented. Nothing stands after a row's last word.
pub fn table<const COLUMNS: usize>(
    heads: [(&str, Side); COLUMNS],
    rows: &[[String; COLUMNS]],
) -> String {
    let head = heads.map(|(name, _)| name.to_string());
    let widths: [usize; COLUMNS] = std::array::from_fn(|column| {
        let cells = rows.iter().chain([&head]).map(|row| row[column].len());
        cells.max().unwrap_or(0)
    });
    let mut text = String::new();
    for row in [&head].into_iter().chain(rows) {
        let cells: [String; COLUMNS] = std::array::from_fn(|column| {
            let (cell, width) = (&row[column], widths[column]);
            match heads[column].1 {
                Side::Left => format!("{cell:<width$}"),
                Side::Right => format!("{cell:>width$}"),
            }
        });
        text.push_str(format!("  {}", cells.join("  ")).trim_end());
        text.push('\n');
    }
    text
}

#[cfg(test)]
mod tests {
    use super::*;

    #[test]
    fn columns_are_aligned() {
        let rows = [["1", "held", "x"], ["100", "a", ""]].map(|row| row.map(str::to_string));
        let heads = [("no", Side::Right), ("words", Side::Left), ("", Side::Left)];
        let wanted = "   no  words\n    1  held   x\n  100  a\n";
        assert_eq!(table(heads, &rows), wanted);
    }
}
