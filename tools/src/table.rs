//! Cells under each other, as wide as the widest of a column, with two blanks between columns.

/// The side of a column to which its cells are moved.
#[derive(Clone, Copy)]
pub enum Side {
    Left,
    Right,
}

pub struct Row {
    pub cells: Vec<String>,
    /// A line under the row, moved in under its last cell.
    pub note: Option<String>,
}

impl Row {
    pub fn of(cells: Vec<String>) -> Row {
        let note = None;
        Row { cells, note }
    }
}

/// The rows, each with as many cells as there are sides.
pub fn table(sides: &[Side], rows: &[Row]) -> String {
    let widest = |column: usize| {
        let cells = rows.iter().map(|row| &row.cells[column]);
        cells.map(|cell| cell.chars().count()).max().unwrap_or(0)
    };
    let widths: Vec<usize> = (0..sides.len()).map(widest).collect();
    let last: usize = widths.iter().rev().skip(1).map(|width| width + 2).sum();
    let mut text = String::new();
    for row in rows {
        text += &line(sides, &widths, &row.cells);
        if let Some(note) = &row.note {
            text += &format!("{:last$}  {note}\n", "");
        }
    }
    text
}

fn line(sides: &[Side], widths: &[usize], cells: &[String]) -> String {
    let columns = sides.iter().zip(widths).zip(cells);
    let padded: Vec<String> = columns
        .map(|((side, &width), cell)| match side {
            Side::Left => format!("{cell:<width$}"),
            Side::Right => format!("{cell:>width$}"),
        })
        .collect();
    padded.join("  ").trim_end().to_string() + "\n"
}

#[cfg(test)]
mod tests {
    use super::*;

    #[test]
    fn cells_stand_under_each_other_and_notes_under_the_last() {
        let row = |a: &str, b: &str, c: &str| Row::of(vec![a.into(), b.into(), c.into()]);
        let noted = Row {
            note: Some("a note".into()),
            ..row("123", "é", "last")
        };
        let sides = [Side::Right, Side::Left, Side::Left];
        let text = table(&sides, &[row("a", "bcd", ""), noted]);
        assert_eq!(text, "  a  bcd\n123  é    last\n            a note\n");
        assert_eq!(table(&sides, &[]), "");
    }
}
