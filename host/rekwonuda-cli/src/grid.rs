//! Rows of fields under headings: laid out for a screen, or as CSV.

use crate::words::cut;
use console::measure_text_width;

/// The widest that a column gets on a screen.
pub const WIDEST: usize = 32;

/// Fields that stand beside each other, as many in each row as there are columns.
pub struct Grid {
    columns: Vec<Head>,
    rows: Vec<Vec<String>>,
}

/// The head of a column.
#[derive(Clone, Debug)]
pub struct Head {
    pub heading: String,
    /// Whether its fields stand at the right, as numbers do.
    pub right: bool,
}

impl Grid {
    pub fn new(columns: Vec<Head>) -> Grid {
        Grid {
            columns,
            rows: Vec::new(),
        }
    }

    pub fn push(&mut self, row: Vec<String>) {
        self.rows.push(row);
    }

    /// The same without the columns that are blank in every row, and how many they are. A grid without
    /// rows keeps its columns.
    pub fn without_blank_columns(self) -> (Grid, usize) {
        let is_used = |at: usize| self.rows.iter().any(|row| !row[at].is_empty());
        let used: Vec<bool> = (0..self.columns.len())
            .map(|at| self.rows.is_empty() || is_used(at))
            .collect();
        let blank = used.iter().filter(|used| !**used).count();
        let grid = Grid {
            columns: kept(self.columns, &used),
            rows: self.rows.into_iter().map(|row| kept(row, &used)).collect(),
        };
        (grid, blank)
    }

    /// The lines for a screen: the headings, and one for each row. Each column is as wide as it needs,
    /// up to a bound; what is longer is cut.
    pub fn lines(&self) -> Vec<String> {
        let headings: Vec<String> = self
            .columns
            .iter()
            .map(|head| head.heading.clone())
            .collect();
        let widths: Vec<usize> = (0..self.columns.len())
            .map(|at| {
                let fields = self.rows.iter().chain([&headings]).map(|row| &row[at]);
                let widest = fields.map(|field| measure_text_width(field)).max();
                widest.unwrap_or(0).min(WIDEST)
            })
            .collect();
        let rows = [&headings].into_iter().chain(&self.rows);
        rows.map(|row| self.line(row, &widths)).collect()
    }

    fn line(&self, row: &[String], widths: &[usize]) -> String {
        let fields = row.iter().zip(&self.columns).zip(widths);
        let fields: Vec<String> = fields
            .map(|((field, head), width)| {
                let field = cut(field, *width);
                let blanks = " ".repeat(width.saturating_sub(measure_text_width(&field)));
                match head.right {
                    true => blanks + &field,
                    false => field + &blanks,
                }
            })
            .collect();
        fields.join("  ").trim_end().to_string()
    }

    /// The same as CSV by RFC 4180: the headings and each row, whole, with a line break of two bytes
    /// behind each.
    pub fn csv(&self) -> String {
        let headings: Vec<String> = self
            .columns
            .iter()
            .map(|head| head.heading.clone())
            .collect();
        let rows = [&headings].into_iter().chain(&self.rows);
        rows.map(|row| csv_line(row)).collect()
    }
}

fn kept<T>(of: Vec<T>, used: &[bool]) -> Vec<T> {
    let kept = of.into_iter().zip(used).filter(|(_, used)| **used);
    kept.map(|(one, _)| one).collect()
}

fn csv_line(row: &[String]) -> String {
    let fields: Vec<String> = match row {
        // A line with nothing on it would be taken for none.
        [alone] if alone.is_empty() => vec!["\"\"".to_string()],
        _ => row.iter().map(|field| csv_field(field)).collect(),
    };
    fields.join(",") + "\r\n"
}

fn csv_field(field: &str) -> String {
    match field.contains(['"', ',', '\r', '\n']) {
        true => format!("\"{}\"", field.replace('"', "\"\"")),
        false => field.to_string(),
    }
}

#[cfg(test)]
mod tests {
    use super::*;

    fn grid(rows: &[[&str; 3]]) -> Grid {
        let mut grid = Grid::new(
            [("id", true), ("name", false), ("none", false)]
                .map(|(heading, right)| Head {
                    heading: heading.to_string(),
                    right,
                })
                .to_vec(),
        );
        for row in rows {
            grid.push(row.map(str::to_string).to_vec());
        }
        grid
    }

    #[test]
    fn columns_are_as_wide_as_they_need() {
        let grid = grid(&[["1", "Inbox", ""], ["200", "\u{4F60}\u{597D}", "x"]]);
        let wanted = [
            " id  name   none",
            "  1  Inbox",
            "200  \u{4F60}\u{597D}   x",
        ];
        assert_eq!(grid.lines(), wanted);
    }

    #[test]
    fn long_fields_are_cut() {
        let long = "a".repeat(WIDEST + 1);
        let fits = "b".repeat(WIDEST);
        let lines = grid(&[["1", &long, "x"], ["2", &fits, "x"]]).lines();
        assert_eq!(lines[1], format!(" 1  {}\u{2026}  x", &long[2..]));
        assert_eq!(lines[2], format!(" 2  {fits}  x"));
    }

    #[test]
    fn columns_without_values_are_left_out() {
        let (shown, blank) = grid(&[["1", "a", ""], ["", "b", ""]]).without_blank_columns();
        assert_eq!(blank, 1);
        assert_eq!(shown.lines(), ["id  name", " 1  a", "    b"]);
        let (shown, blank) = grid(&[]).without_blank_columns();
        assert_eq!((blank, shown.lines().len()), (0, 1));
        assert_eq!(shown.lines(), ["id  name  none"]);
    }

    #[test]
    fn csv_is_whole_and_quoted_where_it_must_be() {
        let long = "a".repeat(WIDEST + 1);
        let csv = grid(&[["=1+1", "say \"hi\", twice", &long], ["", "a\nb", "\r"]]).csv();
        let wanted = format!(
            "id,name,none\r\n=1+1,\"say \"\"hi\"\", twice\",{long}\r\n,\"a\nb\",\"\r\"\r\n"
        );
        assert_eq!(csv, wanted);
        assert_eq!(csv_line(&[String::new()]), "\"\"\r\n");
    }
}
