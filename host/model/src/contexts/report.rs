//! What a reader answers to the chosen tables, a line for each call: the file `stdout` of the crate
//! `contexts`.

use super::{contexts, Context};
use crate::build::tables::ROW_ID;
use crate::edition::Edition;
use crate::report::{area_in_words, or_refusal};
use crate::{Answer, Cell, Column, Rows, Table};
use std::fmt::{Display, Write};

const MOST_COLUMNS_LISTED: u32 = 8;
const MOST_COLUMNS_ASKED: usize = 6;
const ROWS_ASKED: [u32; 4] = [0, 1, 2, u32::MAX];

/// The row and the words of the area to read it into. The first area has room for any row, and for less
/// than a place behind it; the others have room for one cell.
const READ: [(u32, usize); 3] = [(0, 6 * 255 + 3), (0, 11), (u32::MAX, 11)];

pub fn report() -> String {
    contexts().iter().map(lines_on).collect()
}

/// Whether the report on a table has that refusal, the row index of the other edition left out.
pub fn shows(context: &Context, refusal: u64) -> bool {
    let other = match context.edition {
        Edition::Bits64 => "find_row32 ",
        Edition::Bits32 => "find_row ",
    };
    let refused = format!("refused {refusal} at");
    let lines = lines_on(context);
    let mut own = lines.lines().filter(|line| !line.starts_with(other));
    own.any(|line| line.contains(&refused))
}

fn lines_on(context: &Context) -> String {
    let mut asked = Asked {
        block: &context.block,
        rows: context.rows.as_deref().unwrap_or_default(),
        lines: String::new(),
    };
    let lengths = format!(
        "{} bytes, rows {} bytes",
        asked.block.len(),
        asked.rows.len()
    );
    asked.say(&context.name, lengths);
    asked.shape();
    let tags = asked.columns();
    asked.cells(&tags);
    for (row, words) in READ {
        asked.read_row(row, words);
    }
    asked.find_rows();
    asked.lines
}

struct Asked<'a> {
    block: &'a [u8],
    rows: &'a [u8],
    lines: String,
}

impl Asked<'_> {
    fn say(&mut self, call: impl Display, answer: impl Display) {
        writeln!(self.lines, "{call}: {answer}").expect("a String takes any line");
    }

    fn shape(&mut self) {
        let table = crate::table(self.block).map(table_in_words);
        self.say("table", or_refusal(table));
    }

    /// Up to the first that is absent or refused; the tags of the first few.
    fn columns(&mut self) -> Vec<u32> {
        let mut tags = Vec::new();
        for index in 0..MOST_COLUMNS_LISTED {
            let column = crate::column(self.block, index);
            let words = column.map(|column| column.map_or("absent".into(), column_in_words));
            self.say(format!("column {index}"), or_refusal(words));
            let Ok(Some(column)) = column else {
                break;
            };
            tags.push(column.tag);
        }
        let rows = crate::count_rows(self.block, self.rows);
        self.say("count_rows", or_refusal(rows.map(|rows| rows.to_string())));
        tags.truncate(MOST_COLUMNS_ASKED);
        tags
    }

    fn cells(&mut self, tags: &[u32]) {
        for row in ROWS_ASKED {
            for &tag in tags.iter().chain(&[0]) {
                let cell = crate::cell(self.block, self.rows, row, tag);
                self.say(format!("cell {row} {tag:08x}"), cell_in_words(cell));
            }
        }
    }

    fn read_row(&mut self, row: u32, words: usize) {
        let mut area = vec![crate::report::FRESH_WORD; words];
        let read = crate::read_row(self.block, self.rows, row, &mut area);
        let answer = read.map(|cells| match cells {
            Some(cells) => format!("cells {cells}"),
            None => "absent".into(),
        });
        self.say(
            format!("read_row {row} in {words} words"),
            format!("{}; {}", or_refusal(answer), area_in_words(&area)),
        );
    }

    /// No id, the ids that the first rows have in their cells, and the highest.
    fn find_rows(&mut self) {
        let cells = [0, 1, 2].map(|row| crate::cell(self.block, self.rows, row, ROW_ID));
        let ids = cells.into_iter().filter_map(|cell| match cell {
            Ok(Some(Cell::Number(id))) => Some(id as u32),
            _ => None,
        });
        for id in [0].into_iter().chain(ids).chain([u32::MAX]) {
            let row = crate::find_row(self.block, id);
            self.say(format!("find_row {id:08x}"), row_in_words(row));
            let row = crate::find_row32(self.block, id);
            self.say(format!("find_row32 {id:08x}"), row_in_words(row));
        }
    }
}

fn row_in_words(row: Answer<Option<u32>>) -> String {
    or_refusal(row.map(|row| row.map_or("absent".into(), |row| format!("row {row}"))))
}

fn table_in_words(table: Table) -> String {
    let rows = match table.rows {
        Rows::None => "none".into(),
        Rows::Item(item) => format!("item {item:08x}"),
        Rows::Subnode(subnode) => format!("subnode {subnode:08x}"),
    };
    format!(
        "columns {}, row size {}, existence {}, rows {rows}",
        table.columns, table.row_size, table.existence
    )
}

fn column_in_words(column: Column) -> String {
    let Column {
        tag,
        offset,
        width,
        bit,
    } = column;
    format!("tag {tag:08x}, offset {offset}, width {width}, bit {bit}")
}

fn cell_in_words(cell: Answer<Option<Cell>>) -> String {
    or_refusal(cell.map(|cell| match cell {
        None => "absent".into(),
        Some(Cell::Number(number)) => format!("number {number}"),
        Some(Cell::Empty) => "empty".into(),
        Some(Cell::Item(item)) => format!("item {item:08x}"),
        Some(Cell::Subnode(subnode)) => format!("subnode {subnode:08x}"),
        Some(Cell::Missing) => "missing".into(),
    }))
}
