use crate::account::{Account, Spot};
use crate::args::TableArguments;
use crate::code_pages::{self, CodePage};
use crate::contexts::{named, Context};
use crate::grid::{Grid, Head};
use crate::keys::Keys;
use crate::outcome::{At, Failure, Outcome};
use crate::output::{complain, Output};
use crate::source::Source;
use crate::tags::{headings, name};
use crate::values::{number, text_of, time, to_the_second, Text, BOOLEAN, TEXT_8, TIME};
use crate::words::{counted, cut, hex, property_type};
use indicatif::HumanCount;
use rekwonuda::{Cell, Edition, ItemId, Node, Refusal, RowsPlace, Table, Tag};
use serde_json::{json, Value};
use std::io::{stdout, IsTerminal};

/// Shows the table of a node: its columns, and a line for each row.
pub fn table(
    source: &Source,
    arguments: &TableArguments,
    out: &mut Output<'_>,
) -> Result<Outcome, Failure> {
    out.fact("node", arguments.node)?;
    let (node, data) = Context::Table.read(source, arguments.node)?;
    let spot = Context::Table.spot(node, &data);
    let table = Table::new(&data);
    let rows = row_count(table, node, &data)?;
    let page = arguments.text.code_page;
    let read = Reading::of(table, rows, source.edition(), page).at(spot.clone())?;
    code_pages::tell(page, out)?;
    if out.is_json() {
        read.tell(out)?;
    } else if arguments.csv {
        let form = match stdout().is_terminal() {
            true => Form::Escaped,
            false => Form::AsStored,
        };
        out.bytes(read.grid(form).csv().as_bytes())?;
    } else {
        read.show(out)?;
    }
    read.account_for(source, &spot, out)
}

/// How many rows the table of a node has, which must stand in its data.
pub fn row_count(table: Table<'_>, node: Node, data: &[u8]) -> Result<u32, Failure> {
    let spot = || Context::Table.spot(node, data);
    if let RowsPlace::Subnode(subnode) = table.record().at(spot())?.rows {
        return Err(Failure::NotCovered(format!(
            "{} has its rows in subnode {subnode}: subnodes are not read",
            named(node.id)
        )));
    }
    Ok(table.row_count().at(spot())?.unwrap_or(0))
}

/// What stands in the fields of a grid.
#[derive(Clone, Copy, PartialEq, Eq)]
enum Form {
    /// All of each value.
    AsStored,
    /// The same, with what would steer a terminal escaped.
    Escaped,
    /// The same, with times to the second.
    OnScreen,
}

/// A table that the library accepts, with all that stands in its rows.
struct Reading<'a> {
    table: Table<'a>,
    page: Option<CodePage>,
    tags: Vec<Tag>,
    rows: Vec<Row>,
}

struct Row {
    cells: Vec<Result<Cell, Refusal>>,
    /// By its cell for that.
    id: Option<u32>,
    /// The row that the row index names for the id.
    indexed: Option<Result<Option<u32>, Refusal>>,
}

impl<'a> Reading<'a> {
    fn of(
        table: Table<'a>,
        rows: u32,
        edition: Edition,
        page: Option<CodePage>,
    ) -> Result<Reading<'a>, Refusal> {
        let tags: Result<Vec<Tag>, Refusal> = table
            .columns()
            .map(|column| column.map(|column| column.tag))
            .collect();
        let mut read = Reading {
            table,
            page,
            tags: tags?,
            rows: Vec::new(),
        };
        let id_at = read.tags.iter().position(|tag| *tag == Tag::ROW_ID);
        for row in 0..rows {
            let cells = table.row(row)?.unwrap_or_default();
            let id = id_at.and_then(|at| match cells.get(at) {
                // The column may have eight bytes, and no id more than four.
                Some(Ok(Cell::Number(id))) => u32::try_from(*id).ok(),
                _ => None,
            });
            let indexed = id.map(|id| table.find_row_in(edition, id));
            read.rows.push(Row { cells, id, indexed });
        }
        Ok(read)
    }

    /// What was refused of single cells and of the row index, each once.
    fn refusals(&self) -> Vec<Refusal> {
        let mut refusals = Vec::new();
        for row in &self.rows {
            let of_cells = row.cells.iter().filter_map(|cell| cell.err());
            let of_index = row.indexed.and_then(Result::err);
            for refusal in of_cells.chain(of_index) {
                if !refusals.contains(&refusal) {
                    refusals.push(refusal);
                }
            }
        }
        refusals
    }

    /// Tells of what was refused, and of rows that the row index does not lead to.
    fn account_for(
        &self,
        source: &Source,
        spot: &Spot,
        out: &mut Output<'_>,
    ) -> Result<Outcome, Failure> {
        let mut keys = Keys::new(source);
        let refusals = self.refusals();
        let accounts: Vec<Account> = refusals
            .into_iter()
            .map(|refusal| Account::new(source, refusal, spot, &mut keys))
            .collect();
        out.refused(&accounts)?;
        if let Some(note) = self.note_on_index().filter(|_| !out.is_json()) {
            complain(&note);
        }
        if self.has_unknown_text() {
            code_pages::note_unknown(source, out);
        }
        let outcomes = accounts.iter().map(|account| account.outcome);
        Ok(outcomes.max().unwrap_or(Outcome::Done))
    }

    /// The rows for whose ids the row index names another row, or none.
    fn note_on_index(&self) -> Option<String> {
        let rows = self.rows.iter().zip(0..);
        let astray: Vec<(u32, u32, Option<u32>)> = rows
            .filter_map(|(row, at)| match row.indexed {
                Some(Ok(indexed)) if indexed != Some(at) => Some((at, row.id?, indexed)),
                _ => None,
            })
            .collect();
        let (row, id, indexed) = astray.first()?;
        let leads = match indexed {
            Some(other) => format!("names row {other} for it"),
            None => "does not list it".to_string(),
        };
        Some(format!(
            "the row index does not agree with {} (rows counted from 0); the first is row {row}, id \
             {id:#x}: the index {leads}",
            counted(astray.len() as u64, "row")
        ))
    }

    /// The columns and rows as JSON.
    fn tell(&self, out: &mut Output<'_>) -> Result<(), Failure> {
        out.begin_list("columns")?;
        for tag in &self.tags {
            out.entry(&json!({
                "tag": tag.0,
                "name": name(*tag),
                "type": tag.type_code(),
                "type_name": property_type(tag.type_code()),
            }))?;
        }
        out.end_list()?;
        out.begin_list("rows")?;
        for (row, at) in self.rows.iter().zip(0_u32..) {
            let cells = row.cells.iter().zip(&self.tags);
            let cells: Vec<Value> = cells.map(|(cell, tag)| self.facts(*tag, *cell)).collect();
            let mut facts = json!({ "row": at });
            if let Some(id) = row.id {
                facts["id"] = id.into();
            }
            if let Some(Ok(indexed)) = row.indexed {
                facts["indexed_row"] = indexed.into();
            }
            facts["cells"] = cells.into();
            out.entry(&facts)?;
        }
        out.end_list()
    }

    fn facts(&self, tag: Tag, cell: Result<Cell, Refusal>) -> Value {
        match cell {
            Ok(Cell::Number(number)) => number_facts(tag, number),
            Ok(Cell::Empty) => json!({ "empty": true }),
            Ok(Cell::Missing) => json!({ "missing": true }),
            Ok(Cell::Subnode(subnode)) => json!({ "subnode": subnode.0 }),
            Ok(Cell::Item(item)) => {
                let bytes = self.bytes(item);
                let mut facts = json!({ "item": item.0, "bytes": hex(bytes) });
                if let Some(text) = self.text_of(tag, item) {
                    facts["text"] = text.plain.into();
                }
                facts
            }
            Err(refusal) => json!({ "refused": refusal.number() }),
        }
    }

    /// The columns and rows for a reader, the row's id first.
    fn grid(&self, form: Form) -> Grid {
        let mut order: Vec<usize> = (0..self.tags.len()).collect();
        order.sort_by_key(|at| self.tags[*at] != Tag::ROW_ID);
        let headings = headings(&self.tags);
        let heads = order.iter().map(|at| Head {
            heading: headings[*at].clone(),
            right: self.stands_right(*at),
        });
        let mut grid = Grid::new(heads.collect());
        for row in &self.rows {
            let fields = order.iter().map(|at| {
                let (tag, cell) = (self.tags[*at], row.cells[*at]);
                self.text(tag, cell, form)
            });
            grid.push(fields.collect());
        }
        grid
    }

    /// Whether all values of a column are plain numbers.
    fn stands_right(&self, at: usize) -> bool {
        let is_plain = !matches!(self.tags[at].type_code(), BOOLEAN | TIME);
        let is_number = |row: &Row| matches!(row.cells[at], Ok(Cell::Number(_) | Cell::Missing));
        is_plain && self.rows.iter().all(is_number)
    }

    fn text(&self, tag: Tag, cell: Result<Cell, Refusal>, form: Form) -> String {
        match cell {
            Ok(Cell::Empty | Cell::Missing) => String::new(),
            Ok(Cell::Number(id)) if tag == Tag::ROW_ID => format!("{id:#x}"),
            Ok(Cell::Number(value)) if form == Form::OnScreen && tag.type_code() == TIME => {
                time(to_the_second(value))
            }
            Ok(Cell::Number(value)) => number(tag.type_code(), value),
            Ok(Cell::Subnode(subnode)) => format!("(in subnode {subnode})"),
            Ok(Cell::Item(item)) => self.item_text(tag, item, form),
            Err(refusal) => format!("(refused: {})", refusal.number()),
        }
    }

    fn item_text(&self, tag: Tag, item: ItemId, form: Form) -> String {
        match self.text_of(tag, item) {
            Some(text) if form == Form::AsStored && tag.type_code() != TEXT_8 => text.plain,
            Some(text) => text.shown,
            None => hex(self.bytes(item)),
        }
    }

    fn text_of(&self, tag: Tag, item: ItemId) -> Option<Text> {
        text_of(tag.type_code(), self.bytes(item), self.page)
    }

    /// Whether it is not known what some bytes of its texts stand for.
    fn has_unknown_text(&self) -> bool {
        let is_unknown = |(tag, cell): (&Tag, &Result<Cell, Refusal>)| match cell {
            Ok(Cell::Item(item)) => {
                let text = self.text_of(*tag, *item);
                text.is_some_and(|text| text.unknown.is_some())
            }
            _ => false,
        };
        let mut rows = self.rows.iter();
        rows.any(|row| self.tags.iter().zip(&row.cells).any(is_unknown))
    }

    /// The bytes of an item that a cell names, which the library has tested.
    fn bytes(&self, item: ItemId) -> &'a [u8] {
        self.table.heap().item(item).unwrap_or_default()
    }

    fn show(&self, out: &mut Output<'_>) -> Result<(), Failure> {
        let (grid, blank) = self.grid(Form::OnScreen).without_blank_columns();
        let widest = match stdout().is_terminal() {
            true => textwrap::termwidth(),
            false => usize::MAX,
        };
        let mut is_cut = false;
        for line in grid.lines() {
            let shown = cut(&line, widest);
            is_cut |= shown != line;
            out.row(shown)?;
        }
        out.row("")?;
        let rows = counted(self.rows.len() as u64, "row");
        let columns = counted(self.tags.len() as u64, "column");
        let left_out = match blank {
            0 => String::new(),
            _ => format!("; {} without any value not shown", HumanCount(blank as u64)),
        };
        out.line(format!("{rows}, {columns}{left_out}"))?;
        match is_cut {
            true => out.line("lines are cut to the terminal; behind | less -S they are whole"),
            false => Ok(()),
        }
    }
}

fn number_facts(tag: Tag, number: u64) -> Value {
    let mut facts = json!({ "number": number.to_string() });
    match (tag.type_code(), number) {
        (BOOLEAN, 0 | 1) => facts["boolean"] = (number == 1).into(),
        (TIME, _) => facts["time"] = time(number).into(),
        _ => {}
    }
    facts
}
