//! Damage to tables: a kind for each rule, which alone is broken, and beside it the like of it that is
//! still allowed.

mod columns;
mod row_index;

use crate::build::items::lay_out;
use crate::build::tables::{put_row, record, Layout, PlacedTable};
use crate::bytes::u16_at;
use crate::edition::Edition;
use crate::heap::{MOST_HEAP, MOST_ITEMS};
use crate::random::Random;
use crate::table::{Cell, Rows, MOST_ROWS, TABLE};

kinds! {
    TableDamage {
        HEAP [
            MapEnd,
            ClientKind,
            UserRoot,
        ]
        RECORD [
            RecordMark,
            RecordLonger,
            RecordShorter,
            RecordHead,
            ColumnCount,
            ExistencePastRow,
            EmptyRow,
        ]
        COLUMNS [
            ColumnPastRow,
            BitPastRow,
            NumberWidth,
            ReferenceWidth,
            ReferenceType,
            TagNeighbours,
            TagEnds,
            ByteNeighbours,
            ByteEnds,
            BitNeighbours,
            BitEnds,
        ]
        ROWS [
            RowsItem,
            RowsLonger,
        ]
        CELLS [
            CellItem,
        ]
        ROW_INDEX [
            IndexItem,
            IndexRecordLength,
            IndexMark,
            IndexKeySize,
            IndexEntrySize,
            IndexLevels,
            IndexRoot,
            IndexChild,
            IndexNoRecords,
            IndexPartRecord,
            IndexKeyEqual,
            IndexKeyFalling,
            IndexKeyBelow,
            IndexKeyAtEnd,
        ]
    }
}

use TableDamage::*;

impl TableDamage {
    pub fn all() -> impl Iterator<Item = TableDamage> {
        let groups = [HEAP, RECORD, COLUMNS, ROWS, CELLS, ROW_INDEX];
        groups.into_iter().flatten().copied()
    }

    /// What it leads to.
    pub fn refusal(self) -> u64 {
        match self {
            MapEnd => 18,
            UserRoot | RowsItem | CellItem | IndexItem | IndexRoot | IndexChild => 19,
            _ => 23,
        }
    }
}

/// On which side of the line that a rule draws.
#[derive(Clone, Copy, PartialEq, Eq, Debug)]
pub enum Side {
    Refused,
    Allowed,
}

/// A table's block and the block of its rows, with what is worth asking.
#[derive(Clone, Debug)]
pub struct SpoiltTable {
    pub block: Vec<u8>,
    pub rows: Vec<u8>,
    pub row_numbers: Vec<u32>,
    pub tags: Vec<u32>,
    pub ids: Vec<u32>,
}

/// Nothing where the table has nothing that the damage could act on, or no room for it. Of the rows only
/// the first few stay; the row index is made anew.
pub fn spoil_table(
    placed: &PlacedTable,
    damage: TableDamage,
    side: Side,
    random: &mut Random,
) -> Option<SpoiltTable> {
    let mut spoiler = Spoiler::new(placed, side, random);
    spoiler.spoil_row_index(damage);
    if HEAP.contains(&damage) || RECORD.contains(&damage) {
        spoiler.spoil_record(damage);
    } else if COLUMNS.contains(&damage) {
        spoiler.spoil_columns(damage)?;
    } else if ROWS.contains(&damage) {
        spoiler.spoil_rows(damage);
    } else if CELLS.contains(&damage) {
        spoiler.spoil_cell()?;
    }
    spoiler.finish()
}

/// A byte anywhere changed, or the block cut, without a thought for the rules.
pub fn spoil_anywhere(placed: &PlacedTable, random: &mut Random) -> SpoiltTable {
    let (mut block, mut rows) = (placed.block.clone(), placed.rows.clone());
    match random.below(8) {
        0 => block.truncate(random.below(placed.block.len())),
        1 if !rows.is_empty() => rows.truncate(random.below(placed.rows.len())),
        2 if !rows.is_empty() => flip(random, &mut rows),
        _ => flip(random, &mut block),
    }
    let ids = placed.row_index.keys().take(4);
    SpoiltTable {
        block,
        rows,
        row_numbers: vec![0, 1],
        tags: placed.columns.iter().map(|column| column.tag).collect(),
        ids: ids.copied().collect(),
    }
}

fn flip(random: &mut Random, bytes: &mut [u8]) {
    let at = random.below(bytes.len());
    bytes[at] ^= 1 << random.below(8);
}

const MOST_KEPT: usize = 3;

struct Spoiler<'a> {
    random: &'a mut Random,
    edition: Edition,
    side: Side,
    items: Vec<Vec<u8>>,
    kind: u8,
    user_root: u32,
    /// The item that holds the record.
    record_item: u32,
    /// What the record says.
    mark: u8,
    layout: Layout,
    row_index: u32,
    rows: Rows,
    /// How many columns the record claims beyond those that it has.
    more_columns: i8,
    /// How many bytes the record has beyond those that it should have.
    more_bytes: isize,
    /// How many bytes of the map are cut off.
    cut: Option<usize>,
    cells: Vec<Vec<Cell>>,
    /// The item that holds the rows, where one does.
    rows_item: Option<u32>,
    /// The length of the rows' block, where it is not that of the rows.
    rows_length: Option<usize>,
    tags: Vec<u32>,
    ids: Vec<u32>,
}

impl<'a> Spoiler<'a> {
    fn new(placed: &PlacedTable, side: Side, random: &'a mut Random) -> Self {
        let record = &placed.items[(placed.user_root >> 5) as usize - 1];
        let ends = [2, 4, 6, 8].map(|at| u16_at(record, at));
        let rows = placed.table.rows;
        Self {
            random,
            edition: placed.edition,
            side,
            items: placed.items.clone(),
            kind: TABLE,
            user_root: placed.user_root,
            record_item: placed.user_root,
            mark: TABLE,
            layout: Layout {
                columns: placed.columns.clone(),
                ends,
            },
            row_index: placed.row_index_item,
            rows,
            more_columns: 0,
            more_bytes: 0,
            cut: None,
            cells: placed.cells.iter().take(MOST_KEPT).cloned().collect(),
            rows_item: match rows {
                Rows::Item(item) => Some(item),
                _ => None,
            },
            rows_length: None,
            tags: placed.columns.iter().map(|column| column.tag).collect(),
            ids: placed.row_index.keys().take(4).copied().collect(),
        }
    }

    fn refused(&self) -> bool {
        self.side == Side::Refused
    }

    fn add(&mut self, item: Vec<u8>) -> u32 {
        self.items.push(item);
        (self.items.len() as u32) << 5
    }

    fn set(&mut self, number: u32, item: Vec<u8>) {
        self.items[(number >> 5) as usize - 1] = item;
    }

    /// A number with low bits zero that no item has.
    fn wrong_item(&mut self) -> u32 {
        let behind = self.items.len() + 1;
        if behind <= MOST_ITEMS && self.random.one_in(2) {
            (behind as u32) << 5
        } else {
            0x20 | 0x1_0000 << self.random.below(16)
        }
    }

    /// Such a number, or one whose low bits are not zero, or 0.
    fn wrong_number(&mut self) -> u32 {
        match self.random.below(6) {
            0 => 0,
            1 | 2 => 0x20 | 1 << self.random.below(5),
            _ => self.wrong_item(),
        }
    }

    fn spoil_record(&mut self, damage: TableDamage) {
        let refused = self.refused();
        match damage {
            MapEnd => self.cut = Some(usize::from(refused)),
            ExistencePastRow | EmptyRow => self.spoil_ends(damage),
            UserRoot if !refused => {
                self.record_item = self.add(Vec::new());
                self.user_root = self.record_item;
            }
            _ if !refused => {}
            ClientKind => self.kind = self.random.one_of([0xBC, 0xB5, 0, 0x7D, 0xFC]),
            UserRoot => self.user_root = self.wrong_number(),
            RecordMark => self.mark ^= 1 << self.random.below(8),
            RecordLonger => self.more_bytes = self.random.one_of([1, 7, 8]),
            RecordShorter => self.more_bytes = self.random.one_of([-1, -4]),
            RecordHead => {
                self.remove_columns();
                self.more_bytes = self.random.one_of([-1, -2, -21, -22]);
            }
            _ => self.more_columns = self.random.one_of([1, -1]),
        }
    }

    fn remove_columns(&mut self) {
        self.layout.columns.clear();
        self.cells.iter_mut().for_each(Vec::clear);
    }

    /// Without columns, so that only the ends can tell.
    fn spoil_ends(&mut self, damage: TableDamage) {
        self.remove_columns();
        let ends = &mut self.layout.ends;
        if damage == EmptyRow {
            ends[2] = 0;
            ends[3] = u16::from(self.side == Side::Allowed);
            self.cells.clear();
        } else {
            ends[2] = ends[3] + u16::from(self.side == Side::Refused);
        }
    }

    fn spoil_rows(&mut self, damage: TableDamage) {
        if damage == RowsLonger {
            self.rows = Rows::Subnode(0x3F);
            self.rows_item = None;
            self.rows_length = Some(MOST_ROWS + usize::from(self.refused()));
        } else if self.refused() {
            self.rows = Rows::Item(self.wrong_item());
            self.rows_item = None;
        } else {
            let item = self.add(Vec::new());
            (self.rows, self.rows_item) = (Rows::Item(item), Some(item));
        }
    }

    fn spoil_cell(&mut self) -> Option<()> {
        let item = if self.refused() {
            self.wrong_item()
        } else {
            (self.items.len() as u32) << 5
        };
        let is_item = |cell: &&mut Cell| matches!(cell, Cell::Item(_));
        let cells = self.cells.iter_mut().flatten().filter(is_item);
        *cells.last()? = Cell::Item(item);
        Some(())
    }

    fn finish(mut self) -> Option<SpoiltTable> {
        let rows = self.place_rows();
        let record = self.record();
        self.set(self.record_item, record);
        let mut block = lay_out(self.random, &self.items, self.kind, self.user_root, false);
        if let Some(cut) = self.cut {
            let map_end = usize::from(u16_at(&block, 0)) + 4 + 2 * (self.items.len() + 1);
            block.truncate(map_end - cut);
        }
        let fits = block.len() <= MOST_HEAP && self.items.len() <= MOST_ITEMS;
        for column in &self.layout.columns {
            if !self.tags.contains(&column.tag) {
                self.tags.push(column.tag);
            }
        }
        fits.then_some(SpoiltTable {
            block,
            rows,
            row_numbers: (0..self.cells.len() as u32).collect(),
            tags: self.tags,
            ids: self.ids,
        })
    }

    /// The bytes of the rows' block, where they lie in a subnode.
    fn place_rows(&mut self) -> Vec<u8> {
        let mut bytes = Vec::new();
        for cells in &self.cells {
            let mut row = vec![0; usize::from(self.layout.ends[3])];
            put_row(&self.layout, &mut row, cells);
            bytes.extend_from_slice(&row);
        }
        if let Some(length) = self.rows_length {
            bytes.resize(length, 0);
        }
        match (self.rows, self.rows_item) {
            (_, Some(item)) => {
                self.set(item, bytes);
                Vec::new()
            }
            (Rows::Subnode(_), None) => bytes,
            _ => Vec::new(),
        }
    }

    fn record(&self) -> Vec<u8> {
        let mut record = record(&self.layout, self.row_index, self.rows);
        record[0] = self.mark;
        record[1] = record[1].wrapping_add_signed(self.more_columns);
        let length = record.len().saturating_add_signed(self.more_bytes);
        record.resize(length, 0);
        record
    }
}
