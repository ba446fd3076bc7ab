use crate::refusal::answered;
use crate::{Edition, Heap, ItemId, NodeId, Refusal, Tag};
use rekwonuda_sys::{self as sys, CellAnswer, RowAnswer, MOST_COLUMNS};
use std::iter::FusedIterator;

/// A table context: the bytes of one block with a heap on it, decoded, and where the rows stand in a
/// subnode, the bytes of that subnode's block.
///
/// Any bytes will do. Every call tests the table first: the shape of the heap (refusal 18), its client
/// kind (23), the number of the item that holds the table record (19), the record and all columns (23).
///
/// ```
/// use rekwonuda::{Cell, Image, NodeId, Table, Tag};
///
/// let bytes = std::fs::read("../../samples/office.pst")?;
/// let data = Image::new(&bytes).node_data(NodeId(0x802D))?.expect("it is there");
/// let folders = Table::new(&data);
/// let name = Tag::new(0x3001, 0x1F);
/// let row = folders.find_row(0x8082)?.expect("Inbox is one of these folders");
/// let Some(Cell::Item(item)) = folders.cell(row, name)? else { panic!("it has a name") };
/// assert_eq!(folders.heap().item(item)?, b"I\0n\0b\0o\0x\0");
/// # Ok::<(), Box<dyn std::error::Error>>(())
/// ```
#[derive(Clone, Copy, Debug)]
pub struct Table<'a> {
    block: &'a [u8],
    rows: Option<&'a [u8]>,
}

/// What the record of a table says, from [`Table::record`].
#[non_exhaustive]
#[derive(Clone, Copy, Debug, PartialEq, Eq)]
pub struct TableRecord {
    /// How many columns the table has.
    pub columns: u8,
    /// How many bytes a row has.
    pub row_size: u16,
    /// Where in a row its existence bytes begin; they go up to its end.
    pub existence: u16,
    /// Where the rows stand.
    pub rows: RowsPlace,
}

/// Where the rows of a table stand.
#[derive(Clone, Copy, Debug, PartialEq, Eq)]
pub enum RowsPlace {
    /// Nowhere: there are none.
    Nowhere,
    /// In this item of the heap. Its number is tested when rows are asked for.
    Item(ItemId),
    /// In this subnode, whose bytes [`Table::with_rows`] takes.
    Subnode(NodeId),
}

/// A column of a table.
#[non_exhaustive]
#[derive(Clone, Copy, Debug, PartialEq, Eq)]
pub struct Column {
    /// Its tag, which no other column of the table has.
    pub tag: Tag,
    /// Where in a row its cell begins.
    pub offset: u16,
    /// How many bytes its cell has.
    pub width: u8,
    /// Its existence bit: bit 0 is the highest of the first existence byte.
    pub bit: u8,
}

/// A cell of a table: its value, or where that stands.
#[derive(Clone, Copy, Debug, PartialEq, Eq)]
pub enum Cell {
    /// The value itself.
    Number(u64),
    /// No value: the row has the cell, and it is empty.
    Empty,
    /// The heap item that holds it; [`Heap::item`] of [`Table::heap`] accepts it.
    Item(ItemId),
    /// The subnode that holds it.
    Subnode(NodeId),
    /// No value: by its existence bit the row does not have the cell.
    Missing,
}

impl<'a> Table<'a> {
    /// Takes the bytes of a block as they are. Nothing is tested yet.
    #[must_use]
    pub const fn new(block: &'a [u8]) -> Self {
        Self { block, rows: None }
    }

    /// The same table with the bytes of the block that holds its rows. They are looked at only where
    /// the rows stand in a subnode, [`RowsPlace::Subnode`]; that these are the bytes of that subnode is
    /// for the caller to know.
    ///
    /// ```
    /// use rekwonuda::Table;
    ///
    /// # fn of_subnode(block: &[u8], rows: &[u8]) -> Result<(), rekwonuda::Refusal> {
    /// let table = Table::new(block).with_rows(rows);
    /// let row_count = table.row_count()?.expect("rows are given");
    /// # Ok(())
    /// # }
    /// # assert!(of_subnode(b"", b"").is_err());
    /// ```
    #[must_use]
    pub const fn with_rows(self, rows: &'a [u8]) -> Self {
        Self {
            rows: Some(rows),
            ..self
        }
    }

    /// The heap that the table stands on, for the items that hold its values.
    #[must_use]
    pub const fn heap(&self) -> Heap<'a> {
        Heap::new(self.block)
    }

    /// Tests the table and says what its record says.
    ///
    /// ```
    /// use rekwonuda::{Image, NodeId, RowsPlace, Table};
    ///
    /// let bytes = std::fs::read("../../samples/office.pst")?;
    /// let data = Image::new(&bytes).node_data(NodeId(0x802D))?.expect("it is there");
    /// let record = Table::new(&data).record()?;
    /// assert!(matches!(record.rows, RowsPlace::Item(_)));
    /// # Ok::<(), Box<dyn std::error::Error>>(())
    /// ```
    ///
    /// # Errors
    ///
    /// Refusals 18, 19 and 23.
    pub fn record(&self) -> Result<TableRecord, Refusal> {
        let answer = answered(sys::table(self.block))?;
        let number = answer.rows_value as u32;
        let rows = match answer.rows_kind {
            1 => RowsPlace::Nowhere,
            2 => RowsPlace::Item(ItemId(number)),
            _ => RowsPlace::Subnode(NodeId(number)),
        };
        Ok(TableRecord {
            columns: answer.columns as u8,
            row_size: answer.row_size as u16,
            existence: answer.existence as u16,
            rows,
        })
    }

    /// All columns in the order in which they are stored. A refusal, 18, 19 or 23, comes first, and
    /// nothing behind it.
    pub fn columns(&self) -> Columns<'a> {
        Columns {
            block: self.block,
            from: Some(0),
        }
    }

    /// The column of that tag, by a scan of all; `None` where there is none.
    ///
    /// # Errors
    ///
    /// Refusals 18, 19 and 23.
    pub fn find_column(&self, tag: Tag) -> Result<Option<Column>, Refusal> {
        let is_other = |column: &Result<Column, _>| column.is_ok_and(|column| column.tag != tag);
        self.columns().find(|column| !is_other(column)).transpose()
    }

    /// How many rows there are: as many as whole rows fit into the rows' bytes. `None` where the rows
    /// stand in a subnode and were not given by [`Table::with_rows`], so that the count is not known.
    ///
    /// # Errors
    ///
    /// Refusals 18, 19 and 23; 19 too where the rows stand in an item that the heap has not, 23 too where
    /// those of a subnode are over 8,180 bytes.
    pub fn row_count(&self) -> Result<Option<u32>, Refusal> {
        let in_subnode = || Ok(matches!(self.record()?.rows, RowsPlace::Subnode(_)));
        if self.rows.is_none() && in_subnode()? {
            return Ok(None);
        }
        let answer = answered(sys::count_rows(self.block, self.given_rows()))?;
        Ok(Some(answer.rows as u32))
    }

    /// The cell of a row, counted from 0, in the column of that tag. `None` where the table has no such
    /// row or no such column, and where [`Table::row_count`] is not known.
    ///
    /// # Errors
    ///
    /// As of [`Table::row_count`]; 19 too where the value stands in an item that the heap has not.
    pub fn cell(&self, row: u32, tag: Tag) -> Result<Option<Cell>, Refusal> {
        let answer = sys::cell(self.block, self.given_rows(), row, tag.0);
        answered(answer).map(|answer| Cell::of(&answer))
    }

    /// All cells of a row, counted from 0, in the order of the columns, by one call. Each is what
    /// [`Table::cell`] answers, a refusal too. `None` where the table has no such row, and where
    /// [`Table::row_count`] is not known.
    ///
    /// ```
    /// use rekwonuda::{Cell, Image, NodeId, Table, Tag};
    ///
    /// let bytes = std::fs::read("../../samples/office.pst")?;
    /// let data = Image::new(&bytes).node_data(NodeId(0x802D))?.expect("it is there");
    /// let folders = Table::new(&data);
    /// let cells = folders.row(0)?.expect("it has a row");
    /// for (column, cell) in folders.columns().zip(cells) {
    ///     if column?.tag == Tag::ROW_ID {
    ///         assert!(matches!(cell?, Cell::Number(0x8062)));
    ///     }
    /// }
    /// # Ok::<(), Box<dyn std::error::Error>>(())
    /// ```
    ///
    /// # Errors
    ///
    /// As of [`Table::row_count`]; of a single cell, 19 in its place.
    pub fn row(&self, row: u32) -> Result<Option<Vec<Result<Cell, Refusal>>>, Refusal> {
        let mut places = [[0; CellAnswer::WORDS]; MOST_COLUMNS];
        let area = places.as_flattened_mut();
        let answer = answered(sys::read_row(self.block, self.given_rows(), row, area))?;
        if answer.found == 0 {
            return Ok(None);
        }
        let places = places.iter().take(answer.cells as usize);
        let cells = places.map(|place| answered(CellAnswer::from_fields(*place)));
        // A place of a row that is there holds a cell or its refusal, and is never absent.
        let cells = cells.map(|answer| Ok(Cell::of(&answer?).unwrap_or(Cell::Missing)));
        Ok(Some(cells.collect()))
    }

    /// Looks up in the row index which row has that id: its number as stored, and `None` where the index
    /// names none. Whether the table has such a row, and that the row has that id, is not tested; it stands
    /// in the row's cell of [`Tag::ROW_ID`]. It is for tables of 64-bit files, whose row index has entries
    /// of four bytes.
    ///
    /// # Errors
    ///
    /// Refusals 18, 19 and 23, of the table and of the items of the row index on the way; 23 for the row
    /// index of a 32-bit file.
    pub fn find_row(&self, id: u32) -> Result<Option<u32>, Refusal> {
        row_of(sys::find_row(self.block, id))
    }

    /// The same for tables of 32-bit files, whose row index has entries of two bytes.
    ///
    /// # Errors
    ///
    /// As of [`Table::find_row`]; 23 for the row index of a 64-bit file.
    pub fn find_row32(&self, id: u32) -> Result<Option<u32>, Refusal> {
        row_of(sys::find_row32(self.block, id))
    }

    /// The same for a table of a file of that edition, which [`Header::edition`] says; a heap does not.
    ///
    /// ```
    /// use rekwonuda::{Image, NodeId, Table};
    ///
    /// for sample in ["office.pst", "small-office.pst"] {
    ///     let bytes = std::fs::read(format!("../../samples/{sample}"))?;
    ///     let image = Image::new(&bytes);
    ///     let edition = image.header()?.edition;
    ///     let data = image.node_data(NodeId(0x802D))?.expect("it is there");
    ///     let row = Table::new(&data).find_row_in(edition, 0x8082)?;
    ///     assert!(row.is_some(), "Inbox is one of these folders");
    /// }
    /// # Ok::<(), Box<dyn std::error::Error>>(())
    /// ```
    ///
    /// # Errors
    ///
    /// As of [`Table::find_row`] and [`Table::find_row32`].
    ///
    /// [`Header::edition`]: crate::Header::edition
    pub fn find_row_in(&self, edition: Edition, id: u32) -> Result<Option<u32>, Refusal> {
        match edition {
            Edition::Bits32 => self.find_row32(id),
            Edition::Bits64 => self.find_row(id),
        }
    }

    fn given_rows(&self) -> &'a [u8] {
        self.rows.unwrap_or_default()
    }
}

fn row_of(answer: RowAnswer) -> Result<Option<u32>, Refusal> {
    let answer = answered(answer)?;
    Ok((answer.found == 1).then_some(answer.row as u32))
}

impl Cell {
    fn of(answer: &CellAnswer) -> Option<Self> {
        let number = answer.value as u32;
        let cell = match answer.kind {
            0 => Cell::Number(answer.value),
            1 => Cell::Empty,
            2 => Cell::Item(ItemId(number)),
            3 => Cell::Subnode(NodeId(number)),
            _ => Cell::Missing,
        };
        (answer.found == 1).then_some(cell)
    }
}

/// All columns of a table, from [`Table::columns`]. A refusal comes first, and nothing behind it.
///
/// ```
/// use rekwonuda::{Column, Image, NodeId, Refusal, Table, Tag};
///
/// let bytes = std::fs::read("../../samples/office.pst")?;
/// let data = Image::new(&bytes).node_data(NodeId(0x802D))?.expect("it is there");
/// let columns: Result<Vec<Column>, Refusal> = Table::new(&data).columns().collect();
/// assert!(columns?.iter().any(|column| column.tag == Tag::ROW_ID));
/// # Ok::<(), Box<dyn std::error::Error>>(())
/// ```
#[derive(Clone, Debug)]
#[must_use = "an iterator does nothing until it is gone through"]
pub struct Columns<'a> {
    block: &'a [u8],
    from: Option<u32>,
}

impl Iterator for Columns<'_> {
    type Item = Result<Column, Refusal>;

    fn next(&mut self) -> Option<Self::Item> {
        let index = self.from.take()?;
        match answered(sys::column(self.block, index)) {
            Ok(answer) if answer.found == 0 => None,
            Ok(answer) => {
                self.from = Some(index + 1);
                Some(Ok(Column {
                    tag: Tag(answer.tag as u32),
                    offset: answer.offset as u16,
                    width: answer.width as u8,
                    bit: answer.bit as u8,
                }))
            }
            Err(refusal) => Some(Err(refusal)),
        }
    }
}

impl FusedIterator for Columns<'_> {}
