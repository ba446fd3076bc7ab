//! The calls that are timed, of the proved library and of the model. Each answers a number that tells its
//! work apart, so that two sides can be held to one another.

use rekwonuda_sys as proved;

/// One side's calls.
pub struct Calls {
    pub checksum: fn(&[u8]) -> u64,
    pub encode: fn(u8, u64, &mut [u8]) -> bool,
    pub decode: fn(u8, u64, &mut [u8]) -> bool,
    /// The offset of the node tree's root page.
    pub header: fn(&[u8]) -> u64,
    pub check_nodes: fn(&[u8]) -> bool,
    pub check_blocks: fn(&[u8]) -> bool,
    /// Of a lookup the pages read.
    pub find_node: fn(&[u8], u64) -> u64,
    pub next_node: fn(&[u8], u64) -> u64,
    pub find_nodes: fn(&[u8], &[u64], &mut [u64]) -> bool,
    pub find_block: fn(&[u8], u64) -> u64,
    pub test_block: fn(&[u8], u64) -> u64,
    pub read_block: fn(&[u8], u64, &mut [u8]) -> u64,
    pub read_node: fn(&[u8], u64, &mut [u8]) -> u64,
    /// The property's type.
    pub find_property: fn(&[u8], u16) -> u64,
    /// The size of a row.
    pub table: fn(&[u8]) -> u64,
    pub count_rows: fn(&[u8], &[u8]) -> u64,
    /// The value of a cell that is there.
    pub cell: fn(&[u8], &[u8], u32, u32) -> Option<u64>,
    pub find_row: fn(&[u8], u32) -> u64,
    pub read_row: fn(&[u8], &[u8], u32, &mut [u64]) -> bool,
}

pub static PROVED: Calls = Calls {
    checksum: proved::checksum,
    encode: |method, block, bytes| proved::encode(method, block, bytes).refusal == 0,
    decode: |method, block, bytes| proved::decode(method, block, bytes).refusal == 0,
    header: |image| proved::header(image).nodes_offset,
    check_nodes: |image| proved::check_nodes(image).refusal == 0,
    check_blocks: |image| proved::check_blocks(image).refusal == 0,
    find_node: |image, node| proved::find_node(image, node).pages,
    next_node: |image, from| proved::next_node(image, from).pages,
    find_nodes: |image, nodes, places| proved::find_nodes(image, nodes, places).refusal == 0,
    find_block: |image, block| proved::find_block(image, block).pages,
    test_block: |image, block| proved::test_block(image, block).size,
    read_block: |image, block, out| proved::read_block(image, block, out).length,
    read_node: |image, node, out| proved::read_node(image, node, out).length,
    find_property: |block, id| proved::find_property(block, id).type_code,
    table: |block| proved::table(block).row_size,
    count_rows: |block, rows| proved::count_rows(block, rows).rows,
    cell: |block, rows, row, tag| {
        let cell = proved::cell(block, rows, row, tag);
        (cell.found == 1).then_some(cell.value)
    },
    find_row: |block, id| proved::find_row(block, id).row,
    read_row: |block, rows, row, area| proved::read_row(block, rows, row, area).found == 1,
};

pub static MODEL: Calls = Calls {
    checksum: |bytes| model::checksum(bytes).into(),
    encode: |method, block, bytes| model::encode(method, block, bytes).is_ok(),
    decode: |method, block, bytes| model::decode(method, block, bytes).is_ok(),
    header: |image| model::header(image).map_or(0, |header| header.nodes.offset),
    check_nodes: |image| model::check_nodes(image).is_ok(),
    check_blocks: |image| model::check_blocks(image).is_ok(),
    find_node: |image, node| model::find_node(image, node).map_or(0, |found| pages(&found)),
    next_node: |image, from| model::next_node(image, from).map_or(0, |found| pages(&found)),
    find_nodes: |image, nodes, places| model::find_nodes(image, nodes, places).is_ok(),
    find_block: |image, block| model::find_block(image, block).map_or(0, |found| pages(&found)),
    test_block: |image, block| model::test_block(image, block).map_or(0, u64::from),
    read_block: |image, block, out| {
        let read = model::read_block(image, block, out);
        read.map_or(0, |length| length as u64)
    },
    read_node: |image, node, out| {
        let read = model::read_node(image, node, out).ok().flatten();
        read.map_or(0, |length| length as u64)
    },
    find_property: |block, id| {
        let found = model::find_property(block, id).ok().flatten();
        found.map_or(0, |property| property.kind.into())
    },
    table: |block| model::table(block).map_or(0, |table| table.row_size.into()),
    count_rows: |block, rows| model::count_rows(block, rows).map_or(0, |rows| rows as u64),
    cell: |block, rows, row, tag| {
        let cell = model::cell(block, rows, row, tag).ok().flatten();
        cell.map(value)
    },
    find_row: |block, id| row_of(model::find_row(block, id)),
    read_row: |block, rows, row, area| {
        model::read_row(block, rows, row, area).is_ok_and(|cells| cells.is_some())
    },
};

/// The call for the row index of 32-bit files, of both sides; no former library has it.
pub const FIND_ROW_32: [fn(&[u8], u32) -> u64; 2] = [
    |block, id| proved::find_row32(block, id).row,
    |block, id| row_of(model::find_row32(block, id)),
];

fn row_of(row: model::Answer<Option<u32>>) -> u64 {
    row.ok().flatten().map_or(0, u64::from)
}

fn pages<T>(lookup: &model::Lookup<T>) -> u64 {
    match lookup {
        model::Lookup::Found { pages, .. } | model::Lookup::Absent { pages } => *pages,
    }
}

fn value(cell: model::Cell) -> u64 {
    match cell {
        model::Cell::Number(number) => number,
        model::Cell::Item(number) | model::Cell::Subnode(number) => u64::from(number),
        model::Cell::Empty | model::Cell::Missing => 0,
    }
}
