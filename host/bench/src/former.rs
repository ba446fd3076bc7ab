//! The calls of a former archive, which the build script links where it is named, for a measurement of the
//! one beside the other.

use crate::calls::Calls;
use rekwonuda_sys::{
    Answer, BlockAnswer, CellAnswer, CellsAnswer, CountAnswer, DataAnswer, HeaderAnswer,
    LengthAnswer, NodeAnswer, PropertyAnswer, RowAnswer, SizeAnswer, TableAnswer,
};

/// Declares the former calls, which answer as the present ones do.
macro_rules! former {
    ($($name:ident($($argument:ident: $kind:ty),*) -> $answer:ty;)*) => {
        extern "C" {
            $(fn $name($($argument: $kind),*) -> $answer;)*
        }
    };
}

former! {
    former_rkw_checksum(bytes: *const u8, len: usize) -> u64;
    former_rkw_encode(method: u8, block: u64, bytes: *mut u8, len: usize) -> Answer;
    former_rkw_decode(method: u8, block: u64, bytes: *mut u8, len: usize) -> Answer;
    former_rkw_header(image: *const u8, len: usize) -> HeaderAnswer;
    former_rkw_check_nodes(image: *const u8, len: usize) -> Answer;
    former_rkw_check_blocks(image: *const u8, len: usize) -> Answer;
    former_rkw_find_node(image: *const u8, len: usize, node: u64) -> NodeAnswer;
    former_rkw_next_node(image: *const u8, len: usize, from: u64) -> NodeAnswer;
    former_rkw_find_nodes(image: *const u8, len: usize, nodes: *const u64, count: usize,
        places: *mut u64, words: usize) -> Answer;
    former_rkw_find_block(image: *const u8, len: usize, block: u64) -> BlockAnswer;
    former_rkw_test_block(image: *const u8, len: usize, block: u64) -> SizeAnswer;
    former_rkw_read_block(image: *const u8, len: usize, block: u64, out: *mut u8,
        out_len: usize) -> LengthAnswer;
    former_rkw_read_node(image: *const u8, len: usize, node: u64, out: *mut u8,
        out_len: usize) -> DataAnswer;
    former_rkw_find_property(block: *const u8, len: usize, id: u16) -> PropertyAnswer;
    former_rkw_table(block: *const u8, len: usize) -> TableAnswer;
    former_rkw_count_rows(block: *const u8, len: usize, rows: *const u8,
        rows_len: usize) -> CountAnswer;
    former_rkw_cell(block: *const u8, len: usize, rows: *const u8, rows_len: usize, row: u32,
        tag: u32) -> CellAnswer;
    former_rkw_find_row(block: *const u8, len: usize, id: u32) -> RowAnswer;
    former_rkw_read_row(block: *const u8, len: usize, rows: *const u8, rows_len: usize, row: u32,
        places: *mut u64, words: usize) -> CellsAnswer;
}

/// A former call over slices: each slice is passed as its pointer and its length.
macro_rules! call {
    ($name:ident, $slice:ident $(, $number:ident)*) => {
        // SAFETY: the pointer and the length are those of one slice.
        unsafe { $name($slice.as_ptr(), $slice.len() $(, $number)*) }
    };
}

pub static FORMER: Calls = Calls {
    checksum: |bytes| call!(former_rkw_checksum, bytes),
    // SAFETY: the pointer and the length are those of one slice, borrowed for writing alone.
    encode: |method, block, bytes| unsafe {
        former_rkw_encode(method, block, bytes.as_mut_ptr(), bytes.len()).refusal == 0
    },
    // SAFETY: the pointer and the length are those of one slice, borrowed for writing alone.
    decode: |method, block, bytes| unsafe {
        former_rkw_decode(method, block, bytes.as_mut_ptr(), bytes.len()).refusal == 0
    },
    header: |image| call!(former_rkw_header, image).nodes_offset,
    check_nodes: |image| call!(former_rkw_check_nodes, image).refusal == 0,
    check_blocks: |image| call!(former_rkw_check_blocks, image).refusal == 0,
    find_node: |image, node| call!(former_rkw_find_node, image, node).pages,
    next_node: |image, from| call!(former_rkw_next_node, image, from).pages,
    find_nodes: |image, nodes, places| {
        let (start, words) = (places.as_mut_ptr(), places.len());
        let (list, count) = (nodes.as_ptr(), nodes.len());
        call!(former_rkw_find_nodes, image, list, count, start, words).refusal == 0
    },
    find_block: |image, block| call!(former_rkw_find_block, image, block).pages,
    test_block: |image, block| call!(former_rkw_test_block, image, block).size,
    read_block: |image, block, out| {
        let (start, length) = (out.as_mut_ptr(), out.len());
        call!(former_rkw_read_block, image, block, start, length).length
    },
    read_node: |image, node, out| {
        let (start, length) = (out.as_mut_ptr(), out.len());
        call!(former_rkw_read_node, image, node, start, length).length
    },
    find_property: |block, id| call!(former_rkw_find_property, block, id).type_code,
    table: |block| call!(former_rkw_table, block).row_size,
    count_rows: |block, rows| {
        let (start, length) = (rows.as_ptr(), rows.len());
        call!(former_rkw_count_rows, block, start, length).rows
    },
    cell: |block, rows, row, tag| {
        let (start, length) = (rows.as_ptr(), rows.len());
        let cell = call!(former_rkw_cell, block, start, length, row, tag);
        (cell.found == 1).then_some(cell.value)
    },
    find_row: |block, id| call!(former_rkw_find_row, block, id).row,
    read_row: |block, rows, row, area| {
        let (start, length) = (rows.as_ptr(), rows.len());
        let (places, words) = (area.as_mut_ptr(), area.len());
        call!(
            former_rkw_read_row,
            block,
            start,
            length,
            row,
            places,
            words
        )
        .found
            == 1
    },
};
