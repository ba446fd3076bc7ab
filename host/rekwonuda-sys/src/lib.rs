//! The calls of `include/rekwonuda.h`, the C face of the proved library, over slices.
//!
//! Each function here is the call `rkw_` of the same name, and answers the same struct: numbers, with a
//! refusal that is 0 where the call is answered. The header says what they mean. Crate `rekwonuda` puts
//! Rust's types on top.
//!
//! This is the only crate with `unsafe` code. The header asks a caller for three things: a pointer that
//! is not null with its true length, an image, block or rows that do not change during the call, and a
//! buffer or area that does not overlap them. A `&` slice and a `&mut` slice are just that.
//!
//! ```
//! let answer = rekwonuda_sys::header(b"no image");
//! assert_eq!((answer.refusal, answer.place), (1, 0));
//! assert_eq!(rekwonuda_sys::checksum(&[0x80]), 0xEDB8_8320);
//! ```
#![deny(missing_docs)]
#![warn(clippy::must_use_candidate)]

mod answers;

use std::ffi::{c_char, CStr};

pub use answers::{
    Answer, Answered, BlockAnswer, CellAnswer, CellsAnswer, ColumnAnswer, CountAnswer, DataAnswer,
    HeaderAnswer, ItemAnswer, LengthAnswer, NodeAnswer, PropertyAnswer, RowAnswer, SizeAnswer,
    TableAnswer,
};

extern "C" {
    fn rkw_header(image: *const u8, len: usize) -> HeaderAnswer;
    fn rkw_check_nodes(image: *const u8, len: usize) -> Answer;
    fn rkw_check_blocks(image: *const u8, len: usize) -> Answer;
    fn rkw_find_node(image: *const u8, len: usize, node: u64) -> NodeAnswer;
    fn rkw_find_nodes(
        image: *const u8,
        len: usize,
        nodes: *const u64,
        count: usize,
        places: *mut u64,
        words: usize,
    ) -> Answer;
    fn rkw_find_block(image: *const u8, len: usize, block: u64) -> BlockAnswer;
    fn rkw_next_node(image: *const u8, len: usize, from: u64) -> NodeAnswer;
    fn rkw_next_block(image: *const u8, len: usize, from: u64) -> BlockAnswer;
    fn rkw_test_block(image: *const u8, len: usize, block: u64) -> SizeAnswer;
    fn rkw_read_block(
        image: *const u8,
        len: usize,
        block: u64,
        out: *mut u8,
        out_len: usize,
    ) -> LengthAnswer;
    fn rkw_read_node(
        image: *const u8,
        len: usize,
        node: u64,
        out: *mut u8,
        out_len: usize,
    ) -> DataAnswer;
    fn rkw_encode(method: u8, block: u64, bytes: *mut u8, len: usize) -> Answer;
    fn rkw_decode(method: u8, block: u64, bytes: *mut u8, len: usize) -> Answer;
    fn rkw_test_heap(block: *const u8, len: usize) -> Answer;
    fn rkw_test_item(block: *const u8, len: usize, item: u32) -> Answer;
    fn rkw_item(block: *const u8, len: usize, item: u32) -> ItemAnswer;
    fn rkw_find_property(block: *const u8, len: usize, id: u16) -> PropertyAnswer;
    fn rkw_table(block: *const u8, len: usize) -> TableAnswer;
    fn rkw_column(block: *const u8, len: usize, index: u32) -> ColumnAnswer;
    fn rkw_count_rows(
        block: *const u8,
        len: usize,
        rows: *const u8,
        rows_len: usize,
    ) -> CountAnswer;
    fn rkw_cell(
        block: *const u8,
        len: usize,
        rows: *const u8,
        rows_len: usize,
        row: u32,
        tag: u32,
    ) -> CellAnswer;
    fn rkw_find_row(block: *const u8, len: usize, id: u32) -> RowAnswer;
    fn rkw_find_row32(block: *const u8, len: usize, id: u32) -> RowAnswer;
    fn rkw_read_row(
        block: *const u8,
        len: usize,
        rows: *const u8,
        rows_len: usize,
        row: u32,
        places: *mut u64,
        words: usize,
    ) -> CellsAnswer;
    fn rkw_checksum(bytes: *const u8, len: usize) -> u64;
    fn rkw_signature(offset: u64, number: u64) -> u64;
    fn rkw_room(size: u32) -> u64;
    fn rkw_room32(size: u32) -> u64;
    fn rkw_version() -> u64;
    fn rkw_refusal_words(refusal: u64, place: u64) -> *const c_char;
}

/// Tests the header and says what stands in it. Refusals 1 to 5.
pub fn header(image: &[u8]) -> HeaderAnswer {
    // SAFETY: the pointer and the length are those of one slice.
    unsafe { rkw_header(image.as_ptr(), image.len()) }
}

/// Checks the header and then the whole node tree. Refusals 1 to 11, and 21.
pub fn check_nodes(image: &[u8]) -> Answer {
    // SAFETY: the pointer and the length are those of one slice.
    unsafe { rkw_check_nodes(image.as_ptr(), image.len()) }
}

/// Checks the header and then the whole block tree. Refusals 1 to 11, and 21.
pub fn check_blocks(image: &[u8]) -> Answer {
    // SAFETY: the pointer and the length are those of one slice.
    unsafe { rkw_check_blocks(image.as_ptr(), image.len()) }
}

/// Looks up a node by the low four bytes of its number. Refusals 1 to 11, and 21.
pub fn find_node(image: &[u8], node: u64) -> NodeAnswer {
    // SAFETY: the pointer and the length are those of one slice.
    unsafe { rkw_find_node(image.as_ptr(), image.len(), node) }
}

/// The most nodes that [`find_nodes`] looks up in one call.
pub const MOST_NODES: usize = 4_096;

/// Looks up a list of at most [`MOST_NODES`] nodes, each as [`find_node`] does, and puts the fields of
/// each answer into a place of [`NodeAnswer::WORDS`] words, in the order of the list. Refusal 17.
///
/// ```
/// use rekwonuda_sys::{find_node, find_nodes, NodeAnswer};
///
/// let image = std::fs::read("../../samples/mini.img")?;
/// let mut places = [[0; NodeAnswer::WORDS]; 2];
/// assert_eq!(find_nodes(&image, &[0x122, 0x20], places.as_flattened_mut()).refusal, 0);
/// assert_eq!(NodeAnswer::from_fields(places[0]), find_node(&image, 0x122));
/// assert_eq!(NodeAnswer::from_fields(places[1]).found, 0);
/// # Ok::<(), std::io::Error>(())
/// ```
pub fn find_nodes(image: &[u8], nodes: &[u64], places: &mut [u64]) -> Answer {
    let (start, words) = (places.as_mut_ptr(), places.len());
    // SAFETY: each pointer and its length are those of one slice, and `places` is borrowed for writing alone.
    unsafe {
        rkw_find_nodes(
            image.as_ptr(),
            image.len(),
            nodes.as_ptr(),
            nodes.len(),
            start,
            words,
        )
    }
}

/// Looks up a block by its number, bit 0 left out. Refusals 1 to 11, and 21.
pub fn find_block(image: &[u8], block: u64) -> BlockAnswer {
    // SAFETY: the pointer and the length are those of one slice.
    unsafe { rkw_find_block(image.as_ptr(), image.len(), block) }
}

/// Looks up the first node whose number is at least `from`. Refusals 1 to 11, and 21.
pub fn next_node(image: &[u8], from: u64) -> NodeAnswer {
    // SAFETY: the pointer and the length are those of one slice.
    unsafe { rkw_next_node(image.as_ptr(), image.len(), from) }
}

/// Looks up the first block whose number, with bit 0 cleared, is at least `from` as given. Refusals 1
/// to 11, and 21.
pub fn next_block(image: &[u8], from: u64) -> BlockAnswer {
    // SAFETY: the pointer and the length are those of one slice.
    unsafe { rkw_next_block(image.as_ptr(), image.len(), from) }
}

/// Looks up a block and tests its place, trailer and checksum. Refusals 1 to 15, and 21.
pub fn test_block(image: &[u8], block: u64) -> SizeAnswer {
    // SAFETY: the pointer and the length are those of one slice.
    unsafe { rkw_test_block(image.as_ptr(), image.len(), block) }
}

/// Tests a block and puts its bytes, decoded, at the front of `out`. Refusals 1 to 15, 17
/// and 21.
pub fn read_block(image: &[u8], block: u64, out: &mut [u8]) -> LengthAnswer {
    let (start, length) = (out.as_mut_ptr(), out.len());
    // SAFETY: each pointer and its length are those of one slice, and `out` is borrowed for writing alone.
    unsafe { rkw_read_block(image.as_ptr(), image.len(), block, start, length) }
}

/// Looks up a node and puts its data at the front of `out`. Refusals 1 to 17, and 21.
pub fn read_node(image: &[u8], node: u64, out: &mut [u8]) -> DataAnswer {
    let (start, length) = (out.as_mut_ptr(), out.len());
    // SAFETY: each pointer and its length are those of one slice, and `out` is borrowed for writing alone.
    unsafe { rkw_read_node(image.as_ptr(), image.len(), node, start, length) }
}

/// Encodes the bytes in place as the data of that block. Refusal 5.
pub fn encode(method: u8, block: u64, bytes: &mut [u8]) -> Answer {
    // SAFETY: the pointer and the length are those of one slice, borrowed for writing alone.
    unsafe { rkw_encode(method, block, bytes.as_mut_ptr(), bytes.len()) }
}

/// Decodes the bytes in place as the data of that block. Refusal 5.
pub fn decode(method: u8, block: u64, bytes: &mut [u8]) -> Answer {
    // SAFETY: the pointer and the length are those of one slice, borrowed for writing alone.
    unsafe { rkw_decode(method, block, bytes.as_mut_ptr(), bytes.len()) }
}

/// Tests the shape of the heap on the block. Refusal 18.
pub fn test_heap(block: &[u8]) -> Answer {
    // SAFETY: the pointer and the length are those of one slice.
    unsafe { rkw_test_heap(block.as_ptr(), block.len()) }
}

/// Tests the heap and then the number of an item. Refusals 18 and 19.
pub fn test_item(block: &[u8], item: u32) -> Answer {
    // SAFETY: the pointer and the length are those of one slice.
    unsafe { rkw_test_item(block.as_ptr(), block.len(), item) }
}

/// Says where an item stands in the block. Refusals 18 and 19.
pub fn item(block: &[u8], item: u32) -> ItemAnswer {
    // SAFETY: the pointer and the length are those of one slice.
    unsafe { rkw_item(block.as_ptr(), block.len(), item) }
}

/// Looks up a property by its id. Refusals 18 to 20.
pub fn find_property(block: &[u8], id: u16) -> PropertyAnswer {
    // SAFETY: the pointer and the length are those of one slice.
    unsafe { rkw_find_property(block.as_ptr(), block.len(), id) }
}

/// Tests the table on the block and says what its record says. Refusals 18, 19 and 23.
pub fn table(block: &[u8]) -> TableAnswer {
    // SAFETY: the pointer and the length are those of one slice.
    unsafe { rkw_table(block.as_ptr(), block.len()) }
}

/// The column of that index, in stored order. Refusals 18, 19 and 23.
pub fn column(block: &[u8], index: u32) -> ColumnAnswer {
    // SAFETY: the pointer and the length are those of one slice.
    unsafe { rkw_column(block.as_ptr(), block.len(), index) }
}

/// Counts the rows. `rows` is looked at only where they stand in a subnode. Refusals 18, 19 and 23.
pub fn count_rows(block: &[u8], rows: &[u8]) -> CountAnswer {
    // SAFETY: each pointer and its length are those of one slice.
    unsafe { rkw_count_rows(block.as_ptr(), block.len(), rows.as_ptr(), rows.len()) }
}

/// The cell of a row in the column of that tag. Refusals 18, 19 and 23.
pub fn cell(block: &[u8], rows: &[u8], row: u32, tag: u32) -> CellAnswer {
    let (start, length) = (rows.as_ptr(), rows.len());
    // SAFETY: each pointer and its length are those of one slice.
    unsafe { rkw_cell(block.as_ptr(), block.len(), start, length, row, tag) }
}

/// Looks up in the row index of a table of a 64-bit file which row has that id. Refusals 18, 19 and 23.
pub fn find_row(block: &[u8], id: u32) -> RowAnswer {
    // SAFETY: the pointer and the length are those of one slice.
    unsafe { rkw_find_row(block.as_ptr(), block.len(), id) }
}

/// The same in a table of a 32-bit file. Refusals 18, 19 and 23.
pub fn find_row32(block: &[u8], id: u32) -> RowAnswer {
    // SAFETY: the pointer and the length are those of one slice.
    unsafe { rkw_find_row32(block.as_ptr(), block.len(), id) }
}

/// The most columns that a table has, and so the most places that [`read_row`] fills.
pub const MOST_COLUMNS: usize = 255;

/// Puts all cells of a row, each as [`cell`] answers it, into places of [`CellAnswer::WORDS`] words, in
/// the order of the columns. Refusals 17, 18, 19 and 23.
///
/// ```
/// use rekwonuda_sys::{read_row, CellAnswer, MOST_COLUMNS};
///
/// let mut places = [[0; CellAnswer::WORDS]; MOST_COLUMNS];
/// let answer = read_row(b"no table", b"", 0, places.as_flattened_mut());
/// assert_eq!((answer.refusal, answer.cells), (18, 0));
/// ```
pub fn read_row(block: &[u8], rows: &[u8], row: u32, places: &mut [u64]) -> CellsAnswer {
    let (start, words) = (places.as_mut_ptr(), places.len());
    // SAFETY: each pointer and its length are those of one slice, and `places` is borrowed for writing alone.
    unsafe {
        rkw_read_row(
            block.as_ptr(),
            block.len(),
            rows.as_ptr(),
            rows.len(),
            row,
            start,
            words,
        )
    }
}

/// The checksum of the bytes. Under 2^32.
#[must_use]
pub fn checksum(bytes: &[u8]) -> u64 {
    // SAFETY: the pointer and the length are those of one slice.
    unsafe { rkw_checksum(bytes.as_ptr(), bytes.len()) }
}

/// The signature of a page or block at that offset and with that number. Under 65,536.
#[must_use]
pub fn signature(offset: u64, number: u64) -> u64 {
    // SAFETY: the call takes numbers alone, and any will do.
    unsafe { rkw_signature(offset, number) }
}

/// The room that a block with so many bytes of data takes in a 64-bit file.
#[must_use]
pub fn room(size: u32) -> u64 {
    // SAFETY: the call takes a number alone, and any will do.
    unsafe { rkw_room(size) }
}

/// The same in a 32-bit file.
#[must_use]
pub fn room32(size: u32) -> u64 {
    // SAFETY: the call takes a number alone, and any will do.
    unsafe { rkw_room32(size) }
}

/// The version of the library: major times 10,000, minor times 100 and patch, added up. Not proved.
#[must_use]
pub fn version() -> u64 {
    // SAFETY: the call takes nothing.
    unsafe { rkw_version() }
}

/// Says in words what is wrong, by the number and the place of a refusal. Not proved.
///
/// ```
/// assert_eq!(
///     rekwonuda_sys::refusal_words(18, 0),
///     "the shape of a heap is wrong"
/// );
/// ```
#[must_use]
pub fn refusal_words(refusal: u64, place: u64) -> &'static str {
    // SAFETY: the call takes numbers, and answers a text that ends with a zero byte and is never freed.
    let words = unsafe { CStr::from_ptr(rkw_refusal_words(refusal, place)) };
    words.to_str().unwrap_or_default()
}
