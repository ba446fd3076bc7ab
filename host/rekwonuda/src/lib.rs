//! A reader of Outlook .pst files of both editions, the 64-bit ("Unicode") and the older 32-bit
//! ("ANSI") one, in which nothing is taken on trust.
//!
//! A file may hold any bytes. A call answers, or it refuses with a [`Refusal`]: the first fault met, and
//! its place. That something is absent is an answer and no refusal.
//!
//! ```
//! use rekwonuda::{Heap, Image, NodeId, Value};
//!
//! let bytes = std::fs::read("../../samples/office.pst")?;
//! let image = Image::new(&bytes);
//! let data = image.node_data(NodeId(0x21))?.expect("every store has this node");
//! let heap = Heap::new(&data);
//! let name = heap.find_property(0x3001)?.expect("the sample has a name");
//! let Value::Item(item) = name.value else { panic!("a short text stands in the heap") };
//! assert_eq!(heap.item(item)?, b"O\0f\0f\0i\0c\0e\0");
//! # Ok::<(), Box<dyn std::error::Error>>(())
//! ```
//!
//! # What is proved
//!
//! Every answer and every refusal is that of the proved library `rkw`, which is called through crate
//! `rekwonuda-sys`. This crate gives its calls Rust's types. Code of its own, tested and not proved, are
//! the words of a refusal, what an [`Edition`] says of versions and bounds, and what is put together from
//! several proved answers: the iterators [`Image::nodes`], [`Image::blocks`], [`Heap::properties`] and
//! [`Table::columns`], the scan of [`Table::find_column`], the pieces of [`Image::find_nodes`], the buffers
//! of [`Image::block_data`] and [`Image::node_data`], where [`Image::hanging`] begins, and that a table
//! lacks its rows. Some calls read bytes of the image by themselves: [`Image::data_blocks`] a list of
//! blocks, [`Image::wrong_node_key`] and [`Image::node_pages`] and their like the pages of a tree,
//! [`Image::map_pages`] the trailers of maps.
#![deny(missing_docs)]
#![forbid(unsafe_code)]
#![warn(
    clippy::must_use_candidate,
    clippy::missing_errors_doc,
    clippy::missing_panics_doc
)]

mod edition;
mod entry;
mod fault;
mod heap;
mod id;
mod image;
mod layout;
mod list;
mod maps;
mod method;
mod page;
mod pages;
mod refusal;
mod table;
mod wrong_key;

pub use edition::Edition;
pub use entry::{Block, Header, Lookup, Node, PageReference};
pub use fault::Fault;
pub use heap::{Heap, Properties, Property, Value};
pub use id::{BlockId, ItemId, NodeId, Tag};
pub use image::Image;
pub use list::{Blocks, Nodes};
pub use method::Method;
pub use pages::{TreePage, TreePages};
pub use refusal::Refusal;
pub use table::{Cell, Column, Columns, RowsPlace, Table, TableRecord};
pub use wrong_key::{Key, WrongKey, WrongKeys};

use rekwonuda_sys as sys;

/// The shortest image that is taken, in bytes.
pub const SHORTEST_IMAGE: u64 = 564;

/// The longest image that is taken, in bytes: 1 GiB.
pub const LONGEST_IMAGE: u64 = 1 << 30;

/// The most bytes that a block holds, and a heap, in either edition; see [`Edition::largest_block`].
pub const LARGEST_BLOCK: usize = Edition::Bits32.largest_block();

/// The most bytes that the data of a node has in either edition; see [`Edition::longest_data`].
pub const LONGEST_DATA: usize = Edition::Bits32.longest_data();

/// The checksum of the bytes: polynomial EDB88320 hex, reflected, start 0, no inversion.
#[must_use]
pub fn checksum(bytes: &[u8]) -> u32 {
    sys::checksum(bytes) as u32
}

/// The signature of a page or block at that offset and with that number.
#[must_use]
pub fn signature(offset: u64, number: u64) -> u16 {
    sys::signature(offset, number) as u16
}

/// The room that a block with so many bytes of data takes in a 64-bit file: the smallest multiple of
/// 64 that holds `size` + 16.
#[must_use]
pub fn room(size: u32) -> u64 {
    sys::room(size)
}

/// The room that a block with so many bytes of data takes in a 32-bit file: the smallest multiple of
/// 64 that holds `size` + 12.
#[must_use]
pub fn room32(size: u32) -> u64 {
    sys::room32(size)
}
