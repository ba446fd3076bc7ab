//! A second reader of .pst images of both editions, written from the rules alone.
//!
//! It shares nothing with the proved library but those rules, so that each can be held against the
//! other. Every public call of `include/rekwonuda.h` has its like here, under the same name. [`build`]
//! makes images, [`damage`] spoils them, [`images`] picks some of both, [`report`] says what is read;
//! [`contexts`] does both for tables.

#![forbid(unsafe_code)]

pub mod block;
pub mod build;
mod bytes;
pub mod checksum;
pub mod coding;
pub mod contexts;
pub mod damage;
pub mod edition;
pub mod header;
pub mod heap;
pub mod heap_tree;
pub mod images;
pub mod node;
pub mod nodes;
pub mod page;
pub mod property;
pub mod random;
pub mod refusal;
pub mod report;
pub mod table;
mod tables;
pub mod tree;

pub use block::{find_block, next_block, read_block, room, room32, test_block, Block};
pub use checksum::{checksum, signature};
pub use coding::{decode, encode};
pub use edition::Edition;
pub use header::{header, Header, Reference};
pub use heap::{item, test_heap, test_item, Item};
pub use node::{find_node, next_node, read_node, Node};
pub use nodes::find_nodes;
pub use property::{find_property, Property, Value};
pub use refusal::{Answer, Refusal};
pub use table::{
    cell, column, count_rows, find_row, find_row32, read_row, table, Cell, Column, Rows, Table,
};
pub use tree::{check_blocks, check_nodes, Lookup};
