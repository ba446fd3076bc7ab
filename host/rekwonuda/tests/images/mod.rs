//! The images that the tests run on.

use model::build::{build, Built, Plan};
use model::Edition;
use std::path::PathBuf;

pub fn sample() -> PathBuf {
    PathBuf::from(concat!(
        env!("CARGO_MANIFEST_DIR"),
        "/../../samples/mini.img"
    ))
}

/// A 64-bit image with nodes and blocks of all kinds, in trees of several pages.
pub fn sound() -> Built {
    sound_of(Edition::Bits64)
}

/// Such an image of that edition.
pub fn sound_of(edition: Edition) -> Built {
    let plan = Plan {
        edition,
        method: 2,
        node_level: 2,
        block_level: 1,
        bare_nodes: 3,
        block_nodes: 20,
        tree_nodes: 2,
        property_nodes: 2,
        properties: 12,
        index_levels: 1,
        most_size: 900,
        most_children: 5,
        spare_blocks: 2,
        ..Plan::default()
    };
    build(7, &plan)
}
