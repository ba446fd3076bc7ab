//! Images whose nodes are worth asking for in one list.

use super::{Image, BUFFER};
use crate::build::lists::{deep, mixed};
use crate::build::Built;
use crate::edition::Edition;

pub fn images(edition: Edition) -> Vec<Image> {
    vec![
        image_of("mixed", mixed(edition)),
        image_of("level-3", deep(edition)),
    ]
}

/// Its nodes are asked for in the order of the tree, behind them numbers that it does not have.
fn image_of(name: &str, built: Built) -> Image {
    let mut nodes = built.node_numbers();
    let above = nodes.iter().map(|node| node + 1);
    let absent: Vec<_> = [0, 0x20].into_iter().chain(above).collect();
    nodes.extend(absent);
    Image {
        name: format!("list-{name}"),
        nodes,
        blocks: built.block_numbers(),
        from: vec![0, 0x8083, 0x8183, u64::from(u32::MAX)],
        ids: Vec::new(),
        buffer: BUFFER,
        bytes: built.image,
    }
}
