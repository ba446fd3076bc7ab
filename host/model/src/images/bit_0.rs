//! Images in which a block's number has bit 0 in one place and not in another.

use super::{Image, BUFFER};
use crate::build::bit_0::{
    data_one, data_one_alone, data_trees, highest, index_keys, listed, page_number, range_end,
    ticket, trailers, twins,
};
use crate::build::Built;
use crate::coding::{CYCLIC, NONE, PERMUTE};
use crate::edition::Edition;

pub fn images(edition: Edition) -> Vec<Image> {
    let named = [
        ("ticket", ticket(edition)),
        ("twins", twins(edition)),
        ("tree", data_trees(edition)),
        ("none", listed(edition, NONE)),
        ("permute", listed(edition, PERMUTE)),
        ("cyclic", listed(edition, CYCLIC)),
        ("data-one", data_one(edition)),
        ("data-one-alone", data_one_alone(edition)),
        ("index", index_keys(edition)),
        ("range-end", range_end(edition)),
        ("trailers", trailers(edition)),
        ("highest", highest(edition)),
        ("page-number", page_number(edition)),
    ];
    named.into_iter().map(image_of).collect()
}

fn image_of((name, built): (&str, Built)) -> Image {
    let nodes = built.node_numbers();
    let ids = built.heaps.values().flat_map(|heap| heap.properties.keys());
    Image {
        name: format!("bit0-{name}"),
        blocks: both_ways(&built),
        from: vec![0, nodes[0] + 1, u64::from(u32::MAX), u64::MAX],
        nodes,
        ids: ids.copied().collect(),
        buffer: BUFFER,
        bytes: built.image,
    }
}

/// Every number that is listed or named, with bit 0 and without it, and the next but one.
fn both_ways(built: &Built) -> Vec<u64> {
    let named = built.nodes.iter().map(|node| node.data);
    let children = built.trees.values().flatten().copied();
    let numbers = built.block_numbers().into_iter();
    let all = numbers.chain(named).chain(children);
    let mut asked: Vec<_> = all
        .flat_map(|number| [number, number ^ 1, number.wrapping_add(2)])
        .collect();
    asked.sort_unstable();
    asked.dedup();
    asked
}
