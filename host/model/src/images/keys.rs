//! Images in which a page's keys break a rule, each in its own way.

use super::{Image, BUFFER};
use crate::build::keys::{
    below, equal, exchanged, index_last, order_first, range_first, shuffled, unsplit,
};
use crate::build::Built;
use crate::edition::Edition;

pub fn images(edition: Edition) -> Vec<Image> {
    let named = [
        ("shuffled", shuffled(edition)),
        ("equal", equal(edition)),
        ("exchanged", exchanged(edition)),
        ("unsplit", unsplit(edition)),
        ("range-first", range_first(edition)),
        ("order-first", order_first(edition)),
        ("below", below(edition)),
        ("index-last", index_last(edition)),
    ];
    named.into_iter().map(image_of).collect()
}

fn image_of((name, built): (&str, Built)) -> Image {
    Image {
        name: format!("keys-{name}"),
        nodes: built.node_numbers(),
        blocks: built.block_numbers(),
        from: vec![0, 0x109, 0x8063, u64::from(u32::MAX)],
        ids: Vec::new(),
        buffer: BUFFER,
        bytes: built.image,
    }
}
