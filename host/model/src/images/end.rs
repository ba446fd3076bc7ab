//! Images that turn on the end-of-file number.

use super::{Image, BUFFER};
use crate::build::end::{
    block_behind, block_over, hanging_on, page_behind, page_over, root_behind, too_high, zero,
};
use crate::build::Built;
use crate::edition::Edition;

pub fn images(edition: Edition) -> Vec<Image> {
    let named = [
        ("zero", zero(edition)),
        ("too-high", too_high(edition)),
        ("hanging-on", hanging_on(edition)),
        ("root-behind", root_behind(edition)),
        ("page-behind", page_behind(edition)),
        ("page-over", page_over(edition, 64)),
        ("page-at", page_over(edition, 0)),
        ("block-behind", block_behind(edition)),
        ("block-over", block_over(edition, 1)),
        ("block-at", block_over(edition, 0)),
    ];
    named.into_iter().map(image_of).collect()
}

fn image_of((name, built): (&str, Built)) -> Image {
    Image {
        name: format!("end-{name}"),
        nodes: built.node_numbers(),
        blocks: built.block_numbers(),
        from: vec![0, 0x105, 0x8023, u64::from(u32::MAX)],
        ids: Vec::new(),
        buffer: BUFFER,
        bytes: built.image,
    }
}
