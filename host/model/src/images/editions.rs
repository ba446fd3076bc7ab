//! Images of 32 bits, as far as the two editions differ, and some of 64 that look like them.

use super::{base, bit_0, damaged, end, image_of, Image, Kind};
use crate::build::limits::{
    children, full_pages, highest_listed, long_heap, one_child_more, sizes,
};
use crate::build::{build, Built, Plan};
use crate::coding::{CYCLIC, NONE, PERMUTE};
use crate::damage::Damage;
use crate::edition::Edition;

const NARROW: Edition = Edition::Bits32;
const WIDE: Edition = Edition::Bits64;

/// Each leads to its refusal.
const DAMAGED: &[Kind] = &[
    (3, Damage::Version, true, 25),
    (4, Damage::PartialSum, false, 0),
    (5, Damage::Sentinel, true, 0),
    (5, Damage::Method, true, 0),
    (6, Damage::ChildOffset, true, 0),
    (7, Damage::PageKind, true, 0),
    (7, Damage::OtherEdition, true, 0),
    (8, Damage::PageNumber, true, 0),
    (8, Damage::PageSignature, true, 0),
    (9, Damage::OtherPageSum, true, 0),
    (10, Damage::EntriesOver, true, 0),
    (10, Damage::PageLevel, true, 0),
    (11, Damage::KeyEqual, true, 0),
    (12, Damage::TreeChild, true, 2),
    (13, Damage::ListedSize, true, 4),
    (14, Damage::TrailerExchanged, true, 0),
    (15, Damage::BlockByte, false, 0),
    (16, Damage::TreeSum, true, 0),
    (21, Damage::KeyStale, true, 0),
];

/// Those of the former choice that are taken in this edition too.
const AGAIN: &[&str] = &[
    "bit0-ticket",
    "bit0-tree",
    "bit0-trailers",
    "end-too-high",
    "end-page-over",
    "end-block-at",
];

pub fn images() -> Vec<Image> {
    let mut images = shapes();
    images.extend(DAMAGED.iter().map(|kind| damaged(NARROW, *kind)));
    let former = [bit_0::images, end::images].map(|images| images(NARROW));
    let again = |image: &Image| AGAIN.contains(&&image.name[..]);
    images.extend(former.into_iter().flatten().filter(again));
    images.extend(limits());
    let narrow = images.into_iter().map(|image| named("bits32", image));
    let wide = wide().into_iter().map(|image| named("bits64", image));
    narrow.chain(wide).collect()
}

fn named(edition: &str, image: Image) -> Image {
    let name = format!("{edition}-{}", image.name);
    let mut image = Image { name, ..image };
    // Numbers that have no room in four bytes, one with the low bytes of a block that is there.
    let beyond = image.blocks.first().map_or(0, |block| block | 1 << 32);
    image.blocks.extend([1 << 32, beyond]);
    image.from.push(1 << 32);
    image
}

fn shapes() -> Vec<Image> {
    let plan = Plan {
        edition: NARROW,
        ..Plan::default()
    };
    let mut images = vec![whole("empty", &build(1, &plan))];
    for (name, method, level, index_levels) in [
        ("none-level-0", NONE, 0, 0),
        ("permute-level-1", PERMUTE, 1, 1),
        ("cyclic-level-2", CYCLIC, 2, 2),
        ("permute-level-4", PERMUTE, 4, 3),
        ("cyclic-level-7", CYCLIC, 7, 0),
    ] {
        let plan = base(NARROW, method, level, index_levels);
        images.push(whole(name, &build(u64::from(level) + 2, &plan)));
    }
    images
}

fn limits() -> Vec<Image> {
    let named = [
        ("size-8180", sizes(NARROW, &[8177, 8178, 8179, 8180])),
        ("size-8181", sizes(NARROW, &[8180, 8181])),
        ("heap-8180", long_heap(NARROW, 8180)),
        ("tree-2043", children(NARROW, 2043)),
        ("tree-2044", children(NARROW, 2044)),
        ("tree-says-2044", one_child_more(NARROW)),
        ("full-pages", full_pages(NARROW)),
        ("highest-listed", highest_listed(NARROW)),
    ];
    let images = named.iter().map(|(name, built)| whole(name, built));
    images.collect()
}

fn wide() -> Vec<Image> {
    vec![
        whole("size-8177", &sizes(WIDE, &[8176, 8177])),
        damaged(WIDE, (7, Damage::OtherEdition, true, 0)),
    ]
}

fn whole(name: &str, built: &Built) -> Image {
    image_of(name, built.image.clone(), built)
}
