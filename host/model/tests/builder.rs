//! Every built image is accepted, and everything placed in it is read back.

use model::build::heaps::{property_context, HeapPlan, PlacedHeap};
use model::build::{build, build_small_of, without_bit_0, Built, Plan, MOST_SMALL};
use model::edition::Edition;
use model::page::Tree;
use model::random::Random;
use model::{Block, Lookup, Refusal};
use std::collections::BTreeSet;

fn assert_read_back(built: &Built) {
    let image = &built.image;
    assert_eq!(model::check_nodes(image), Ok(()));
    assert_eq!(model::check_blocks(image), Ok(()));
    let header = model::header(image).expect("a header");
    assert_eq!(header.edition, built.edition);
    assert_eq!(
        (header.method, header.end),
        (built.method, image.len() as u64)
    );
    assert_nodes_read_back(built);
    assert_blocks_read_back(built);
    built.heaps.values().for_each(assert_heap);
}

fn assert_nodes_read_back(built: &Built) {
    let image = &built.image;
    for node in &built.nodes {
        let number = u64::from(node.node) | 5 << 32;
        assert_eq!(
            model::find_node(image, number).map(Lookup::found),
            Ok(Some(*node))
        );
        let data = built.data(node);
        let mut out = vec![0; data.len()];
        assert_eq!(
            model::read_node(image, number, &mut out),
            Ok(Some(data.len()))
        );
        assert_eq!(out, data);
    }
}

fn assert_blocks_read_back(built: &Built) {
    let image = &built.image;
    for placed in &built.blocks {
        let listed = Block {
            block: placed.number,
            offset: placed.offset as u64,
            size: placed.size,
            references: placed.references,
        };
        assert_eq!(
            model::find_block(image, placed.number).map(Lookup::found),
            Ok(Some(listed))
        );
        assert_eq!(model::test_block(image, placed.number), Ok(placed.size));
        let mut out = vec![0; placed.data.len()];
        assert_eq!(
            model::read_block(image, placed.number, &mut out),
            Ok(out.len())
        );
        assert_eq!(out, placed.data);
    }
}

fn assert_heap(heap: &PlacedHeap) {
    assert_eq!(model::test_heap(&heap.block), Ok(()));
    for (at, bytes) in heap.items.iter().enumerate() {
        let item = model::item(&heap.block, (at as u32 + 1) << 5).expect("an item");
        assert_eq!(
            &heap.block[item.start..item.start + item.length],
            &bytes[..]
        );
    }
    for id in 0..=u16::MAX {
        let expected = heap.properties.get(&id).copied();
        assert_eq!(
            model::find_property(&heap.block, id),
            Ok(expected),
            "id {id:x}"
        );
    }
}

fn assert_listing(built: &Built) {
    let mut listed = Vec::new();
    let mut from = 0;
    while let Some(node) = model::next_node(&built.image, from)
        .expect("a list")
        .found()
    {
        listed.push(node);
        if node.node == u32::MAX {
            break;
        }
        from = u64::from(node.node) + 1;
    }
    assert_eq!(listed, built.nodes);
    let mut numbers = BTreeSet::new();
    let mut from = Some(0);
    while let Some(block) = from.and_then(|from| {
        model::next_block(&built.image, from)
            .expect("a list")
            .found()
    }) {
        assert!(numbers.insert(block.block), "it does not move on");
        from = block.block.checked_add(1);
    }
    assert_eq!(
        numbers,
        built.blocks.iter().map(|block| block.number).collect()
    );
}

#[test]
fn small_images() {
    for (edition, seed) in editions(300) {
        let built = build_small_of(edition, seed, false);
        assert!(built.image.len() <= MOST_SMALL);
        assert_read_back(&built);
        assert_listing(&built);
        assert_eq!(built.image, build_small_of(edition, seed, false).image);
    }
}

/// So many seeds for each edition.
fn editions(seeds: u64) -> impl Iterator<Item = (Edition, u64)> {
    let of = move |edition| (0..seeds).map(move |seed| (edition, seed));
    Edition::BOTH.into_iter().flat_map(of)
}

#[test]
fn versions_of_small_images() {
    let version = |edition, seed| {
        let image = build_small_of(edition, seed, false).image;
        u16::from_le_bytes([image[10], image[11]])
    };
    let of = |edition| (0..40).map(move |seed| version(edition, seed)).collect();
    let [wide, narrow]: [BTreeSet<_>; 2] = Edition::BOTH.map(of);
    assert_eq!((wide, narrow), ([23].into(), [14, 15].into()));
}

/// Where the number of a placed block stands, and there differs from the listed one in bit 0.
fn other_bits(built: &Built) -> [usize; 4] {
    let differs = |number: &u64| {
        let listed = built.block(*number).expect("it is listed").number;
        listed != *number
    };
    let named = built.nodes.iter().map(|node| node.data);
    let in_trailers = built.blocks.iter().map(|block| {
        let layout = built.layout();
        let trailer = layout.trailer_at(block.offset, block.size);
        layout.number_at(&built.image, trailer + layout.trailer.number)
    });
    let index_pages = built
        .pages
        .iter()
        .filter(|page| page.tree == Tree::Blocks && page.level > 0);
    let index_keys = index_pages.flat_map(|page| &page.keys);
    [
        named.filter(|&data| data > 1).filter(differs).count(),
        built
            .trees
            .values()
            .flatten()
            .copied()
            .filter(differs)
            .count(),
        in_trailers.filter(differs).count(),
        index_keys
            .filter(|&&key| built.block(key).is_some_and(|block| block.number != key))
            .count(),
    ]
}

#[test]
fn loose_images() {
    let mut seen = [0; 4];
    let mut ones = 0;
    for (edition, seed) in editions(300) {
        let built = build_small_of(edition, seed, true);
        assert!(built.image.len() <= MOST_SMALL);
        assert_read_back(&built);
        assert_listing(&built);
        for (seen, more) in seen.iter_mut().zip(other_bits(&built)) {
            *seen += more;
        }
        ones += built.nodes.iter().filter(|node| node.data == 1).count();
        assert_eq!(other_bits(&build_small_of(edition, seed, false)), [0; 4]);
    }
    assert!(seen.iter().all(|&seen| seen > 200), "{seen:?}");
    assert!(ones > 200, "{ones}");
}

/// No two listed numbers are equal without bit 0, whatever is drawn.
#[test]
fn blocks_apart() {
    for (edition, seed) in editions(300) {
        for built in [false, true].map(|loose| build_small_of(edition, seed, loose)) {
            let numbers = built.block_numbers().into_iter();
            let apart: BTreeSet<_> = numbers.map(without_bit_0).collect();
            assert_eq!(apart.len(), built.blocks.len(), "seed {seed}");
        }
    }
}

#[test]
fn every_depth() {
    for (edition, level) in editions(8) {
        let level = level as u8;
        let plan = Plan {
            edition,
            method: level % 3,
            node_level: level,
            block_level: 7 - level,
            block_nodes: 3,
            most_size: 100,
            ..Plan::default()
        };
        let built = build(u64::from(level), &plan);
        assert_read_back(&built);
        let Ok(Lookup::Found { pages, .. }) =
            model::find_node(&built.image, u64::from(built.nodes[0].node))
        else {
            panic!("the first node is absent");
        };
        assert_eq!(pages, u64::from(level) + 1);
    }
}

/// The most entries of an index page in some images of that plan.
fn most_in_index(plan: &Plan) -> Option<usize> {
    let images = (0..40).map(|seed| build(seed, plan));
    let pages = images.flat_map(|built| {
        assert_read_back(&built);
        built.pages
    });
    let index = pages.filter(|page| page.level > 0);
    index.map(|page| page.keys.len()).max()
}

#[test]
fn wide_index_pages() {
    for edition in Edition::BOTH {
        let narrow = Plan {
            edition,
            node_level: 2,
            block_level: 2,
            block_nodes: 14,
            most_size: 60,
            ..Plan::default()
        };
        let wide = Plan { wider: 3, ..narrow };
        assert_eq!(most_in_index(&narrow), Some(3));
        assert_eq!(most_in_index(&wide), Some(6));
    }
}

#[test]
fn empty_trees() {
    for edition in Edition::BOTH {
        let plan = Plan {
            edition,
            ..Plan::default()
        };
        let built = build(1, &plan);
        assert_read_back(&built);
        assert_eq!(
            model::find_node(&built.image, 33),
            Ok(Lookup::Absent { pages: 1 })
        );
        assert_eq!(
            model::next_block(&built.image, 0),
            Ok(Lookup::Absent { pages: 1 })
        );
        assert_eq!(model::test_block(&built.image, 4), Err(Refusal::new(12, 0)));
    }
}

#[test]
fn large_image() {
    for edition in Edition::BOTH {
        let plan = Plan {
            edition,
            method: 2,
            block_nodes: 400,
            tree_nodes: 2,
            most_size: usize::MAX,
            most_children: usize::MAX,
            property_nodes: 5,
            properties: 60,
            tidy: true,
            ..Plan::default()
        };
        let built = build(3, &plan);
        assert_read_back(&built);
        let longest = built.blocks.iter().map(|block| block.size).max();
        let children = built.trees.values().map(Vec::len).max();
        let expected = match edition {
            Edition::Bits64 => (Some(8176), Some(1021)),
            Edition::Bits32 => (Some(8180), Some(2043)),
        };
        assert_eq!((longest, children), expected);
    }
}

#[test]
fn property_contexts() {
    let mut random = Random::new(9);
    for index_levels in 0..=3 {
        for properties in [0, 1, 2, 30, 400] {
            let plan = HeapPlan {
                index_levels,
                properties,
                most_value: 20,
                tidy: properties == 30,
            };
            assert_heap(&property_context(&mut random, plan));
        }
    }
}
