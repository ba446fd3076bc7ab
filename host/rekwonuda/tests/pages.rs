//! Where the pages of a tree and the allocation maps stand.

use model::build::maps::put_map;
use model::build::seal::set_end;
use model::build::{build_small_of, Built};
use model::damage::{spoil, HEADER, KEYS, PAGE, WHOLE};
use model::page::Tree;
use model::random::Random;
use model::Edition;
use rekwonuda::{Image, Refusal, TreePages};

const TREES: [Tree; 2] = [Tree::Nodes, Tree::Blocks];

fn pages(image: &[u8], tree: Tree) -> TreePages<'_> {
    match tree {
        Tree::Nodes => Image::new(image).node_pages(),
        Tree::Blocks => Image::new(image).block_pages(),
    }
}

fn check(image: &[u8], tree: Tree) -> Result<(), Refusal> {
    match tree {
        Tree::Nodes => Image::new(image).check_nodes(),
        Tree::Blocks => Image::new(image).check_blocks(),
    }
}

/// The pages of a tree as they were placed: the offset and level of each, by offset.
fn placed(built: &Built, tree: Tree) -> Vec<(u64, Option<u8>)> {
    let pages = built.pages.iter().filter(|page| page.tree == tree);
    let mut placed: Vec<_> = pages
        .map(|page| (page.offset as u64, Some(page.level)))
        .collect();
    placed.sort_unstable();
    placed
}

#[test]
fn all_pages_of_a_sound_tree_are_met_once() {
    for edition in Edition::BOTH {
        for seed in 0..40 {
            let built = build_small_of(edition, seed, seed % 2 == 1);
            for tree in TREES {
                let met = pages(&built.image, tree).map(|page| (page.offset, page.level));
                let mut met: Vec<_> = met.collect();
                met.sort_unstable();
                assert_eq!(met, placed(&built, tree), "{edition:?} {seed} {tree:?}");
            }
        }
    }
}

/// Holds the pages to the proved check: the first without a level stands where the check refuses, and
/// all have one where it accepts. Says whether a page is refused.
fn hold(image: &[u8], tree: Tree) -> bool {
    let mut pages = pages(image, tree);
    if Image::new(image).header().is_err() {
        assert_eq!(pages.next(), None);
        return false;
    }
    let first = pages.find(|page| page.level.is_none());
    let refused = check(image, tree).err();
    assert_eq!(
        first.map(|page| page.offset),
        refused.map(|refusal| refusal.place),
        "{refused:?}"
    );
    first.is_some()
}

#[test]
fn the_first_page_without_a_level_is_the_one_that_is_refused() {
    for edition in Edition::BOTH {
        let mut refused = 0;
        for seed in 0..40 {
            let built = build_small_of(edition, seed, seed % 2 == 1);
            let mut random = Random::new(seed);
            for damage in [HEADER, PAGE, KEYS, WHOLE].concat() {
                for sealed in [false, true] {
                    let image = spoil(&built, damage, sealed, &mut random).image;
                    let met = TREES.map(|tree| hold(&image, tree));
                    refused += met.iter().filter(|met| **met).count();
                }
            }
        }
        assert!(refused > 500, "{refused}");
    }
}

#[test]
fn below_a_page_without_a_level_nothing_is_read() {
    let built = build_small_of(Edition::Bits64, 3, false);
    let root = built
        .pages
        .iter()
        .find(|page| page.tree == Tree::Blocks && page.is_root)
        .expect("each tree has a root");
    let mut image = built.image.clone();
    image[root.offset] ^= 1;
    let met: Vec<_> = pages(&image, Tree::Blocks)
        .map(|page| (page.offset, page.level))
        .collect();
    assert_eq!(met, [(root.offset as u64, None)]);
}

fn map_pages(image: &[u8]) -> Vec<u64> {
    Image::new(image).map_pages().collect()
}

/// An image of that edition with room for two allocation maps and more, and nothing behind 0x4400.
fn roomy(edition: Edition) -> Vec<u8> {
    let mut image = build_small_of(edition, 1, false).image;
    image.truncate(0x4200);
    image.resize(0x4400 + 253_952 + 8192, 0);
    let end = image.len() as u64;
    set_end(&mut image, end);
    image
}

const SECOND: usize = 0x4400 + 253_952;

#[test]
fn maps_are_met_where_the_format_has_them() {
    for edition in Edition::BOTH {
        let mut image = roomy(edition);
        assert_eq!(map_pages(&image), []);
        put_map(&mut image, 0x4200, 0x86, 77);
        let maps = [(0x4400, 0x84), (0x4600, 0x83), (0x4800, 0x82)];
        for (offset, kind) in [&maps[..], &[(0x4A00, 0x85), (SECOND, 0x84)]].concat() {
            put_map(&mut image, offset, kind, offset as u64);
        }
        let all = [0x4200, 0x4400, 0x4600, 0x4800, 0x4A00, SECOND as u64];
        assert_eq!(map_pages(&image), all, "{edition:?}");
        let end = SECOND as u64 + 511;
        set_end(&mut image, end);
        assert_eq!(map_pages(&image), all[..5], "{edition:?}");
        image[0] = 0;
        assert_eq!(map_pages(&image), [], "{edition:?}");
    }
}

#[test]
fn what_stands_elsewhere_or_is_wrong_is_no_map() {
    for edition in Edition::BOTH {
        // The kind of a tree, a density list and a map in each other's place, another number, and places
        // where no map belongs.
        for (offset, kind, number) in [
            (0x4400, 0x80, 0x4400),
            (0x4400, 0x81, 0x4400),
            (0x4400, 0x86, 0x4400),
            (0x4200, 0x84, 0x4200),
            (0x4400, 0x84, 0x4600),
            (0x4C00, 0x84, 0x4C00),
            (0x4440, 0x84, 0x4440),
            (SECOND - 512, 0x84, SECOND as u64 - 512),
        ] {
            let mut image = roomy(edition);
            put_map(&mut image, offset, kind, number);
            assert_eq!(map_pages(&image), [], "{offset:#x} {kind:#x}");
        }
        let layout = edition.layout();
        let trailer = [layout.page.kinds, layout.page.kinds + 1];
        let rest = [layout.page.signature, layout.page.number, layout.page.sum];
        for at in [&[0, layout.page.summed - 1][..], &trailer, &rest].concat() {
            let mut image = roomy(edition);
            put_map(&mut image, 0x4400, 0x84, 0x4400);
            assert_eq!(map_pages(&image), [0x4400]);
            image[0x4400 + at] ^= 1;
            assert_eq!(map_pages(&image), [], "{at}");
        }
    }
}
