//! The longest image that is read, and one byte more. Nearly all of it is zeros that nobody touches.

use compare::answers;
use model::build::seal::{seal_page, set_end};
use model::build::{build, Built, Plan};
use model::edition::Edition;
use model::header::MOST_IMAGE;
use rekwonuda_sys as proved;

fn small(edition: Edition) -> Built {
    let plan = Plan {
        edition,
        bare_nodes: 5,
        tidy: true,
        ..Plan::default()
    };
    build(1, &plan)
}

/// A small image with zeros behind it, whose root page of the node tree stands at that offset, and ends
/// with the file.
fn long(edition: Edition, length: usize, offset: usize) -> Vec<u8> {
    let small = small(edition);
    let page = small.pages.last().expect("a root page").offset;
    let mut image = vec![0; length];
    image[..small.image.len()].copy_from_slice(&small.image);
    image[offset..offset + 512].copy_from_slice(&small.image[page..page + 512]);
    seal_page(&mut image, offset);
    let layout = edition.layout();
    let place = layout.header.nodes + layout.width;
    layout.put_number(&mut image, place, offset as u64);
    set_end(&mut image, offset as u64 + 512);
    image
}

/// The refusal of the lookup, and its place.
fn compare(image: &[u8], node: u64) -> (u64, u64) {
    assert_eq!(
        proved::header(image).fields(),
        answers::header(model::header(image))
    );
    assert_eq!(
        proved::check_nodes(image).fields(),
        answers::plain(model::check_nodes(image))
    );
    assert_eq!(
        proved::check_blocks(image).fields(),
        answers::plain(model::check_blocks(image))
    );
    let found = proved::find_node(image, node).fields();
    assert_eq!(found, answers::node(model::find_node(image, node)));
    let mut place = [0; 9];
    assert_eq!(proved::find_nodes(image, &[node], &mut place).refusal, 0);
    assert_eq!(place, found);
    (found[0], found[1])
}

#[test]
fn longest_image() {
    for (edition, place) in [(Edition::Bits64, 184), (Edition::Bits32, 168)] {
        assert_longest(edition, place);
    }
}

/// The end-of-file number stands at that place.
fn assert_longest(edition: Edition, place: u64) {
    let node = u64::from(small(edition).nodes[0].node);
    let page = MOST_IMAGE - 512;
    let mut image = long(edition, MOST_IMAGE + 1, page);
    assert_eq!(compare(&image[..MOST_IMAGE], node), (0, 0));
    assert_eq!(compare(&image[..MOST_IMAGE - 1], node), (1, place));
    assert_eq!(compare(&image, node), (1, 0));
    set_end(&mut image, MOST_IMAGE as u64 - 1);
    for length in [MOST_IMAGE - 1, MOST_IMAGE] {
        assert_eq!(compare(&image[..length], node), (6, page as u64));
    }
    set_end(&mut image, MOST_IMAGE as u64 + 1);
    assert_eq!(compare(&image[..MOST_IMAGE], node), (1, place));
    assert_eq!(compare(&image, node), (1, 0));
}
