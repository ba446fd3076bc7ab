//! What damage to bit 0 of a number or to the keys of a page leads to, and damage by which one edition looks
//! like the other.

use model::build::{build_small_of, most_size_and_children, Built, PlacedBlock};
use model::damage::{spoil, Damage, Spoilt};
use model::edition::Edition;
use model::random::Random;
use model::{check_blocks, check_nodes, header, read_block, read_node, test_block, Lookup};
use std::collections::BTreeSet;

/// The damage, sealed, to some built images of both editions; those that it leaves as they are do not
/// count.
fn spoilt(damage: Damage) -> impl Iterator<Item = (Built, Spoilt)> {
    let seeds = (0..150).flat_map(|seed| Edition::BOTH.map(|edition| (edition, seed)));
    seeds.filter_map(move |(edition, seed)| {
        let built = build_small_of(edition, seed, true);
        let spoilt = spoil(&built, damage, true, &mut Random::new(seed));
        (spoilt.image != built.image).then_some((built, spoilt))
    })
}

fn number_of<T>(answer: model::Answer<T>) -> u64 {
    answer.err().map_or(0, |refusal| refusal.number)
}

/// What the checks of the node tree and of the block tree answer.
fn checked(damage: Damage) -> BTreeSet<(u64, u64)> {
    let images = spoilt(damage).map(|(_, spoilt)| spoilt.image);
    let answers = images.map(|image| {
        (
            number_of(check_nodes(&image)),
            number_of(check_blocks(&image)),
        )
    });
    answers.collect()
}

/// What the test of the block at fault answers.
fn tested(damage: Damage) -> BTreeSet<u64> {
    let answers = spoilt(damage).map(|(_, spoilt)| {
        let number = spoilt.blocks[0];
        let answer = number_of(test_block(&spoilt.image, number));
        assert_eq!(answer, number_of(test_block(&spoilt.image, number ^ 1)));
        answer
    });
    answers.collect()
}

#[test]
fn page_numbers() {
    for damage in [Damage::RootBit0, Damage::PageBit0, Damage::ChildBit0] {
        assert_eq!(checked(damage), [(0, 8), (8, 0)].into(), "{damage:?}");
    }
}

/// What the check of the block tree answers where the damage is in one of its pages.
fn checked_blocks(damage: Damage) -> BTreeSet<u64> {
    let in_blocks = spoilt(damage).filter(|(_, spoilt)| !spoilt.blocks.is_empty());
    let answers = in_blocks.map(|(_, spoilt)| number_of(check_blocks(&spoilt.image)));
    answers.collect()
}

#[test]
fn keys() {
    assert_eq!(checked_blocks(Damage::KeyTwin), [11].into());
    assert_eq!(checked_blocks(Damage::KeyBit0), [0].into());
    assert_eq!(checked_blocks(Damage::KeyAtLow), [0].into());
    assert_eq!(checked_blocks(Damage::KeyAtEnd), [21].into());
    // In the node tree a key next to another is a key like any other, but one of them may have left
    // its page's range, or a child's key the range between the two.
    assert_eq!(checked(Damage::KeyTwin), [(0, 0), (0, 11), (21, 0)].into());
}

#[test]
fn order_and_range_of_keys() {
    let order = [(0, 11), (11, 0)];
    let range = [(0, 21), (21, 0)];
    assert_eq!(checked(Damage::KeyOrder), order.into());
    assert_eq!(checked(Damage::KeyStale), range.into());
    assert_eq!(checked(Damage::KeyBelow), order.into());
    assert_eq!(checked(Damage::OrderThenRange), order.into());
    assert_eq!(checked(Damage::RangeThenOrder), range.into());
}

/// What the header answers in each edition as built: a refusal and its place, or the edition.
fn headers(damage: Damage) -> BTreeSet<(Edition, u64, u64)> {
    let answers = spoilt(damage).map(|(built, spoilt)| match header(&spoilt.image) {
        Ok(said) => (built.edition, 0, said.edition.bits()),
        Err(refusal) => (built.edition, refusal.number, refusal.place),
    });
    answers.collect()
}

#[test]
fn headers_of_the_other_edition() {
    use Edition::{Bits32, Bits64};
    let other = [(Bits64, 0, 32), (Bits32, 0, 64)];
    assert_eq!(headers(Damage::OtherEdition), other.into());
    let sentinel = [(Bits64, 5, 512), (Bits32, 5, 460)];
    assert_eq!(headers(Damage::OtherSentinel), sentinel.into());
    // The roots of 32 bits stand where 64 bits have the end.
    let roots = [(Bits64, 1, 184), (Bits32, 0, 32)];
    assert_eq!(headers(Damage::OtherRoots), roots.into());
    let end = [(Bits64, 0, 64), (Bits32, 0, 32)];
    assert_eq!(headers(Damage::OtherEnd), end.into());
    let versions = headers(Damage::Version);
    let expected = [
        (Bits64, 3, 10),
        (Bits32, 3, 10),
        (Bits32, 0, 32),
        (Bits32, 5, 512),
        (Bits64, 5, 460),
    ];
    assert!(versions.is_superset(&expected.into()), "{versions:?}");
}

#[test]
fn pages_of_the_other_edition() {
    assert_eq!(checked(Damage::OtherEdition), [(7, 7)].into());
    assert_eq!(checked(Damage::OtherRoots), [(1, 1), (6, 6)].into());
    assert_eq!(checked(Damage::OtherEnd), [(6, 6)].into());
    assert_eq!(checked(Damage::OtherPage), [(0, 7), (7, 0)].into());
    assert_eq!(checked(Damage::OtherPageSum), [(0, 9), (9, 0)].into());
    assert_eq!(checked(Damage::EntriesOver), [(0, 10), (10, 0)].into());
}

#[test]
fn trailers_of_the_other_edition() {
    assert_eq!(tested(Damage::TrailerExchanged), [14].into());
    // Where the other room ends before the trailer, it stays as it is.
    let other = tested(Damage::OtherTrailer);
    assert!(other.is_superset(&[0, 14].into()), "{other:?}");
}

#[test]
fn sizes_about_the_most() {
    let mut seen = BTreeSet::new();
    for (built, spoilt) in spoilt(Damage::SizeAboutMost) {
        let number = spoilt.blocks[0];
        let found = model::find_block(&spoilt.image, number).map(Lookup::found);
        let size = found.expect("a tree").expect("it is there").size;
        let (most, _) = most_size_and_children(built.edition);
        let expected = if usize::from(size) <= most { 0 } else { 13 };
        assert_eq!(number_of(test_block(&spoilt.image, number)), expected);
        seen.insert((built.edition, size));
    }
    assert_eq!(seen.len(), 2 * 7);
}

#[test]
fn trailers() {
    assert_eq!(tested(Damage::TrailerBit0), [0].into());
    assert_eq!(tested(Damage::TrailerBits), [14].into());
    assert_eq!(tested(Damage::SignatureBit0), [14].into());
    assert_eq!(tested(Damage::ListedBit0), [0].into());
    assert_eq!(tested(Damage::CodedBit0), [0].into());
}

fn block_at_fault<'a>(built: &'a Built, spoilt: &Spoilt) -> &'a PlacedBlock {
    built.block(spoilt.blocks[0]).expect("it is placed")
}

/// Other bytes under the cyclic method, for a block that is not internal.
#[test]
fn bytes_of_another_number() {
    for damage in [Damage::CodedBit0, Damage::ListedBit0] {
        for (built, spoilt) in spoilt(damage) {
            let block = block_at_fault(&built, &spoilt);
            let mut out = vec![0; block.data.len()];
            let read = read_block(&spoilt.image, block.number, &mut out);
            assert_eq!(read, Ok(out.len()));
            let same = built.method != model::coding::CYCLIC || block.number & 2 == 2;
            assert_eq!(out == block.data, same, "{damage:?}");
        }
    }
}

#[test]
fn numbers_that_name_a_block() {
    for damage in [Damage::DataBit0, Damage::TreeBit0, Damage::DataOne] {
        for (built, spoilt) in spoilt(damage) {
            for node in &built.nodes {
                let mut out = vec![0; 65_536];
                let number = u64::from(node.node);
                let length = read_node(&spoilt.image, number, &mut out);
                let length = length.expect("it is read").expect("it is there");
                let data = built.data(node);
                if damage == Damage::DataOne && length == 0 {
                    assert!(data.is_empty() || spoilt.nodes.contains(&number));
                } else {
                    assert_eq!(out[..length], data);
                }
            }
        }
    }
}
