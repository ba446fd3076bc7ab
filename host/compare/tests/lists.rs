//! What the comparison has to meet in lists of nodes, how an answer is told to be it, and which lists
//! and areas are drawn.

use compare::ask::{ask, Ask, Call, Lent};
use compare::buffers::Buffers;
use compare::lists::{area, draw, length, long, Met, MOST_NODES, WORDS};
use compare::tally::Tally;
use model::build::lists::mixed;
use model::edition::Edition;
use model::random::Random;
use std::collections::BTreeSet;

#[test]
fn what_has_to_be_met() {
    let all: BTreeSet<_> = Met::all().collect();
    assert_eq!(all.len(), 4 + 2 + 3 + 12);
    let words: BTreeSet<_> = all.iter().map(ToString::to_string).collect();
    assert_eq!(words.len(), all.len());
    assert_eq!(Tally::default().lists_not_reached().len(), all.len());
}

/// What a list on an image with sound, stale and refused leaves meets, in an area of so many words.
fn met(nodes: &[u64], words: usize) -> Vec<Met> {
    let image = mixed(Edition::Bits64).image;
    let question = Ask {
        words,
        ..Ask::new(Call::FindNodes, 0)
    };
    let lent = Lent {
        bytes: &image,
        nodes,
        rows: &[],
    };
    let mut buffers = Buffers::default();
    let answers = ask(&question, lent, lent, &mut buffers);
    assert_eq!(buffers.area().len(), words);
    Met::in_call(nodes.len(), &answers.model, buffers.area())
}

#[test]
fn what_is_met() {
    use Met::*;
    assert_eq!(met(&[], 0), [Length(0)]);
    assert_eq!(met(&[], 20), [Length(0)]);
    assert_eq!(met(&[0x2D], 9), [Length(1), Found]);
    assert_eq!(met(&[0x2D], 8), [Length(1), ShortArea]);
    assert_eq!(met(&[0x2D, 1, 0x2D], 40), [Length(3), Found, Absent, Found]);
    assert_eq!(
        met(&[0x8182, 0x2D, 0x8283_65B7], 27),
        [Length(3), Refused(21), Found, Refused(9), FoundAndRefused]
    );
    let nodes = vec![1; MOST_NODES + 1];
    let words = WORDS * nodes.len();
    assert_eq!(met(&nodes, words), [Length(4097), LongList]);
    assert_eq!(met(&nodes, 0), [Length(4097), LongList]);
    assert_eq!(met(&nodes[1..], words - 10), [Length(4096), ShortArea]);
    assert_eq!(met(&nodes[1..], words)[..2], [Length(4096), Absent]);
}

/// Neither way of 17 is told where `more` is another number.
#[test]
fn other_numbers() {
    let told = |length, more| Met::in_call(length, &[17, 0, more], &[]);
    assert_eq!(told(5, 5), [Met::Length(5), Met::ShortArea]);
    assert_eq!(told(5, 4096), [Met::Length(5)]);
    assert_eq!(told(4096, 4096), [Met::Length(4096), Met::ShortArea]);
    assert_eq!(told(4097, 4096), [Met::Length(4097), Met::LongList]);
    assert_eq!(told(4098, 4097), [Met::Length(4098)]);
}

#[test]
fn lists_that_are_drawn() {
    let mut random = Random::new(1);
    let lengths: BTreeSet<_> = (0..20_000).map(|_| length(&mut random)).collect();
    assert!(lengths.is_superset(&[0, 1, 2, 8, 40, 4096, 4097].into()));
    assert_eq!(lengths.last(), Some(&4097));
    let longest: BTreeSet<_> = (0..40).map(|_| long(&mut random)).collect();
    assert_eq!(longest, [4096, 4097].into());
    let (mut repeated, mut ascending) = (0, 0);
    for _ in 0..300 {
        let nodes = draw(8, &mut random, Random::number);
        let apart: BTreeSet<_> = nodes.iter().collect();
        assert_eq!(nodes.len(), 8);
        repeated += usize::from(apart.len() < 8);
        ascending += usize::from(nodes.is_sorted());
    }
    assert!((100..300).contains(&repeated), "{repeated}");
    assert!((50..200).contains(&ascending), "{ascending}");
}

#[test]
fn areas_that_are_drawn() {
    let mut random = Random::new(1);
    let areas: BTreeSet<_> = (0..2000).map(|_| area(10, WORDS, &mut random)).collect();
    let expected = [0].into_iter().chain([81, 89, 90, 91, 98, 99, 108, 117]);
    assert!(areas.is_superset(&expected.collect()));
    assert!(areas.range(1..81).next().is_none());
    let areas: BTreeSet<_> = (0..2000).map(|_| area(0, WORDS, &mut random)).collect();
    assert!(areas.is_superset(&[0, 1, 8, 9, 27].into()));
}
