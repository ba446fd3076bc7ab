//! The faults of keys that the comparison has to meet, and how a refusal is told to be one of them.

use compare::keys::{KeyFault, Other, Position, Role, Rule};
use model::build::keys::{
    below, equal, exchanged, index_last, order_first, range_first, shuffled, unsplit,
};
use model::build::{build, Plan};
use model::edition::Edition;
use model::page::Tree;
use model::Refusal;
use std::collections::BTreeSet;

/// Ten in each sort of page that is no root, and two in each root.
#[test]
fn faults_that_can_occur() {
    let all: BTreeSet<_> = KeyFault::all_that_can_occur().collect();
    assert_eq!(all.len(), 2 * 44);
    let of = |role| all.iter().filter(move |fault| fault.role == role);
    assert_eq!(of(Role::Index).count(), 2 * 20);
    assert_eq!(of(Role::Leaf).count(), 2 * 20);
    let in_root = |fault: &KeyFault| (fault.rule, fault.other);
    let in_roots: BTreeSet<_> = of(Role::Root).map(in_root).collect();
    assert_eq!(in_roots, [(Rule::Order, Other::Nowhere)].into());
    let words: BTreeSet<_> = all.iter().map(ToString::to_string).collect();
    assert_eq!(words.len(), 10);
}

/// What the checks of both trees refuse.
fn faults(image: &[u8]) -> Vec<KeyFault> {
    let answers = [model::check_nodes(image), model::check_blocks(image)];
    let refusals = answers.into_iter().filter_map(Result::err);
    refusals
        .filter_map(|refusal| KeyFault::of(image, refusal))
        .collect()
}

#[test]
fn chosen_images() {
    Edition::BOTH.into_iter().for_each(assert_chosen);
}

fn assert_chosen(edition: Edition) {
    use {Other::*, Position::*, Role::*, Rule::*, Tree::*};
    let cases = [
        (shuffled(edition), (Blocks, Leaf, Order, Last, Nowhere)),
        (equal(edition), (Blocks, Index, Order, Middle, Nowhere)),
        (exchanged(edition), (Blocks, Leaf, Range, First, Nowhere)),
        (unsplit(edition), (Nodes, Leaf, Range, Middle, Nowhere)),
        (range_first(edition), (Blocks, Leaf, Range, Middle, Later)),
        (order_first(edition), (Nodes, Leaf, Order, Middle, Later)),
        (below(edition), (Blocks, Leaf, Order, Middle, SameEntry)),
        (index_last(edition), (Nodes, Index, Range, Last, Nowhere)),
    ];
    for (built, (tree, role, rule, position, other)) in cases {
        let fault = KeyFault {
            edition,
            tree,
            role,
            rule,
            position,
            other,
        };
        assert_eq!(faults(&built.image), [fault]);
        assert!(fault.can_occur());
    }
}

#[test]
fn no_fault_of_keys() {
    let built = build(1, &Plan::default());
    let place = built.pages[0].offset as u64;
    assert_eq!(faults(&built.image), []);
    assert_eq!(KeyFault::of(&built.image, Refusal::new(9, place)), None);
    // No page is refused so.
    assert_eq!(
        KeyFault::of(&built.image, Refusal::key_order(place, 1)),
        None
    );
}
