//! Which key rule a page breaks, and at which entry: 11 is order, 21 is range.

use model::build::keys::{
    below, equal, exchanged, index_last, order_first, range_first, shuffled, unsplit,
};
use model::build::seal::seal_page;
use model::build::{build, Built, PlacedPage, Plan};
use model::edition::{Edition, Entries};
use model::page::{Page, Range, Sought, Tree};
use model::{
    check_blocks, check_nodes, find_block, find_node, next_block, next_node, read_block, read_node,
    test_block, Answer, Reference, Refusal,
};

const PLACE: usize = 0x4400;
const NUMBER: u64 = 0x207;
const TREES: [Tree; 2] = [Tree::Nodes, Tree::Blocks];

fn put(image: &mut [u8], at: usize, number: u64) {
    image[at..at + 8].copy_from_slice(&number.to_le_bytes());
}

fn entries(tree: Tree, level: u8) -> Entries {
    Edition::Bits64.layout().entries(tree, level)
}

/// A page of those keys, with nothing behind it.
fn image_of(tree: Tree, level: u8, keys: &[u64]) -> Vec<u8> {
    let mut image = vec![0; PLACE + 512];
    let Entries { size, most } = entries(tree, level);
    for (at, &key) in keys.iter().enumerate() {
        put(&mut image, PLACE + at * size, key);
    }
    let counts = [keys.len() as u8, most as u8];
    image[PLACE + 488..PLACE + 490].copy_from_slice(&counts);
    image[PLACE + 490..PLACE + 492].copy_from_slice(&[size as u8, level]);
    image[PLACE + 496..PLACE + 498].copy_from_slice(&[tree.kind(); 2]);
    put(&mut image, PLACE + 504, NUMBER);
    seal_page(&mut image, PLACE);
    image
}

fn checked_in(image: &[u8], tree: Tree, level: u8, range: Range) -> Answer<()> {
    let reference = Reference {
        number: NUMBER,
        offset: PLACE as u64,
    };
    let sought = Sought {
        layout: Edition::Bits64.layout(),
        reference,
        level: Some(level),
        range,
    };
    Page::check(image, tree, sought).map(|_| ())
}

fn checked(tree: Tree, level: u8, keys: &[u64], range: Range) -> Answer<()> {
    checked_in(&image_of(tree, level, keys), tree, level, range)
}

/// From 8 up to 40, which is left out.
const RANGE: Range = Range {
    low: 8,
    end: Some(40),
};

const ACCEPTED: Answer<()> = Ok(());

fn out_of_order<T>(at: usize) -> Answer<T> {
    Err(Refusal::key_order(PLACE as u64, at))
}

fn out_of_range<T>(at: usize) -> Answer<T> {
    Err(Refusal::key_range(PLACE as u64, at))
}

/// Keys of a leaf and of an index page, in both trees.
fn assert_checked(keys: &[u64], range: Range, expected: Answer<()>) {
    for tree in TREES {
        for level in [0, 1, 6] {
            let answer = checked(tree, level, keys, range);
            assert_eq!(answer, expected, "{tree:?}, level {level}, {keys:?}");
        }
    }
}

#[test]
fn numbers_and_fields() {
    let order = Refusal::key_order(0x4C00, 3);
    assert_eq!((order.number, order.place, order.more), (11, 0x4C00, 3));
    let range = Refusal::key_range(0x4C00, 0);
    assert_eq!((range.number, range.place, range.more), (21, 0x4C00, 0));
}

#[test]
fn keys_in_order_and_range() {
    assert_checked(&[8], RANGE, ACCEPTED);
    assert_checked(&[38], RANGE, ACCEPTED);
    assert_checked(&[8, 20, 38], RANGE, ACCEPTED);
    assert_checked(&[10, 12, 14, 16], RANGE, ACCEPTED);
}

#[test]
fn not_above_the_one_before() {
    assert_checked(&[8, 8], RANGE, out_of_order(1));
    assert_checked(&[8, 8, 12], RANGE, out_of_order(1));
    assert_checked(&[8, 12, 12], RANGE, out_of_order(2));
    assert_checked(&[8, 12, 10], RANGE, out_of_order(2));
    assert_checked(&[12, 8, 16], RANGE, out_of_order(1));
    assert_checked(&[8, 12, 16, 14, 20], RANGE, out_of_order(3));
    // The first of two.
    assert_checked(&[8, 16, 12, 20, 18], RANGE, out_of_order(2));
    assert_checked(&[20, 16, 12, 8], RANGE, out_of_order(1));
}

#[test]
fn outside_the_range() {
    assert_checked(&[6], RANGE, out_of_range(0));
    assert_checked(&[40], RANGE, out_of_range(0));
    assert_checked(&[0, 8, 12], RANGE, out_of_range(0));
    assert_checked(&[2, 4, 6], RANGE, out_of_range(0));
    assert_checked(&[40, 42, 44], RANGE, out_of_range(0));
    assert_checked(&[8, 40, 42], RANGE, out_of_range(1));
    assert_checked(&[8, 12, 40], RANGE, out_of_range(2));
    assert_checked(&[8, 12, 100], RANGE, out_of_range(2));
    // The first of two.
    assert_checked(&[4, 6, 12, 40], RANGE, out_of_range(0));
}

/// At one entry order comes first.
#[test]
fn both_rules_at_one_entry() {
    assert_checked(&[8, 6], RANGE, out_of_order(1));
    assert_checked(&[8, 6, 12], RANGE, out_of_order(1));
    assert_checked(&[8, 12, 0], RANGE, out_of_order(2));
    assert_checked(&[38, 4, 40], RANGE, out_of_order(1));
}

/// Two equal keys lie both inside the range or both outside it. Outside, the first of them is at fault
/// by its range before the second is by its order.
#[test]
fn equal_keys_outside_the_range() {
    assert_checked(&[6, 6], RANGE, out_of_range(0));
    assert_checked(&[40, 40], RANGE, out_of_range(0));
    assert_checked(&[8, 40, 40], RANGE, out_of_range(1));
    assert_checked(&[8, 12, 40, 40], RANGE, out_of_range(2));
}

/// Whichever stands further left.
#[test]
fn one_rule_before_the_other() {
    assert_checked(&[6, 12, 12], RANGE, out_of_range(0));
    assert_checked(&[44, 12, 16], RANGE, out_of_range(0));
    assert_checked(&[8, 44, 12], RANGE, out_of_range(1));
    assert_checked(&[8, 40, 42, 41], RANGE, out_of_range(1));
    assert_checked(&[8, 12, 44, 16, 16], RANGE, out_of_range(2));
    assert_checked(&[8, 8, 40], RANGE, out_of_order(1));
    assert_checked(&[12, 10, 6], RANGE, out_of_order(1));
    assert_checked(&[12, 10, 16, 44, 46], RANGE, out_of_order(1));
    assert_checked(&[8, 12, 12, 40], RANGE, out_of_order(2));
}

/// Block numbers that differ in bit 0 alone are equal, and an end of the range is the same key with the
/// bit; node numbers count with bit 0, and on their low four bytes.
#[test]
fn keys_as_compared() {
    let blocks = |keys: &[u64]| checked(Tree::Blocks, 0, keys, RANGE);
    let nodes = |keys: &[u64]| checked(Tree::Nodes, 0, keys, RANGE);
    assert_eq!(blocks(&[10, 11]), out_of_order(1));
    assert_eq!(blocks(&[11, 10]), out_of_order(1));
    assert_eq!(blocks(&[9, 12, 13]), out_of_order(2));
    assert_eq!(blocks(&[9, 11, 39]), ACCEPTED);
    assert_eq!(blocks(&[9, 7]), out_of_order(1));
    assert_eq!(blocks(&[7]), out_of_range(0));
    assert_eq!(blocks(&[9, 41]), out_of_range(1));
    assert_eq!(blocks(&[8 | 1 << 32, 12]), out_of_range(0));
    assert_eq!(nodes(&[10, 11]), ACCEPTED);
    assert_eq!(nodes(&[11, 10]), out_of_order(1));
    assert_eq!(nodes(&[9, 39]), ACCEPTED);
    assert_eq!(nodes(&[8 | 7 << 32, 12]), ACCEPTED);
    assert_eq!(nodes(&[8, 8 | 1 << 32]), out_of_order(1));
    assert_eq!(nodes(&[8, 12, 0x28 | 1 << 63]), out_of_range(2));
}

/// The shortest row of entries, from the left, that is not right tells the entry at fault.
fn first_fault(keys: &[u64], range: Range) -> Answer<()> {
    let ascends = |keys: &[u64]| keys.windows(2).all(|pair| pair[0] < pair[1]);
    let right = |keys: &[u64]| ascends(keys) && keys.iter().all(|&key| range.holds(key));
    let Some(at) = (0..keys.len()).find(|&at| !right(&keys[..=at])) else {
        return ACCEPTED;
    };
    if ascends(&keys[..=at]) {
        out_of_range(at)
    } else {
        out_of_order(at)
    }
}

/// Every row of so many keys out of 0, 2, 4, 6 and 8.
fn rows(length: u32) -> impl Iterator<Item = Vec<u64>> {
    (0..5_u64.pow(length)).map(move |row| {
        let key = |at| row / 5_u64.pow(at) % 5 * 2;
        (0..length).map(key).collect()
    })
}

fn assert_row(keys: &[u64], range: Range) {
    for tree in TREES {
        let answer = checked(tree, 1, keys, range);
        assert_eq!(answer, first_fault(keys, range), "{keys:?}, {range:?}");
    }
}

#[test]
fn every_short_row_of_keys() {
    let ends = [None, Some(4), Some(6), Some(8)];
    let ranges = ends.map(|end| [0, 2, 4].map(|low| Range { low, end }));
    for keys in (1..=4).flat_map(rows) {
        for &range in ranges.iter().flatten() {
            assert_row(&keys, range);
        }
    }
}

/// The page with another key in one place: above the range, below it, and equal to the one before.
fn assert_entry(tree: Tree, level: u8, full: &[u64], at: usize) {
    let range = Range {
        low: full[0],
        end: Some(full[full.len() - 1] + 2),
    };
    let with = |key| {
        let mut keys = full.to_vec();
        keys[at] = key;
        checked(tree, level, &keys, range)
    };
    assert_eq!(with(full[at]), ACCEPTED);
    assert_eq!(with(1000), out_of_range(at));
    if at == 0 {
        assert_eq!(with(8), out_of_range(0));
    } else {
        assert_eq!(with(8), out_of_order(at));
        assert_eq!(with(full[at - 1]), out_of_order(at));
    }
}

#[test]
fn every_entry_of_a_full_page() {
    for (tree, level) in [(Tree::Nodes, 0), (Tree::Nodes, 1), (Tree::Blocks, 0)] {
        let count = entries(tree, level).most;
        let full: Vec<_> = (10_u64..).step_by(2).take(count).collect();
        for at in 0..count {
            assert_entry(tree, level, &full, at);
        }
    }
}

/// Unsealed, or with a wrong count, a page is refused for that, whatever its keys.
#[test]
fn other_tests_come_first() {
    let mut image = image_of(Tree::Blocks, 0, &[12, 10, 44]);
    let check = |image: &[u8]| checked_in(image, Tree::Blocks, 0, RANGE);
    assert_eq!(check(&image), out_of_order(1));
    image[PLACE + 488] = 21;
    assert_eq!(check(&image), Err(Refusal::new(9, PLACE as u64)));
    seal_page(&mut image, PLACE);
    assert_eq!(check(&image), Err(Refusal::new(10, PLACE as u64)));
    // Entries past the count are no entries.
    image[PLACE + 488] = 1;
    seal_page(&mut image, PLACE);
    assert_eq!(check(&image), ACCEPTED);
}

/// A page of a built image with the range that it is reached with.
struct Reached {
    built: Built,
    page: PlacedPage,
    range: Range,
}

#[derive(Clone, Copy, PartialEq, Eq, Debug)]
enum Role {
    Root,
    Index,
    Leaf,
}

fn role(page: &PlacedPage) -> Role {
    match page.level {
        _ if page.is_root => Role::Root,
        0 => Role::Leaf,
        _ => Role::Index,
    }
}

fn range_of(built: &Built, page: &PlacedPage) -> Range {
    let is_named = |parent: &PlacedPage, at: usize| {
        let field = parent.offset + 24 * at + 16;
        built.image[field..field + 8] == (page.offset as u64).to_le_bytes()
    };
    let above = |other: &&PlacedPage| other.tree == page.tree && other.level == page.level + 1;
    let entry = built.pages.iter().filter(above).find_map(|parent| {
        let at = (0..parent.keys.len()).find(|&at| is_named(parent, at))?;
        Some((parent, at))
    });
    entry.map_or(Range::ALL, |(parent, at)| Range {
        low: page.tree.key(parent.keys[at]),
        end: match parent.keys.get(at + 1) {
            Some(&key) => Some(page.tree.key(key)),
            None => range_of(built, parent).end,
        },
    })
}

impl Reached {
    /// At least three entries, and keys to either side of the range where there is one.
    fn is_telling(&self) -> bool {
        let bounded = self.range.low > 2 && self.range.end.is_some();
        self.page.keys.len() > 2 && (bounded || self.page.is_root)
    }

    /// The image with those keys changed, and the page sealed.
    fn with_keys(&self, changes: &[(usize, u64)]) -> Vec<u8> {
        let mut image = self.built.image.clone();
        let size = entries(self.page.tree, self.page.level).size;
        for &(at, key) in changes {
            put(&mut image, self.page.offset + at * size, key);
        }
        seal_page(&mut image, self.page.offset);
        image
    }

    fn refusal(&self, number: u64, at: usize) -> Refusal {
        Refusal {
            number,
            place: self.page.offset as u64,
            more: at as u64,
        }
    }

    /// Every call whose path has the page is refused so, and no lookup off it.
    fn assert_refused(&self, changes: &[(usize, u64)], number: u64, at: usize) {
        let image = self.with_keys(changes);
        let refusal = self.refusal(number, at);
        match self.page.tree {
            Tree::Nodes => self.assert_nodes(&image, refusal),
            Tree::Blocks => self.assert_blocks(&image, refusal),
        }
    }

    fn assert_nodes(&self, image: &[u8], refusal: Refusal) {
        assert_eq!(check_nodes(image), Err(refusal));
        for number in self.built.node_numbers() {
            if self.range.holds(number) {
                assert_eq!(find_node(image, number), Err(refusal));
                assert_eq!(next_node(image, number), Err(refusal));
                assert_eq!(read_node(image, number, &mut []), Err(refusal));
            } else {
                assert!(find_node(image, number).is_ok());
            }
        }
    }

    fn assert_blocks(&self, image: &[u8], refusal: Refusal) {
        assert_eq!(check_blocks(image), Err(refusal));
        for node in &self.built.nodes {
            let (number, block) = (u64::from(node.node), node.data);
            let mut out = [7; 60];
            if self.range.holds(Tree::Blocks.key(block)) {
                assert_eq!(find_block(image, block), Err(refusal));
                assert_eq!(next_block(image, Tree::Blocks.key(block)), Err(refusal));
                assert_eq!(test_block(image, block), Err(refusal));
                assert_eq!(read_block(image, block, &mut out), Err(refusal));
                assert_eq!(read_node(image, number, &mut out), Err(refusal));
                assert_eq!(out, [7; 60]);
            } else {
                assert!(read_node(image, number, &mut out).is_ok());
            }
        }
    }

    fn assert_any_keys(&self) {
        let highest = self.page.tree.key(u64::MAX);
        let ends = [0, 2, highest - 2, highest];
        for keys in rows(4).chain([ends.into()]) {
            let changes: Vec<_> = keys.iter().copied().enumerate().collect();
            match first_fault(&keys, Range::ALL) {
                Ok(()) => self.assert_accepted(&changes),
                Err(fault) => self.assert_refused(&changes, 11, fault.more as usize),
            }
        }
    }

    fn assert_accepted(&self, changes: &[(usize, u64)]) {
        let image = self.with_keys(changes);
        assert_eq!(check_nodes(&image), Ok(()));
        assert_eq!(check_blocks(&image), Ok(()));
    }

    fn assert_order(&self) {
        let (keys, last) = (&self.page.keys, self.page.keys.len() - 1);
        self.assert_refused(&[(1, keys[0])], 11, 1);
        self.assert_refused(&[(last, keys[last - 1])], 11, last);
        self.assert_refused(&[(last, keys[0])], 11, last);
        let shuffled = [(1, keys[last]), (last, keys[1])];
        self.assert_refused(&shuffled, 11, 2);
        if self.page.tree == Tree::Blocks {
            self.assert_refused(&[(1, keys[0] ^ 1)], 11, 1);
        }
    }

    fn assert_range(&self) {
        let (keys, last) = (&self.page.keys, self.page.keys.len() - 1);
        let Range { low, end } = self.range;
        let (below, end) = (low - 2, end.expect("an end"));
        self.assert_refused(&[(0, below)], 21, 0);
        self.assert_refused(&[(0, end)], 21, 0);
        self.assert_refused(&[(1, end)], 21, 1);
        self.assert_refused(&[(last, end)], 21, last);
        self.assert_refused(&[(0, below), (last, keys[last - 1])], 21, 0);
        self.assert_refused(&[(1, below)], 11, 1);
        self.assert_refused(&[(last, below)], 11, last);
        self.assert_refused(&[(1, keys[0]), (last, end)], 11, 1);
    }
}

/// A page of that sort that has room for every fault.
fn telling_page(tree: Tree, sought: Role) -> Reached {
    let plan = Plan {
        method: 2,
        node_level: 2,
        block_level: 2,
        block_nodes: 24,
        most_size: 60,
        ..Plan::default()
    };
    let of_the_sort = |page: &&PlacedPage| page.tree == tree && role(page) == sought;
    let found = (0..200).find_map(|seed| {
        let built = build(seed, &plan);
        let pages = built.pages.iter().filter(of_the_sort).cloned();
        let mut reached = pages.map(|page| Reached {
            range: range_of(&built, &page),
            built: built.clone(),
            page,
        });
        reached.find(Reached::is_telling)
    });
    found.expect("such a page")
}

/// A root's range is everything, so that 21 never comes there.
#[test]
fn any_keys_in_a_root() {
    let plan = Plan {
        block_nodes: 4,
        most_size: 40,
        tidy: true,
        ..Plan::default()
    };
    let built = build(1, &plan);
    for page in built.pages.iter().cloned() {
        assert!(page.is_root);
        Reached {
            range: Range::ALL,
            built: built.clone(),
            page,
        }
        .assert_any_keys();
    }
}

#[test]
fn order_in_every_call() {
    for tree in TREES {
        for role in [Role::Root, Role::Index, Role::Leaf] {
            telling_page(tree, role).assert_order();
        }
    }
}

#[test]
fn range_in_every_call() {
    for tree in TREES {
        for role in [Role::Index, Role::Leaf] {
            telling_page(tree, role).assert_range();
        }
    }
}

/// The page of those keys is refused so, and the other tree is accepted.
fn assert_image(built: &Built, tree: Tree, keys: &[u64], number: u64, at: usize) {
    let is_it = |page: &&PlacedPage| page.tree == tree && page.keys == keys;
    let page = built.pages.iter().find(is_it).expect("that page");
    let refusal = Refusal {
        number,
        place: page.offset as u64,
        more: at as u64,
    };
    let [nodes, blocks] = match tree {
        Tree::Nodes => [Err(refusal), Ok(())],
        Tree::Blocks => [Ok(()), Err(refusal)],
    };
    assert_eq!(check_nodes(&built.image), nodes);
    assert_eq!(check_blocks(&built.image), blocks);
}

#[test]
fn chosen_images_of_blocks() {
    let cases: [(Built, &[u64], u64, usize); 4] = [
        (
            shuffled(Edition::Bits64),
            &[0x108, 0x10C, 0x114, 0x110],
            11,
            3,
        ),
        (equal(Edition::Bits64), &[0x114, 0x114, 0x11B], 11, 1),
        (
            range_first(Edition::Bits64),
            &[0x108, 0x10C, 0x118, 0x118],
            21,
            2,
        ),
        (below(Edition::Bits64), &[0x108, 0x100, 0x110, 0x114], 11, 1),
    ];
    for (built, keys, number, at) in cases {
        assert_image(&built, Tree::Blocks, keys, number, at);
    }
}

#[test]
fn chosen_images_of_nodes() {
    let before_its_split = [0x8062, 0x8082, 0x80A2, 0x80C2, 0x80E2, 0x8102];
    let cases: [(Built, &[u64], u64, usize); 3] = [
        (unsplit(Edition::Bits64), &before_its_split, 21, 4),
        (
            order_first(Edition::Bits64),
            &[0x8062, 0x8062, 0x80A2, 0x80E2],
            11,
            1,
        ),
        (
            index_last(Edition::Bits64),
            &[0x8042, 0x8082, 0x8102],
            21,
            2,
        ),
    ];
    for (built, keys, number, at) in cases {
        assert_image(&built, Tree::Nodes, keys, number, at);
    }
}

/// Each of the two leaves is refused at its first key, where the other's numbers are sought.
#[test]
fn leaves_in_the_place_of_each_other() {
    let built = exchanged(Edition::Bits64);
    assert_image(&built, Tree::Blocks, &[0x108, 0x10C, 0x110, 0x114], 21, 0);
    let [left, right] = [0x4B00, 0x4D00].map(|place| Refusal::key_range(place, 0));
    for number in [0x100, 0x104] {
        assert_eq!(test_block(&built.image, number), Err(right));
    }
    for number in [0x108, 0x10C, 0x110, 0x114] {
        assert_eq!(test_block(&built.image, number), Err(left));
    }
    assert_eq!(next_block(&built.image, 0), Err(right));
    assert_eq!(next_block(&built.image, 0x109), Err(left));
    assert_eq!(test_block(&built.image, 0x118), Ok(60));
}
