//! The calls that are timed, each on the same input on two sides: in the proved library and in the model, or
//! in the library as it is and as it was.

pub mod calls;
mod checksums;
#[cfg(former)]
mod former;
mod tables;

use calls::{Calls, MODEL, PROVED};
use checksums::checksums;
use model::build::heaps::{property_context, HeapPlan};
use model::build::{build, most_size_and_children, Built, Plan};
use model::random::Random;
use model::Edition;
use rekwonuda_sys::{self as proved, NodeAnswer, MOST_NODES};
use std::sync::Arc;
use tables::{row_index_of_32_bits, tables};

const SEED: u64 = 1;

/// A call as it is timed. What it answers is a number that tells its work apart.
pub type Timed = Box<dyn FnMut() -> u64>;

/// Two sides that are timed in turns.
pub type Sides = [&'static Calls; 2];

/// One call on one input, on both sides.
pub struct Case {
    pub call: &'static str,
    pub input: String,
    pub left: Timed,
    pub right: Timed,
    /// Of a call for a list or for a row: as many single calls of the proved library.
    pub singles: Option<Timed>,
    /// Of the checksum: one byte at a time, with one table.
    pub one_table: Option<Timed>,
}

impl Case {
    /// The same work with the calls of either side.
    fn new<T: FnMut() -> u64 + 'static>(
        call: &'static str,
        input: impl Into<String>,
        sides: Sides,
        work: impl Fn(&'static Calls) -> T,
    ) -> Case {
        Case::of(call, input, sides.map(work))
    }

    /// Both ways must answer the same, or their times say nothing.
    fn of<T: FnMut() -> u64 + 'static>(
        call: &'static str,
        input: impl Into<String>,
        [mut left, mut right]: [T; 2],
    ) -> Case {
        let input = input.into();
        assert_eq!(left(), right(), "{call}, {input}");
        Case {
            call,
            input,
            left: Box::new(left),
            right: Box::new(right),
            singles: None,
            one_table: None,
        }
    }

    /// The same work by single calls.
    fn with_singles(mut self, singles: impl FnMut() -> u64 + 'static) -> Case {
        self.singles = Some(self.alike(singles));
        self
    }

    /// The same checksum with one table.
    fn with_one_table(mut self, one_table: impl FnMut() -> u64 + 'static) -> Case {
        self.one_table = Some(self.alike(one_table));
        self
    }

    /// A further way, which must answer the same too.
    fn alike(&mut self, mut way: impl FnMut() -> u64 + 'static) -> Timed {
        let answer = (self.left)();
        assert_eq!(answer, way(), "{}, {}", self.call, self.input);
        Box::new(way)
    }
}

/// All cases of the proved library beside the model.
pub fn cases() -> Vec<Case> {
    let sides = [&PROVED, &MODEL];
    let mut cases = of_64_bits(sides);
    cases.extend(on_images(sides, Edition::Bits32));
    cases.push(row_index_of_32_bits());
    cases
}

/// The library as it is beside the library as it was, on what both read; none where no former archive is
/// linked.
#[cfg(former)]
pub fn former_cases() -> Vec<Case> {
    let cases = of_64_bits([&PROVED, &former::FORMER]).into_iter();
    let two_sides = cases.map(|case| Case {
        singles: None,
        one_table: None,
        ..case
    });
    two_sides.collect()
}

/// The library as it is beside the library as it was, on what both read; none where no former archive is
/// linked.
#[cfg(not(former))]
pub fn former_cases() -> Vec<Case> {
    Vec::new()
}

fn of_64_bits(sides: Sides) -> Vec<Case> {
    [
        checksums(sides),
        codings(sides),
        on_images(sides, Edition::Bits64),
        properties(sides),
        tables(sides),
    ]
    .into_iter()
    .flatten()
    .collect()
}

fn on_images(sides: Sides, edition: Edition) -> Vec<Case> {
    let mut cases: Vec<_> = [
        headers(sides, edition),
        tree_checks(sides, edition),
        node_lookups(sides, edition),
        bytes_behind(sides, edition),
        node_lists(sides, edition),
        block_lookups(sides, edition),
        block_tests(sides, edition),
        node_reads(sides, edition),
    ]
    .into_iter()
    .flatten()
    .collect();
    if edition == Edition::Bits32 {
        for case in &mut cases {
            case.input += ", 32 bits";
        }
    }
    cases
}

fn bytes(length: usize) -> Vec<u8> {
    Random::new(SEED).bytes(length)
}

type Coding = fn(&Calls) -> fn(u8, u64, &mut [u8]) -> bool;

fn codings(sides: Sides) -> Vec<Case> {
    let both: [(&str, Coding); 2] = [
        ("encode", |calls| calls.encode),
        ("decode", |calls| calls.decode),
    ];
    let mut cases = Vec::new();
    for (method, name) in [(1, "permute"), (2, "cyclic")] {
        for (call, coding) in both {
            let input = format!("{name}, 8192 bytes");
            cases.push(Case::new(call, input, sides, |calls| {
                let (coding, mut bytes) = (coding(calls), bytes(8192));
                move || {
                    assert!(coding(method, 0x1518, &mut bytes));
                    bytes[0].into()
                }
            }));
        }
    }
    cases
}

fn image(plan: Plan) -> Arc<Built> {
    Arc::new(build(SEED, &Plan { tidy: true, ..plan }))
}

fn headers(sides: Sides, edition: Edition) -> Vec<Case> {
    let built = image(Plan {
        edition,
        ..Plan::default()
    });
    let input = "part of every call on an image";
    vec![Case::new("header", input, sides, |calls| {
        let built = Arc::clone(&built);
        move || (calls.header)(&built.image)
    })]
}

/// Of the node tree also a single page.
fn tree_checks(sides: Sides, edition: Edition) -> Vec<Case> {
    let mut cases = Vec::new();
    for (node_level, bare_nodes) in [(0, 15), (2, 6_000)] {
        let built = image(Plan {
            edition,
            node_level,
            bare_nodes,
            ..Plan::default()
        });
        let input = format!("{bare_nodes} nodes, level {node_level}");
        cases.push(Case::new("check_nodes", input, sides, |calls| {
            let built = Arc::clone(&built);
            move || (calls.check_nodes)(&built.image).into()
        }));
    }
    let built = image(Plan {
        edition,
        spare_blocks: 8_000,
        most_size: 1,
        ..Plan::default()
    });
    let input = "8000 blocks, level 2";
    cases.push(Case::new("check_blocks", input, sides, |calls| {
        let built = Arc::clone(&built);
        move || (calls.check_blocks)(&built.image).into()
    }));
    cases
}

/// Trees up to level 3, of 64 bits full ones, and one of the highest level with a single path.
fn node_lookups(sides: Sides, edition: Edition) -> Vec<Case> {
    let trees = [(0, 15), (1, 300), (2, 6_000), (3, 120_000), (7, 2)];
    let mut cases = Vec::new();
    for (node_level, bare_nodes) in trees {
        let built = image(Plan {
            edition,
            node_level,
            bare_nodes,
            ..Plan::default()
        });
        let key = u64::from(built.nodes[built.nodes.len() / 2].node);
        let input = format!("level {node_level}, {bare_nodes} nodes");
        cases.push(Case::new("find_node", input.clone(), sides, |calls| {
            let built = Arc::clone(&built);
            move || (calls.find_node)(&built.image, key)
        }));
        cases.push(Case::new("next_node", input, sides, |calls| {
            let built = Arc::clone(&built);
            move || (calls.next_node)(&built.image, key)
        }));
    }
    cases
}

/// A check and a lookup in an image with a mebibyte of old bytes behind its end.
fn bytes_behind(sides: Sides, edition: Edition) -> Vec<Case> {
    let built = image(Plan {
        edition,
        node_level: 2,
        bare_nodes: 6_000,
        ..Plan::default()
    });
    let key = u64::from(built.nodes[built.nodes.len() / 2].node);
    let image: Arc<[u8]> = [&built.image[..], &bytes(1 << 20)].concat().into();
    let behind = "1 MiB behind the end";
    let check = format!("6000 nodes, level 2, {behind}");
    let lookup = format!("level 2, 6000 nodes, {behind}");
    vec![
        Case::new("check_nodes", check, sides, |calls| {
            let image = Arc::clone(&image);
            move || (calls.check_nodes)(&image).into()
        }),
        Case::new("find_node", lookup, sides, |calls| {
            let image = Arc::clone(&image);
            move || (calls.find_node)(&image, key)
        }),
    ]
}

/// Full lists in trees of three depths: any nodes, and nodes next to one another.
fn node_lists(sides: Sides, edition: Edition) -> Vec<Case> {
    let trees = [(1, 300), (2, 6_000), (3, 120_000)];
    let mut cases = Vec::new();
    for (node_level, bare_nodes) in trees {
        let built = image(Plan {
            edition,
            node_level,
            bare_nodes,
            ..Plan::default()
        });
        let known = built.node_numbers();
        let lists = [
            ("in any order", drawn(&known)),
            ("neighbours", neighbours(&known)),
        ];
        for (kind, nodes) in lists {
            let input = format!("{MOST_NODES} {kind}; level {node_level}, {bare_nodes} nodes");
            cases.push(node_list(sides, &built, &Arc::new(nodes), input));
        }
    }
    cases
}

/// Numbers in any order, some of them more than once.
fn drawn(known: &[u64]) -> Vec<u64> {
    let mut random = Random::new(SEED);
    let draw = |_| random.pick(known).copied().unwrap_or(0);
    (0..MOST_NODES).map(draw).collect()
}

/// Numbers that ascend without a gap, from the midst of the tree; of a tree with fewer nodes all of them,
/// again and again.
fn neighbours(known: &[u64]) -> Vec<u64> {
    let before = known.len().saturating_sub(MOST_NODES) / 2;
    let ascending = known.iter().cycle().skip(before);
    ascending.take(MOST_NODES).copied().collect()
}

/// A list in one call, on both sides, and by single calls; all three fill an area of places.
fn node_list(sides: Sides, built: &Arc<Built>, nodes: &Arc<Vec<u64>>, input: String) -> Case {
    let (single, one_by_one) = (Arc::clone(built), Arc::clone(nodes));
    let mut single_places = vec![[0; NodeAnswer::WORDS]; nodes.len()];
    Case::new("find_nodes", input, sides, |calls| {
        let (built, nodes) = (Arc::clone(built), Arc::clone(nodes));
        let mut area = vec![0; NodeAnswer::WORDS * nodes.len()];
        move || {
            assert!((calls.find_nodes)(&built.image, &nodes, &mut area));
            sum(&area)
        }
    })
    .with_singles(move || {
        for (place, node) in single_places.iter_mut().zip(one_by_one.iter()) {
            *place = proved::find_node(&single.image, *node).fields();
        }
        sum(single_places.as_flattened())
    })
}

fn sum(words: &[u64]) -> u64 {
    words.iter().fold(0, |sum, word| sum.wrapping_add(*word))
}

fn block_lookups(sides: Sides, edition: Edition) -> Vec<Case> {
    let trees = [(0, 20), (1, 400), (2, 8_000)];
    let mut cases = Vec::new();
    for (level, spare_blocks) in trees {
        let built = image(Plan {
            edition,
            spare_blocks,
            most_size: 1,
            ..Plan::default()
        });
        let key = built.blocks[built.blocks.len() / 2].number;
        let input = format!("level {level}, {spare_blocks} blocks");
        cases.push(Case::new("find_block", input, sides, |calls| {
            let built = Arc::clone(&built);
            move || (calls.find_block)(&built.image, key)
        }));
    }
    cases
}

fn block_tests(sides: Sides, edition: Edition) -> Vec<Case> {
    let mut cases = Vec::new();
    for (method, name) in [(0, "none"), (1, "permute"), (2, "cyclic")] {
        let built = image(Plan {
            edition,
            method,
            block_level: 1,
            spare_blocks: 40,
            most_size: usize::MAX,
            ..Plan::default()
        });
        let largest = built.blocks.iter().max_by_key(|block| block.size);
        let (key, size) = largest.map_or((0, 0), |block| (block.number, block.size));
        if method == 0 {
            let input = format!("{size} bytes, level 1");
            cases.push(Case::new("test_block", input, sides, |calls| {
                let built = Arc::clone(&built);
                move || (calls.test_block)(&built.image, key)
            }));
        }
        let input = format!("{size} bytes, {name}");
        cases.push(Case::new("read_block", input, sides, |calls| {
            let (built, mut out) = (Arc::clone(&built), vec![0; usize::from(size)]);
            move || (calls.read_block)(&built.image, key, &mut out)
        }));
    }
    cases
}

fn node_reads(sides: Sides, edition: Edition) -> Vec<Case> {
    let mut cases = Vec::new();
    let (_, most) = most_size_and_children(edition);
    for most_children in [8, 128, most] {
        let built = image(Plan {
            edition,
            method: 1,
            tree_nodes: 1,
            most_children,
            most_size: usize::MAX,
            ..Plan::default()
        });
        let key = u64::from(built.nodes[0].node);
        let length = built.data(&built.nodes[0]).len();
        let input = format!("{most_children} blocks, {length} bytes, permute");
        cases.push(Case::new("read_node", input, sides, |calls| {
            let (built, mut out) = (Arc::clone(&built), vec![0; length]);
            move || (calls.read_node)(&built.image, key, &mut out)
        }));
    }
    cases
}

fn properties(sides: Sides) -> Vec<Case> {
    let mut cases = Vec::new();
    for index_levels in 0..=3 {
        let plan = HeapPlan {
            index_levels,
            properties: 200,
            most_value: 60,
            tidy: true,
        };
        let heap = property_context(&mut Random::new(SEED), plan);
        let count = heap.properties.len();
        let id = heap.properties.keys().nth(count / 2).copied().unwrap_or(0);
        let input = format!("{count} properties, index levels: {index_levels}");
        cases.push(Case::new("find_property", input, sides, |calls| {
            let block = heap.block.clone();
            move || (calls.find_property)(&block, id)
        }));
    }
    cases
}
