//! What a reader answers to the chosen images, a line for each call: the file `stdout` of the crate
//! `images`, whose program asks the proved reader the same.

use crate::heap::MOST_HEAP;
use crate::images::images;
use crate::nodes::WORDS;
use crate::{Answer, Block, Lookup, Node, Property, Refusal, Value};
use std::fmt::{Display, Write};

const BUFFER: usize = 65_536;
const SHORT_BUFFER: [u8; 16] = [0xA5; 16];
const MOST_LISTED: usize = 60;
const MOST_PROPERTIES: usize = 16;
const MOST_IN_LIST: usize = 12;

/// What every word of a result area is before a call.
pub(crate) const FRESH_WORD: u64 = 0xA5A5_A5A5_A5A5_A5A5;

/// Asked of data that is no heap.
const ANY_PROPERTY: u16 = 0x3001;

/// The name and the bytes of each file that the program reads.
pub fn files() -> Vec<(String, Vec<u8>)> {
    let named = |(at, image): (usize, crate::images::Image)| {
        (format!("{:02}-{}.img", at + 1, image.name), image.bytes)
    };
    images().into_iter().enumerate().map(named).collect()
}

pub fn report() -> String {
    let mut lines = String::new();
    for (name, image) in files() {
        let mut asked = Asked {
            image: &image,
            out: vec![0; BUFFER],
            lines: &mut lines,
        };
        asked.say(&name, bytes_in_words(&image));
        asked.whole();
        asked.list_nodes();
        asked.lists_of_nodes();
        asked.list_blocks();
    }
    lines
}

struct Asked<'a> {
    image: &'a [u8],
    out: Vec<u8>,
    lines: &'a mut String,
}

impl Asked<'_> {
    fn say(&mut self, call: impl Display, answer: impl Display) {
        writeln!(self.lines, "{call}: {answer}").expect("a String takes any line");
    }

    fn whole(&mut self) {
        let header = crate::header(self.image).map(|header| {
            let (nodes, blocks) = (header.nodes, header.blocks);
            format!(
                "method {}, nodes {:x} at {:x}, blocks {:x} at {:x}, end {}, edition {}",
                header.method,
                nodes.number,
                nodes.offset,
                blocks.number,
                blocks.offset,
                header.end,
                header.edition.bits()
            )
        });
        self.say("header", or_refusal(header));
        let nodes = crate::check_nodes(self.image);
        self.say("check_nodes", accepted(nodes));
        let blocks = crate::check_blocks(self.image);
        self.say("check_blocks", accepted(blocks));
    }

    fn list_nodes(&mut self) {
        let mut from = 0;
        for _ in 0..MOST_LISTED {
            let found = crate::next_node(self.image, from);
            self.say(format!("next_node {from:x}"), lookup(found, node_in_words));
            let Some(node) = found.ok().and_then(Lookup::found) else {
                self.node(from);
                return;
            };
            self.node(u64::from(node.node));
            if node.node == u32::MAX {
                return;
            }
            from = u64::from(node.node) + 1;
        }
    }

    fn node(&mut self, node: u64) {
        let found = crate::find_node(self.image, node);
        self.say(format!("find_node {node:x}"), lookup(found, node_in_words));
        self.read_node(node, &mut { SHORT_BUFFER });
        let mut out = std::mem::take(&mut self.out);
        let length = self.read_node(node, &mut out);
        if (1..=MOST_HEAP).contains(&length) {
            self.heap(&out[..length]);
        }
        self.out = out;
    }

    fn read_node(&mut self, node: u64, out: &mut [u8]) -> usize {
        let read = crate::read_node(self.image, node, out);
        let answer = read.map(|length| match length {
            Some(length) => bytes_in_words(&out[..length]),
            None => "absent".into(),
        });
        self.say_read(format!("read_node {node:x}"), answer, out);
        read.ok().flatten().unwrap_or(0)
    }

    fn say_read(&mut self, call: String, answer: Answer<String>, out: &[u8]) {
        let buffer = bytes_in_words(out);
        self.say(call, format!("{}; buffer of {buffer}", or_refusal(answer)));
    }

    fn heap(&mut self, block: &[u8]) {
        let tested = crate::test_heap(block);
        self.say("test_heap", accepted(tested));
        if tested.is_err() {
            self.property(block, ANY_PROPERTY);
            return;
        }
        let (mut below, mut shown) = (0, 0);
        for id in 0..=u16::MAX {
            below = u32::from(id) + 1;
            shown += usize::from(self.property(block, id));
            if shown == MOST_PROPERTIES {
                break;
            }
        }
        self.say(
            format!("find_property below {below:x}"),
            format!("not absent {shown}"),
        );
    }

    /// Whether it is there or refused, and so has a line.
    fn property(&mut self, block: &[u8], id: u16) -> bool {
        let answer = crate::find_property(block, id);
        let Some(answer) = answer.transpose() else {
            return false;
        };
        let words = answer.map(|property| property_in_words(block, property));
        self.say(format!("find_property {id:04x}"), or_refusal(words));
        true
    }

    /// A list in an area as long as it needs, one word short, and longer by less than a place; then the
    /// empty list.
    fn lists_of_nodes(&mut self) {
        let nodes = self.some_nodes();
        let needed = WORDS * nodes.len();
        for words in [needed, needed - 1, needed + 5] {
            self.find_nodes(&nodes, words);
        }
        self.find_nodes(&[], 5);
    }

    /// The first nodes, or 0 where there are none; the first again, and with a bit that does not count;
    /// and the highest number.
    fn some_nodes(&self) -> Vec<u64> {
        let mut nodes = Vec::new();
        let mut from = 0;
        for _ in 0..MOST_IN_LIST {
            let found = crate::next_node(self.image, from);
            let Some(node) = found.ok().and_then(Lookup::found) else {
                break;
            };
            nodes.push(u64::from(node.node));
            if node.node == u32::MAX {
                break;
            }
            from = u64::from(node.node) + 1;
        }
        if nodes.is_empty() {
            nodes.push(0);
        }
        let first = nodes[0];
        nodes.extend([first, first + (1 << 32), u64::from(u32::MAX)]);
        nodes
    }

    fn find_nodes(&mut self, nodes: &[u64], words: usize) {
        let mut area = vec![FRESH_WORD; words];
        let answer = accepted(crate::find_nodes(self.image, nodes, &mut area));
        self.say(
            format!("find_nodes of {} in {words} words", nodes.len()),
            format!("{answer}; {}", area_in_words(&area)),
        );
    }

    fn list_blocks(&mut self) {
        let mut from = 0;
        for _ in 0..MOST_LISTED {
            let found = crate::next_block(self.image, from);
            self.say(
                format!("next_block {from:x}"),
                lookup(found, block_in_words),
            );
            let Some(block) = found.ok().and_then(Lookup::found) else {
                self.block(from);
                return;
            };
            self.block(block.block);
            let Some(above) = block.block.checked_add(1) else {
                return;
            };
            from = above;
        }
    }

    fn block(&mut self, block: u64) {
        let found = crate::find_block(self.image, block);
        self.say(
            format!("find_block {block:x}"),
            lookup(found, block_in_words),
        );
        let tested = crate::test_block(self.image, block).map(|size| format!("size {size}"));
        self.say(format!("test_block {block:x}"), or_refusal(tested));
        self.read_block(block, &mut { SHORT_BUFFER });
        let mut out = std::mem::take(&mut self.out);
        self.read_block(block, &mut out);
        self.out = out;
    }

    fn read_block(&mut self, block: u64, out: &mut [u8]) {
        let read = crate::read_block(self.image, block, out);
        let answer = read.map(|length| bytes_in_words(&out[..length]));
        self.say_read(format!("read_block {block:x}"), answer, out);
    }
}

pub(crate) fn or_refusal(answer: Answer<String>) -> String {
    answer.unwrap_or_else(|refusal| {
        let Refusal {
            number,
            place,
            more,
        } = refusal;
        format!("refused {number} at place {place}, more {more}")
    })
}

fn accepted(answer: Answer<()>) -> String {
    or_refusal(answer.map(|()| "accepted".into()))
}

fn bytes_in_words(bytes: &[u8]) -> String {
    let sum = crate::checksum(bytes);
    format!("{} bytes, checksum {sum:08x}", bytes.len())
}

pub(crate) fn area_in_words(area: &[u64]) -> String {
    let bytes: Vec<_> = area.iter().flat_map(|word| word.to_le_bytes()).collect();
    let sum = crate::checksum(&bytes);
    format!("area of {} words, checksum {sum:08x}", area.len())
}

fn lookup<T>(answer: Answer<Lookup<T>>, in_words: impl Fn(T) -> String) -> String {
    or_refusal(answer.map(|found| match found {
        Lookup::Found { pages, entry } => format!("found, pages {pages}, {}", in_words(entry)),
        Lookup::Absent { pages } => format!("absent, pages {pages}"),
    }))
}

fn node_in_words(node: Node) -> String {
    format!(
        "node {:x}, data block {:x}, subnode block {:x}, parent {:x}",
        node.node, node.data, node.subnode, node.parent
    )
}

fn block_in_words(block: Block) -> String {
    format!(
        "block {:x}, offset {:x}, size {}, references {}",
        block.block, block.offset, block.size, block.references
    )
}

fn property_in_words(block: &[u8], property: Property) -> String {
    let value = match property.value {
        Value::Number(number) => format!("number {number:08x}"),
        Value::Empty => "empty".into(),
        Value::Item(item) => {
            let found = crate::item(block, item).map(|item| {
                let start = item.start;
                bytes_in_words(&block[start..start + item.length])
            });
            format!("item {item:08x} of {}", or_refusal(found))
        }
        Value::Subnode(number) => format!("subnode {number:08x}"),
    };
    format!("type {:04x}, {value}", property.kind)
}
