//! What lies at the place of a refusal, for someone who has no description of the format at hand.

use crate::account::Spot;
use crate::advice::{other_edition, stated_end, FIRST_SUMMED};
use crate::keys;
use crate::list::kind;
use crate::source::Source;
use crate::users::{missing, refused};
use crate::words::{counted, node_type, place, spaced_hex};
use indicatif::HumanCount;
use rekwonuda::{Block, Fault, Node, Refusal, WrongKey};

/// Where the first page or block may stand.
pub const FIRST_ROOM: u64 = 0x4400;
/// What all their offsets are multiples of.
pub const STEP: u64 = 64;
pub const PAGE: usize = 512;
const SECOND_SUMMED: usize = 516;

/// `wrong_key` is the key at fault, of a refusal by a key.
pub fn lies_there(
    source: &Source,
    refusal: &Refusal,
    spot: &Spot,
    wrong_key: Option<&WrongKey>,
) -> String {
    match refusal.number() {
        1 if refusal.place == 0 => match source.size {
            Some(size) => format!("the whole file: {}", counted(size, "byte")),
            None => "the whole stream, which was not read to its end".to_string(),
        },
        1..=5 => in_header(source, refusal),
        6 => no_page(source, refusal, spot),
        7..=11 | 21 => in_tree(source, refusal, spot, wrong_key),
        12..=16 => in_blocks(source, refusal, spot),
        _ => in_heap(spot),
    }
}

fn in_header(source: &Source, refusal: &Refusal) -> String {
    let at = place(refusal.place);
    let shown = |length| spaced_hex(source.bytes_at(refusal.place, length));
    match (refusal.number(), refusal.place) {
        (1, _) => format!("{at}: {}", too_short(source)),
        (2, 0) => format!(
            "{at}: the file's first bytes are {}, and should be 21 42 44 4e",
            shown(4)
        ),
        (2, _) => format!(
            "{at}: the bytes there are {}, and should be 53 4d",
            shown(2)
        ),
        (3, _) => {
            let number = source.version();
            let edition = other_edition(source).unwrap_or("which no edition known here has");
            format!("{at}: the header, its version: {number}, {edition}")
        }
        (4, 4) => format!("{at}: {}", checksum(source, FIRST_SUMMED, &shown(4))),
        (4, _) => format!("{at}: {}", checksum(source, SECOND_SUMMED, &shown(4))),
        (_, 512 | 460) => format!(
            "{at}: the header, a byte that should be 80, and is {}",
            shown(1)
        ),
        _ => format!(
            "{at}: the header, a byte that should be 00, 01 or 02, and is {}",
            shown(1)
        ),
    }
}

fn too_short(source: &Source) -> String {
    let (end, size) = (stated_end(source), source.size.unwrap_or(0));
    let missing = HumanCount(end.saturating_sub(size));
    let (end, size) = (place(end), counted(size, "byte"));
    format!(
        "the header says that the file ends at {end}, and it has only {size}, {missing} too few"
    )
}

fn checksum(source: &Source, length: usize, stored: &str) -> String {
    let last = 7 + length;
    let computed = rekwonuda::checksum(source.bytes_at(8, length)).to_le_bytes();
    let computed = spaced_hex(&computed);
    format!("the header's checksum of bytes 8 to {last}: stored {stored}, computed {computed}")
}

fn no_page(source: &Source, refusal: &Refusal, spot: &Spot) -> String {
    let (tree, _) = tree_of(source, spot);
    let at = place(refusal.place);
    let why = why_not_there(source, refusal.place, PAGE as u64);
    format!("{at}: {tree} refers to a page there, but {why}")
}

fn in_tree(
    source: &Source,
    refusal: &Refusal,
    spot: &Spot,
    wrong_key: Option<&WrongKey>,
) -> String {
    let (tree, root) = tree_of(source, spot);
    let at = place(refusal.place);
    let page = match wrong_key.map(|wrong| wrong.level) {
        _ if root == Some(refusal.place) => "the root page".to_string(),
        None => "a page".to_string(),
        Some(0) => "a leaf page".to_string(),
        Some(level) => format!("an index page (level {level})"),
    };
    let zeros = zeros_at(source, refusal.place, PAGE);
    let way = match spot {
        Spot::Data(node) => format!(", on the way to {}", data_of(node)),
        _ => String::new(),
    };
    let entry = keys::text(refusal, wrong_key);
    format!("{at}: {page} of {tree}{way}{zeros}{entry}")
}

fn tree_of(source: &Source, spot: &Spot) -> (&'static str, Option<u64>) {
    let header = source.image().header().ok();
    match spot {
        Spot::NodeTree => (
            "the node tree (the list of all folders, messages and tables)",
            header.map(|header| header.nodes.offset),
        ),
        _ => (
            "the block tree (the list of where all data stands)",
            header.map(|header| header.blocks.offset),
        ),
    }
}

fn zeros_at(source: &Source, place: u64, length: usize) -> &'static str {
    let bytes = source.bytes_at(place, length);
    if bytes.iter().all(|byte| *byte == 0) {
        "; all its bytes are zero"
    } else {
        ""
    }
}

/// Whether a page or a block may begin there, unless the file ends too early.
pub fn may_begin_at(offset: u64) -> bool {
    offset.is_multiple_of(STEP) && offset >= FIRST_ROOM
}

fn why_not_there(source: &Source, offset: u64, room: u64) -> String {
    if !offset.is_multiple_of(STEP) {
        format!("pages and blocks begin at multiples of {STEP}")
    } else if offset < FIRST_ROOM {
        format!("none stands in the first {} bytes", HumanCount(FIRST_ROOM))
    } else {
        let end = stated_end(source);
        let ends = format!("the file ends at {}", place(end));
        let needed = format!("and {room} bytes are needed there");
        if source.size == Some(end) {
            return format!("{ends}, {needed}");
        }
        format!("by the header {ends}, {needed}; what hangs on behind does not count")
    }
}

fn in_blocks(source: &Source, refusal: &Refusal, spot: &Spot) -> String {
    match spot {
        Spot::Block(block, users) => {
            let listed = listed_block(source, refusal, block);
            format!("{listed}; {}", users.text())
        }
        Spot::Data(node) | Spot::Heap(node, _) | Spot::Table(node, _) => {
            block_of_node(source, refusal, node)
        }
        _ => place(refusal.place),
    }
}

fn listed_block(source: &Source, refusal: &Refusal, block: &Block) -> String {
    let at = place(refusal.place);
    let size = counted(block.size.into(), "byte");
    let named = format!("{at}: {} block {}, of {size}", kind(block.id), block.id);
    if refusal.fault != Fault::BlockOffset {
        let zeros = zeros_at(source, block.offset, block.size.into());
        return format!("{named}{zeros}");
    }
    format!("{named}, {}", listed_wrongly(source, block))
}

/// Why no block can be where this one is listed, or be so long.
fn listed_wrongly(source: &Source, block: &Block) -> String {
    let edition = source.edition();
    let most = edition.largest_block();
    let why = if (1..=most).contains(&block.size.into()) {
        why_not_there(source, block.offset, edition.room(block.size.into()))
    } else {
        format!("a block has 1 to {} bytes", HumanCount(most as u64))
    };
    format!("is listed there, but {why}")
}

fn block_of_node(source: &Source, refusal: &Refusal, node: &Node) -> String {
    let at = place(refusal.place);
    let whose = data_of(node);
    let data = node.data.unwrap_or_default();
    match refusal.fault {
        Fault::BlockUnlisted => match missing(source, node) {
            Some(block) if block.key() != data.key() => format!("block {block}, a part of {whose}"),
            _ => format!("block {data}, {whose}"),
        },
        Fault::DataTree => format!("{at}: block {data}, which lists {whose}"),
        Fault::BlockOffset => {
            let block = refused(source, node, refusal);
            let why = block.map(|block| format!(", {}", listed_wrongly(source, &block)));
            format!("{at}: {}{}", whose_block(node), why.unwrap_or_default())
        }
        _ => format!("{at}: {}", whose_block(node)),
    }
}

fn whose_block(node: &Node) -> String {
    let whose = data_of(node);
    match node.data {
        Some(data) if !node.has_data_tree() => format!("block {data}, {whose}"),
        _ => format!("a block of {whose}"),
    }
}

fn data_of(node: &Node) -> String {
    format!("the data of node {} ({})", node.id, node_type(node.id))
}

fn in_heap(spot: &Spot) -> String {
    match spot {
        Spot::Heap(node, length) | Spot::Table(node, length) => {
            format!("{}, of {}", data_of(node), counted(*length as u64, "byte"))
        }
        _ => "the data of a node".to_string(),
    }
}
