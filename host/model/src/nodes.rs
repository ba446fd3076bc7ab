//! A list of nodes in one call (02, 3/13).

use crate::header::{file, header};
use crate::node::{look_up, Node};
use crate::refusal::{Answer, Refusal};
use crate::tree::Lookup;

/// The most numbers that a list may have.
pub const MOST_NODES: usize = 4096;

/// The words of one place of the result area.
pub const WORDS: usize = 9;

/// Puts what `find_node` answers for each number into the place of that number. Words behind the
/// places of the list stay, and all words where the call is refused.
pub fn find_nodes(image: &[u8], nodes: &[u64], places: &mut [u64]) -> Answer<()> {
    if nodes.len() > MOST_NODES {
        return Err(Refusal::short(MOST_NODES));
    }
    if places.len() / WORDS < nodes.len() {
        return Err(Refusal::short(nodes.len()));
    }
    if nodes.is_empty() {
        return Ok(());
    }
    let (header, file) = (header(image), file(image));
    for (&node, place) in nodes.iter().zip(places.chunks_exact_mut(WORDS)) {
        let answer = header.and_then(|header| look_up(file, &header, node));
        place.copy_from_slice(&in_words(answer));
    }
    Ok(())
}

/// What a lookup answers, as the words of a place: refusal, place, more, found, pages, node, data,
/// subnode, parent. Those that the answer does not use are 0.
pub fn in_words(answer: Answer<Lookup<Node>>) -> [u64; WORDS] {
    match answer {
        Err(Refusal {
            number,
            place,
            more,
        }) => [number, place, more, 0, 0, 0, 0, 0, 0],
        Ok(Lookup::Absent { pages }) => [0, 0, 0, 0, pages, 0, 0, 0, 0],
        Ok(Lookup::Found { pages, entry }) => {
            let (node, parent) = (u64::from(entry.node), u64::from(entry.parent));
            let Node { data, subnode, .. } = entry;
            [0, 0, 0, 1, pages, node, data, subnode, parent]
        }
    }
}
