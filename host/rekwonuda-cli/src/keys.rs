//! What a refusal by a key says beyond its numbers: the keys themselves, and the range of the page.

use crate::account::Spot;
use crate::source::Source;
use rekwonuda::{Fault, Key, Refusal, WrongKey, WrongKeys};
use serde_json::Value;
use std::collections::HashMap;

/// So many are remembered of a tree.
const MOST_HELD: usize = 1 << 16;

/// The keys at fault in both trees. Each tree is gone through once, as far as it is asked for, however
/// many refusals there are.
pub struct Keys<'a> {
    nodes: Seen<'a>,
    blocks: Seen<'a>,
}

struct Seen<'a> {
    ahead: WrongKeys<'a>,
    met: HashMap<Refusal, WrongKey>,
}

impl<'a> Keys<'a> {
    pub fn new(source: &'a Source) -> Keys<'a> {
        Keys {
            nodes: Seen::new(source.image().wrong_node_keys()),
            blocks: Seen::new(source.image().wrong_block_keys()),
        }
    }

    /// The key at fault, of a refusal by a key.
    pub fn find(&mut self, refusal: &Refusal, spot: &Spot) -> Option<WrongKey> {
        match (refusal.fault, spot) {
            (Fault::KeyOrder | Fault::KeyRange, Spot::NodeTree) => self.nodes.find(refusal),
            (Fault::KeyOrder | Fault::KeyRange, _) => self.blocks.find(refusal),
            _ => None,
        }
    }
}

impl<'a> Seen<'a> {
    fn new(ahead: WrongKeys<'a>) -> Seen<'a> {
        Seen {
            ahead,
            met: HashMap::new(),
        }
    }

    fn find(&mut self, refusal: &Refusal) -> Option<WrongKey> {
        while !self.met.contains_key(refusal) {
            let wrong = self.ahead.next()?;
            if self.met.len() == MOST_HELD {
                self.met.clear();
            }
            self.met.entry(wrong.refusal()).or_insert(wrong);
        }
        self.met.get(refusal).copied()
    }
}

/// What is told of the entry at fault behind the name of its page; nothing of a refusal by something
/// else. A file may be so large and so bad that its keys are not known.
pub fn text(refusal: &Refusal, wrong: Option<&WrongKey>) -> String {
    match (refusal.fault, wrong) {
        (Fault::KeyOrder | Fault::KeyRange, Some(wrong)) => format!(
            "; its entry {} (counted from 0, of {}) has {}{}",
            wrong.entry,
            wrong.entries,
            both_keys(wrong),
            range(wrong)
        ),
        (Fault::KeyOrder | Fault::KeyRange, None) => {
            format!("; its entry {} (counted from 0)", refusal.more)
        }
        _ => String::new(),
    }
}

/// "key 0x122, the one before it 0x200024".
fn both_keys(wrong: &WrongKey) -> String {
    let shown = |key: &Key| match key.stored == key.compared {
        true => format!("{:#x}", key.compared),
        false => format!("{:#x} (stored as {:#x})", key.compared, key.stored),
    };
    let key = shown(&wrong.key);
    match &wrong.before {
        Some(before) => format!("key {key}, the one before it {}", shown(before)),
        None => format!("key {key}"),
    }
}

fn range(wrong: &WrongKey) -> String {
    match (wrong.from, wrong.to) {
        (0, None) => String::new(),
        (from, None) => format!("; keys from {from:#x} on belong here"),
        (from, Some(to)) => format!("; keys from {from:#x} to below {to:#x} belong here"),
    }
}

/// The same for JSON.
pub fn facts(refusal: &Refusal, wrong: Option<&WrongKey>) -> Vec<(&'static str, Value)> {
    let mut facts = Vec::new();
    if let Fault::KeyOrder | Fault::KeyRange = refusal.fault {
        facts.push(("entry", refusal.more.into()));
    }
    if let Some(wrong) = wrong {
        let digits = |number: u64| Value::from(number.to_string());
        let before = |part: fn(Key) -> u64| wrong.before.map(|key| digits(part(key)));
        facts.extend([
            ("entries", wrong.entries.into()),
            ("level", wrong.level.into()),
            ("key", digits(wrong.key.compared)),
            ("key_stored", digits(wrong.key.stored)),
            ("key_before", before(|key| key.compared).into()),
            ("key_before_stored", before(|key| key.stored).into()),
            ("range_from", digits(wrong.from)),
            ("range_to", wrong.to.map(digits).into()),
        ]);
    }
    facts
}
