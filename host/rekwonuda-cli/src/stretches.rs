//! What lies where in a file: stretches, each of one kind, that cover it from its first byte to its last.

use crate::place::{may_begin_at, FIRST_ROOM, PAGE, STEP};
use crate::source::Source;
use crate::walk;
use crate::words::counted;
use rekwonuda::{Block, Edition, SHORTEST_IMAGE};
use serde_json::{json, Value};
use std::cmp::Ordering;
use std::iter;

const STEP_BYTES: usize = STEP as usize;

/// What a stretch is. Where several take the same room, or share a pixel of a picture, the first in this
/// order counts.
#[derive(Clone, Copy, Debug, PartialEq, Eq, PartialOrd, Ord)]
pub enum Kind {
    Header,
    Maps,
    NodeTree,
    BlockTree,
    Stale,
    Blocks,
    Hanging,
    Reserved,
    Free,
    Unknown,
}

impl Kind {
    pub const ALL: [Kind; 10] = [
        Kind::Header,
        Kind::Maps,
        Kind::NodeTree,
        Kind::BlockTree,
        Kind::Stale,
        Kind::Blocks,
        Kind::Hanging,
        Kind::Reserved,
        Kind::Free,
        Kind::Unknown,
    ];

    pub fn name(self) -> &'static str {
        match self {
            Kind::Header => "header",
            Kind::Maps => "maps",
            Kind::NodeTree => "node tree",
            Kind::BlockTree => "block tree",
            Kind::Stale => "stale",
            Kind::Blocks => "blocks",
            Kind::Hanging => "hanging",
            Kind::Reserved => "reserved",
            Kind::Free => "free",
            Kind::Unknown => "unknown",
        }
    }

    /// What is counted of it.
    fn noun(self) -> &'static str {
        match self {
            Kind::Maps | Kind::NodeTree | Kind::BlockTree => "page",
            Kind::Blocks => "block",
            _ => "stretch",
        }
    }
}

/// A page, a block, or what lies between them.
#[derive(Clone, Copy, Debug, PartialEq, Eq)]
pub struct Stretch {
    pub kind: Kind,
    pub from: u64,
    /// The offset behind its last byte.
    pub to: u64,
}

impl Stretch {
    pub fn facts(&self) -> Value {
        json!({
            "kind": self.kind.name(),
            "from": self.from.to_string(),
            "to": self.to.to_string(),
        })
    }
}

/// How much of a kind there is.
#[derive(Clone, Copy, Debug)]
pub struct Tally {
    pub kind: Kind,
    /// How many stretches.
    pub count: u64,
    pub bytes: u64,
}

impl Tally {
    /// "5 pages, 2,560 bytes", or "none".
    pub fn text(&self) -> String {
        let bytes = counted(self.bytes, "byte");
        match self.count {
            0 => "none".to_string(),
            count => format!("{}, {bytes}", counted(count, self.kind.noun())),
        }
    }

    pub fn facts(&self) -> Value {
        json!({
            "kind": self.kind.name(),
            "count": self.count,
            "bytes": self.bytes.to_string(),
        })
    }
}

/// What lies where, as far as the header and the trees tell.
pub struct Survey {
    /// What lies in each step of 64 bytes, up to where the file ends by an accepted header.
    steps: Vec<Step>,
    header_end: u64,
    end: u64,
    size: u64,
    /// What lies behind the end.
    behind: Kind,
}

#[derive(Clone, Copy)]
struct Step {
    kind: Kind,
    /// Whether a page or block begins there.
    begins: bool,
}

impl Step {
    fn of(kind: Kind) -> Step {
        let begins = false;
        Step { kind, begins }
    }
}

const SAME_KIND: fn(&Step, &Step) -> bool = |one, other| one.kind == other.kind;

impl Survey {
    pub fn of(source: &Source) -> Survey {
        let image = source.image();
        let length = image.bytes().len() as u64;
        let header_end = length.min(SHORTEST_IMAGE);
        let mut survey = Survey {
            steps: Vec::new(),
            header_end,
            end: header_end,
            size: source.size.unwrap_or(length),
            behind: Kind::Unknown,
        };
        if let Ok(header) = image.header() {
            survey.end = header.end.max(header_end);
            survey.behind = Kind::Hanging;
            survey.fill(source, header.edition);
        }
        survey
    }

    fn fill(&mut self, source: &Source, edition: Edition) {
        let image = source.image();
        self.steps = vec![Step::of(Kind::Unknown); self.end.div_ceil(STEP) as usize];
        self.take(Kind::Reserved, 0, FIRST_ROOM.min(self.end));
        for block in walk::blocks(source).flatten() {
            self.place(Kind::Blocks, block.offset, room(&block, edition));
        }
        let trees = [
            (Kind::NodeTree, image.node_pages()),
            (Kind::BlockTree, image.block_pages()),
        ];
        for (kind, pages) in trees {
            pages.for_each(|page| self.place(kind, page.offset, Some(PAGE as u64)));
        }
        for offset in image.map_pages() {
            self.take(Kind::Maps, offset, offset + PAGE as u64);
        }
        if image.check_nodes().is_ok() && image.check_blocks().is_ok() {
            self.tell_unlisted(&image.bytes()[..self.end as usize]);
        }
    }

    /// Gives room to a page or block, if one may stand there.
    fn place(&mut self, kind: Kind, from: u64, room: Option<u64>) {
        let to = room.and_then(|room| from.checked_add(room));
        match to {
            Some(to) if may_begin_at(from) && to <= self.end => self.take(kind, from, to),
            _ => {}
        }
    }

    /// Gives the room to that kind, but for steps that one before it in their order has.
    fn take(&mut self, kind: Kind, from: u64, to: u64) {
        let first = (from / STEP) as usize;
        for at in first..to.div_ceil(STEP) as usize {
            let step = &mut self.steps[at];
            step.begins = match kind.cmp(&step.kind) {
                Ordering::Less => at == first,
                Ordering::Equal => step.begins || at == first,
                Ordering::Greater => step.begins,
            };
            step.kind = step.kind.min(kind);
        }
    }

    /// Tells what lies in the room that nothing took, where both trees are accepted.
    fn tell_unlisted(&mut self, bytes: &[u8]) {
        let mut ahead = bytes;
        for gap in self.steps.chunk_by_mut(SAME_KIND) {
            let here;
            (here, ahead) = ahead.split_at(ahead.len().min(gap.len() * STEP_BYTES));
            if gap[0].kind == Kind::Unknown {
                tell_gap(gap, here);
            }
        }
    }

    /// All stretches, in order.
    pub fn stretches(&self) -> impl Iterator<Item = Stretch> + '_ {
        let stretch = |kind, from, to| Stretch { kind, from, to };
        let is_one = |one: &Step, next: &Step| SAME_KIND(one, next) && !next.begins;
        let mut to = 0;
        let body = self.steps.chunk_by(is_one).map(move |run| {
            let from = to;
            to += run.len() as u64 * STEP;
            stretch(run[0].kind, from.max(self.header_end), to.min(self.end))
        });
        let header = stretch(Kind::Header, 0, self.header_end);
        let behind = stretch(self.behind, self.end, self.size);
        let all = iter::once(header).chain(body).chain([behind]);
        all.filter(|stretch| stretch.from < stretch.to)
    }

    /// How much of each kind there is, in the order of the kinds.
    pub fn tallies(&self) -> Vec<Tally> {
        let none = |kind| Tally {
            kind,
            count: 0,
            bytes: 0,
        };
        let mut tallies: Vec<Tally> = Kind::ALL.into_iter().map(none).collect();
        for Stretch { kind, from, to } in self.stretches() {
            let tally = &mut tallies[kind as usize];
            tally.count += 1;
            tally.bytes += to - from;
        }
        tallies
    }
}

/// The room of a block, if a block may have its size.
fn room(block: &Block, edition: Edition) -> Option<u64> {
    let sizes = 1..=edition.largest_block();
    let may_be = sizes.contains(&block.size.into());
    may_be.then(|| edition.room(block.size.into()))
}

/// Tells free room from stale between two things that are listed. An old page has zeros in it too: fewer
/// than a page of them beside other bytes are part of the stale room.
fn tell_gap(gap: &mut [Step], bytes: &[u8]) {
    for (step, bytes) in gap.iter_mut().zip(bytes.chunks(STEP_BYTES)) {
        let is_zero = bytes.iter().all(|byte| *byte == 0);
        step.kind = if is_zero { Kind::Free } else { Kind::Stale };
    }
    if gap.iter().all(|step| step.kind == Kind::Free) {
        return;
    }
    for run in gap.chunk_by_mut(SAME_KIND) {
        if run.len() * STEP_BYTES < PAGE {
            run.fill(Step::of(Kind::Stale));
        }
    }
}

#[cfg(test)]
mod tests {
    use super::*;

    #[test]
    fn kinds_are_listed_in_their_order() {
        assert!(Kind::ALL.is_sorted());
        for (at, kind) in Kind::ALL.into_iter().enumerate() {
            assert_eq!(kind as usize, at);
        }
    }

    /// What a gap is told to be, a letter for each step, of one whose steps are zero or not.
    fn told(steps: &str) -> String {
        let step = |step| [u8::from(step == 's'); STEP_BYTES];
        let bytes: Vec<u8> = steps.chars().flat_map(step).collect();
        let mut gap = vec![Step::of(Kind::Unknown); steps.len()];
        tell_gap(&mut gap, &bytes);
        let letter = |step: &Step| step.kind.name().chars().next();
        gap.iter().filter_map(letter).collect()
    }

    #[test]
    fn zeros_beside_other_bytes_are_free_from_a_page_on() {
        for same in ["f", "ffff", "s", "ffffffffs", "sffffffffs", "sffffffff"] {
            assert_eq!(told(same), same);
        }
        assert_eq!(told("sfs"), "sss");
        assert_eq!(told("fffffffsffffffff"), "ssssssssffffffff");
    }

    #[test]
    fn amounts_are_told_in_words() {
        let text = |kind, count| {
            let bytes = count * 1_024;
            Tally { kind, count, bytes }.text()
        };
        assert_eq!(text(Kind::Maps, 0), "none");
        assert_eq!(text(Kind::Maps, 1), "1 page, 1,024 bytes");
        assert_eq!(text(Kind::Blocks, 2), "2 blocks, 2,048 bytes");
        assert_eq!(text(Kind::Free, 1), "1 stretch, 1,024 bytes");
        assert_eq!(text(Kind::Free, 2), "2 stretches, 2,048 bytes");
    }
}
