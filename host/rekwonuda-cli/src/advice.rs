//! What a refusal means for a file: whether it is damaged, and what to do next.

use crate::account::Spot;
use crate::outcome::Outcome;
use crate::place::may_begin_at;
use crate::source::Source;
use rekwonuda::{Edition, Fault, Refusal, LONGEST_IMAGE};

/// How many bytes the header's first checksum covers, from byte 8 on. It is the same in all editions.
pub const FIRST_SUMMED: usize = 471;

const NEW_COPY: &str = "The file is damaged, or its transfer left some of it out. Ask for a fresh \
    copy, made while Outlook was closed, or have the sender run Microsoft's scanpst.exe on it. Do not \
    open it with a reader that repairs silently: what that shows need not be what was written.";
const CUT_SHORT: &str =
    "The file was cut short in transfer, or copied while Outlook was writing it: \
    its last bytes are missing. Ask for it again, copied while Outlook was closed, and compare the \
    sizes: a whole copy has at least as many bytes as the header says.";
const CUT_SHORT_AND_LONG: &str = "The file was cut short in transfer, or copied while Outlook was \
    writing it: its last bytes are missing. By its header a whole copy has more than 1 GiB \
    (1,073,741,824 bytes), which this reader does not take: have its owner move part of the mail into \
    a second data file in Outlook, and ask for both.";
const PAST_END: &str = "The header and the tree do not go together: by the header the file ends \
    before this page does, as in a copy made while Outlook was writing. What stands there, if \
    anything, may be of an earlier state of the file, and is not read. Ask for a fresh copy, made \
    while Outlook was closed, or have the sender run Microsoft's scanpst.exe on the file. Do not open \
    it with a reader that repairs silently: what that shows need not be what was written.";
const TOO_SHORT: &str =
    "This cannot be a .pst file: the copy is empty or broke off at once, or it \
    is another kind of file. Ask for a fresh copy and compare the sizes.";
const TOO_LONG: &str = "This reader takes files of up to 1 GiB (1,073,741,824 bytes), and says \
    nothing about whether this one is sound. Have its owner move part of the mail into a second data \
    file in Outlook.";
const NO_PST: &str = "This is not a .pst file, or its beginning was overwritten. Check that it is \
    the file you meant; one that came in an archive (.zip, .7z) must be unpacked first.";
const OTHER_STORE: &str =
    "This is another kind of Outlook file, such as an offline store (.ost) or \
    an address book, or its beginning was overwritten. Have its owner export it as a .pst file.";
const OTHER_EDITION: &str =
    "This reader covers the 64-bit Unicode edition and the older 32-bit ANSI edition, and says nothing \
    about whether this file is sound. Have its owner import it into a new data file with a current \
    Outlook, which writes the 64-bit one.";
const EDITION_OR_DAMAGE: &str =
    "This may be damage: the header's first checksum does not fit either, so that its bytes are not \
    those that were written, and the version may be one of them. Ask for a fresh copy. If it says \
    the same, have its owner import the file into a new data file with a current Outlook, which \
    writes the 64-bit Unicode edition that this reader covers.";
const BAD_BLOCK: &str = "What this block holds cannot be relied on; other blocks may be sound, and \
    the command `node` still reads each node that does not use it. Ask for a fresh copy, made while \
    Outlook was closed, or have the sender run Microsoft's scanpst.exe on the file. Do not open it \
    with a reader that repairs silently.";
const BAD_DATA: &str = "What this node holds is lost, wholly or in part; the command `node` still \
    reads the others. Ask for a fresh copy, made while Outlook was closed, or have the sender run \
    Microsoft's scanpst.exe on the file. Do not open it with a reader that repairs silently.";
const SHUFFLED_PAGE: &str = "By its checksum the page is as it was last written, but its entries were \
    put out of order, or some of them were written over. Which of them are right cannot be told, so \
    that none is followed; the command `node` still reads each node whose way does not lead through \
    this page. Ask for a fresh copy, made while Outlook was closed, or have the sender run Microsoft's \
    scanpst.exe on the file. Do not open it with a reader that repairs silently.";
const STALE_PAGE: &str = "By its checksum this is a whole, sound page, but it does not go with those \
    that lead to it: it is of another place, or of an earlier state of the file, as in a copy made \
    while Outlook was writing. What hangs below it may be the room of another message by now, so that \
    it is not followed; the command `node` still reads each node whose way does not lead through this \
    page. Ask for a fresh copy, made while Outlook was closed, or have the sender run Microsoft's \
    scanpst.exe on the file. Do not open it with a reader that repairs silently: it may show the bytes \
    of one message as those of another.";
const TWO_LEVELS: &str =
    "The data of this node is stored in two levels, as it must be where it has \
    more than 8,347,696 bytes; this reader covers one level. That is no fault of the file.";
const TWO_LEVELS_32: &str =
    "The data of this node is stored in two levels, as it must be in a 32-bit file where it has \
    more than 16,711,740 bytes; this reader covers one level. That is no fault of the file.";
const BAD_PROPERTIES: &str = "The node's data is what was written: its blocks are sound. But what \
    was written is no sound list of properties. The command `node` writes it out as it is.";
const BAD_TABLE: &str = "The node's data is what was written: its blocks are sound. But what was \
    written is no sound table. The command `node` writes it out as it is.";

/// Whether the refusal is one of damage, or of something that is not covered.
pub fn outcome(source: &Source, refusal: &Refusal, spot: &Spot) -> Outcome {
    let covered = match refusal.fault {
        Fault::ImageLength => !source.is_too_long(),
        Fault::Version => other_edition(source).is_none() && !first_checksum_fits(source),
        Fault::DataTree => !has_two_levels(source, spot),
        _ => true,
    };
    if covered {
        Outcome::Damaged
    } else {
        Outcome::NotCovered
    }
}

/// What is wrong. Of the bounds of a length, the one that does not hold.
pub fn meaning(source: &Source, refusal: &Refusal) -> &'static str {
    match refusal.fault {
        Fault::ImageLength if refusal.place != 0 => "the file is shorter than its header says",
        Fault::ImageLength if source.is_too_long() => {
            "the file is over 1,073,741,824 bytes (1 GiB) long, the most that is covered"
        }
        Fault::ImageLength => "the file is under 564 bytes long, the length of a header",
        _ => refusal.meaning(),
    }
}

/// What to do.
pub fn advice(source: &Source, refusal: &Refusal, spot: &Spot) -> &'static str {
    match (refusal.fault, spot) {
        (Fault::ImageLength, _) if refusal.place != 0 => match stated_end(source) {
            0..=LONGEST_IMAGE => CUT_SHORT,
            _ => CUT_SHORT_AND_LONG,
        },
        (Fault::ImageLength, _) if source.is_too_long() => TOO_LONG,
        (Fault::ImageLength, _) => TOO_SHORT,
        (Fault::Magic, _) if refusal.place == 0 => NO_PST,
        (Fault::Magic, _) => OTHER_STORE,
        (Fault::Version, _) if first_checksum_fits(source) => OTHER_EDITION,
        (Fault::Version, _) if other_edition(source).is_some() => EDITION_OR_DAMAGE,
        (Fault::DataTree, _) if has_two_levels(source, spot) => match source.edition() {
            Edition::Bits32 => TWO_LEVELS_32,
            Edition::Bits64 => TWO_LEVELS,
        },
        (Fault::TableShape, _) | (Fault::HeapShape | Fault::HeapItem, Spot::Table(..)) => BAD_TABLE,
        (Fault::HeapShape | Fault::HeapItem | Fault::PropertyTree, _) => BAD_PROPERTIES,
        (Fault::KeyOrder, _) => SHUFFLED_PAGE,
        (Fault::KeyRange, _) => STALE_PAGE,
        (_, Spot::Data(_)) => BAD_DATA,
        (_, Spot::Block(..)) => BAD_BLOCK,
        (Fault::PageOffset, _) if may_begin_at(refusal.place) => PAST_END,
        _ => NEW_COPY,
    }
}

/// Whether the root block of the node's data, which the library has accepted as a block, is that of a
/// data tree of two levels: 1, 2, and a count that goes with its size.
fn has_two_levels(source: &Source, spot: &Spot) -> bool {
    let Spot::Data(node) = spot else {
        return false;
    };
    let root = node
        .data
        .and_then(|data| source.image().block_data(data).ok());
    root.is_some_and(|root| match root.as_slice() {
        [1, 2, low, high, ..] => {
            let count = usize::from(u16::from_le_bytes([*low, *high]));
            root.len() == 8 + source.edition().width() * count
        }
        _ => false,
    })
}

fn first_checksum_fits(source: &Source) -> bool {
    let sum = rekwonuda::checksum(source.bytes_at(8, FIRST_SUMMED));
    source.bytes_at(4, 4) == sum.to_le_bytes()
}

/// Where the header says that the file ends, whether it is accepted or not.
pub fn stated_end(source: &Source) -> u64 {
    let edition = source.edition();
    let place = match edition {
        Edition::Bits32 => 168,
        Edition::Bits64 => 184,
    };
    source.number_at(place, edition.width())
}

/// The edition that is not covered and that the version stands for.
pub fn other_edition(source: &Source) -> Option<&'static str> {
    match source.version() {
        36 => Some("the edition with pages of 4,096 bytes"),
        _ => None,
    }
}
