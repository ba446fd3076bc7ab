//! A small mail file: folders with their tables, some messages and a long note.

mod columns;
mod messages;
mod texts;

use super::heaps::{given_properties, Given};
use super::tables::{place_table_of, usual_layout, GivenTable, RowsPlace, HIERARCHY};
use super::{Builder, Built, Plan};
use crate::coding::PERMUTE;
use crate::edition::Edition;
use crate::node::Node;
use columns::{row, ASSOCIATED, ATTACHMENTS, CONTENTS, RECIPIENTS, SEARCH};
use messages::{Message, INBOX_MESSAGES, OLD_MESSAGES, SENT_MESSAGES};
use std::collections::BTreeMap;
use texts::{tags_of, texts_of};

const STORE: u32 = 0x21;
const NAMES: u32 = 0x61;
const ROOT_FOLDER: u32 = 0x122;
const TOP: u32 = 0x8022;
const SEARCH_ROOT: u32 = 0x8042;
const DELETED: u32 = 0x8062;
const INBOX: u32 = 0x8082;
const SENT: u32 = 0x80A2;
const ARCHIVE: u32 = 0x80C2;
const OLD: u32 = 0x80E2;
const FIRST_MESSAGE: u32 = 0x20_0024;

/// Subnodes of a message: its recipients, and its text as a page.
const RECIPIENT_TABLE: u32 = 0x692;
const PAGE: u32 = 0x813F;

const TEXT: u16 = 0x1F;
const BYTES: u16 = 0x102;
const NUMBER: u16 = 3;
const TRUTH: u16 = 0xB;
const TIME: u16 = 0x40;

/// Number, parent and name.
const FOLDERS: [(u32, u32, &str); 8] = [
    (ROOT_FOLDER, ROOT_FOLDER, ""),
    (TOP, ROOT_FOLDER, "Top of Personal Folders"),
    (DELETED, TOP, "Deleted Items"),
    (INBOX, TOP, "Inbox"),
    (SENT, TOP, "Sent Items"),
    (SEARCH_ROOT, ROOT_FOLDER, "Search Root"),
    (ARCHIVE, TOP, "Archive"),
    (OLD, ARCHIVE, "2012"),
];

/// The key of the store, which is part of every entry id.
const STORE_KEY: [u8; 16] = [0, 1, 2, 3, 4, 5, 6, 7, 8, 9, 10, 11, 12, 13, 14, 15];

/// What a property context is to hold: id, type and value.
type Properties = Vec<(u16, u16, Given)>;

/// Permute-encoded; the same bytes each time.
pub fn office(edition: Edition) -> Built {
    let plan = Plan {
        edition,
        method: PERMUTE,
        node_level: 1,
        block_level: 1,
        tidy: true,
        ..Plan::default()
    };
    let mut office = Office {
        edition,
        builder: Builder::new(0x000F_F1CE, &plan),
        contexts: BTreeMap::new(),
    };
    office.place_context(STORE, 0, store());
    office.place_context(NAMES, 0, names());
    let (first, later) = FOLDERS.split_at(5);
    office.place_folders(first);
    office.place_messages(FIRST_MESSAGE, INBOX, &INBOX_MESSAGES);
    office.place_note(0x20_0284);
    office.builder.list(0x20_02A4, INBOX, 0);
    office.place_folders(later);
    office.place_messages(0x20_02C4, SENT, &SENT_MESSAGES);
    office.place_messages(0x20_0324, OLD, &OLD_MESSAGES);
    office.place_tables();
    office.place_subnodes(FIRST_MESSAGE);
    // The search queue and the list of searches, both empty.
    office.builder.list(0x1E1, 0, 0);
    office.builder.list(0x201, 0, 0);
    office.builder.finish()
}

struct Office {
    edition: Edition,
    builder: Builder,
    /// The parent and the properties of each folder and message.
    contexts: BTreeMap<u32, (u32, Properties)>,
}

impl Office {
    fn place_context(&mut self, node: u32, parent: u32, given: Properties) {
        let given = texts_of(self.edition, given);
        let builder = &mut self.builder;
        let heap = given_properties(&mut builder.space.random, given.clone());
        let data = builder.place_data(heap.block.clone());
        builder.list(node, parent, data);
        builder.heaps.insert(node, heap);
        self.contexts.insert(node, (parent, given));
    }

    fn place_folders(&mut self, folders: &[(u32, u32, &str)]) {
        for &(node, parent, name) in folders {
            self.place_context(node, parent, folder(node, name));
        }
    }

    fn place_messages(&mut self, first: u32, folder: u32, messages: &[Message]) {
        for (at, message) in messages.iter().enumerate() {
            let node = first + 0x20 * at as u32;
            self.place_context(node, folder, self::message(node, *message));
        }
    }

    /// A node whose data takes three blocks.
    fn place_note(&mut self, node: u32) {
        let lines = (1..=400).map(|line| format!("Line {line} of the long note.\n"));
        let text: String = lines.collect();
        let sum = text.len() as u32;
        let parts = text.as_bytes().chunks(4000);
        let builder = &mut self.builder;
        let children = parts.map(|part| builder.place_data(part.to_vec()));
        let children = children.collect();
        let data = builder.place_tree_over(children, sum);
        builder.list(node, INBOX, data);
    }

    /// The templates, and three tables for each folder. An empty table is the template's own block, as
    /// Outlook has it.
    fn place_tables(&mut self) {
        let templates = [
            (0x60D, &HIERARCHY[..]),
            (0x60E, &CONTENTS[..]),
            (0x60F, &ASSOCIATED[..]),
            (0x610, &SEARCH[..]),
            (0x671, &ATTACHMENTS[..]),
            (RECIPIENT_TABLE, &RECIPIENTS[..]),
        ];
        let placed = templates.map(|(node, columns)| {
            let data = self.place_table(columns, &[]);
            self.builder.list(node, 0, data);
            data
        });
        for (folder, _, _) in FOLDERS {
            let is_folder = |node: u32| node & 0x1F == 2;
            let folders = self.children(folder, is_folder);
            let messages = self.children(folder, |node| !is_folder(node));
            self.list_table(folder + 0xB, &HIERARCHY, &folders, placed[0]);
            let columns = [&CONTENTS[..], &[columns::SENDER]].concat();
            self.list_table(folder + 0xC, &columns, &messages, placed[1]);
            self.list_table(folder + 0xD, &ASSOCIATED, &[], placed[2]);
        }
    }

    fn children(&self, folder: u32, fits: impl Fn(u32) -> bool) -> Vec<u32> {
        let contexts = self.contexts.iter();
        let children = contexts
            .filter(|&(&node, &(parent, _))| parent == folder && node != folder && fits(node));
        children.map(|(&node, _)| node).collect()
    }

    fn list_table(&mut self, node: u32, columns: &[u32], rows: &[u32], template: u64) {
        let data = if rows.is_empty() {
            self.builder.name_again(template);
            template
        } else {
            self.place_table(columns, rows)
        };
        self.builder.list(node, 0, data);
    }

    /// A row for each of those nodes, with those of its properties that the table has columns for.
    fn place_table(&mut self, columns: &[u32], nodes: &[u32]) -> u64 {
        let rows = nodes.iter().map(|node| (*node, &self.contexts[node].1));
        let given = given_table(&tags_of(self.edition, columns), rows.collect());
        self.place_given(&given)
    }

    fn place_given(&mut self, given: &GivenTable) -> u64 {
        let random = &mut self.builder.space.random;
        let table = place_table_of(self.edition, random, given);
        self.builder.place_data(table.block)
    }

    /// A tree of one leaf block over two subnodes (003, 2.2.2.8.3.3.1). Files of 32 bits have no padding
    /// before the entries, as the block of a real one shows.
    fn place_subnodes(&mut self, node: u32) {
        let recipient = texts_of(self.edition, recipient());
        let columns = tags_of(self.edition, &RECIPIENTS);
        let table = self.place_given(&given_table(&columns, vec![(1, &recipient)]));
        let builder = &mut self.builder;
        let page = builder.place_data(page());
        let width = self.edition.layout().width;
        let mut leaf = vec![2, 0, 2, 0];
        leaf.resize(width, 0);
        for (subnode, data) in [(RECIPIENT_TABLE, table), (PAGE, page)] {
            for field in [u64::from(subnode), data, 0] {
                leaf.extend_from_slice(&field.to_le_bytes()[..width]);
            }
        }
        let leaf = builder.blocks.place(&mut builder.space, leaf, true);
        let node = builder.nodes.get_mut(&node);
        node.expect("it is listed").subnode = leaf;
    }
}

/// A row for each id, with those of its properties that the table has columns for.
fn given_table(columns: &[u32], rows: Vec<(u32, &Properties)>) -> GivenTable {
    let layout = usual_layout(columns);
    let ids = rows.iter().map(|&(id, _)| id);
    let row_index = ids.zip(0..).collect();
    let rows_place = if rows.is_empty() {
        RowsPlace::None
    } else {
        RowsPlace::Item
    };
    let row = |(version, (id, properties))| row(&layout.columns, id, version, properties);
    GivenTable {
        rows: (1..).zip(rows).map(row).collect(),
        layout,
        rows_place,
        left_over: Vec::new(),
        row_index,
        index_levels: 0,
        tidy: true,
    }
}

impl Builder {
    fn list(&mut self, node: u32, parent: u32, data: u64) {
        self.list_node(Node {
            node,
            data,
            subnode: 0,
            parent,
        });
    }

    /// Counts one more node that names the block.
    fn name_again(&mut self, number: u64) {
        let mut blocks = self.blocks.placed.iter_mut();
        let block = blocks.find(|block| block.number == number);
        block.expect("it is placed").references += 1;
    }
}

/// Text as properties of 64-bit files hold it: two bytes a unit. An empty text has no item.
fn text(text: &str) -> Given {
    if text.is_empty() {
        Given::Empty
    } else {
        Given::Bytes(text.encode_utf16().flat_map(u16::to_le_bytes).collect())
    }
}

/// One name, in the form that other readers ask for before they open a file: buckets, sets of names,
/// entries, texts.
fn names() -> Properties {
    vec![
        (1, NUMBER, Given::Number(251)),
        (2, BYTES, Given::Bytes(vec![0x29; 16])),
        (3, BYTES, Given::Bytes(vec![0, 0x82, 0, 0, 6, 0, 0, 0])),
        (4, BYTES, Given::Bytes(vec![0; 4])),
    ]
}

fn store() -> Properties {
    vec![
        (0x0FF9, BYTES, Given::Bytes(STORE_KEY.to_vec())),
        (0x3001, TEXT, text("Office")),
        (0x35DF, NUMBER, Given::Number(0x89)),
        (0x35E0, BYTES, entry_id(TOP)),
        (0x35E3, BYTES, entry_id(DELETED)),
        (0x35E7, BYTES, entry_id(SEARCH_ROOT)),
        (0x6633, TRUTH, Given::Number(1)),
        (0x67FF, NUMBER, Given::Number(0)),
    ]
}

/// The name of a node outside the file (003, 2.4.3.2).
fn entry_id(node: u32) -> Given {
    let parts = [&[0; 4][..], &STORE_KEY, &node.to_le_bytes()];
    Given::Bytes(parts.concat())
}

fn folder(node: u32, name: &str) -> Properties {
    let messages = match node {
        INBOX => INBOX_MESSAGES.len(),
        SENT => SENT_MESSAGES.len(),
        OLD => OLD_MESSAGES.len(),
        _ => 0,
    };
    let unread = if node == INBOX { UNREAD.len() } else { 0 };
    let mut below = FOLDERS.iter();
    let folders = below.any(|&(own, parent, _)| parent == node && own != node);
    vec![
        (0x3001, TEXT, text(name)),
        (0x3602, NUMBER, Given::Number(messages as u32)),
        (0x3603, NUMBER, Given::Number(unread as u32)),
        (0x360A, TRUTH, Given::Number(u32::from(folders))),
    ]
}

/// Messages whose flags do not say that they were read.
const UNREAD: [u32; 3] = [0x20_0084, 0x20_00E4, 0x20_0144];

fn recipient() -> Properties {
    vec![
        (0x0C15, NUMBER, Given::Number(1)),
        (0x0FFE, NUMBER, Given::Number(6)),
        (0x3001, TEXT, text("F. Haddad")),
        (0x3002, TEXT, text("SMTP")),
        (0x3003, TEXT, text("haddad@office.example")),
    ]
}

/// The text of the first message as a page.
fn page() -> Vec<u8> {
    let (subject, _, body) = INBOX_MESSAGES[0];
    format!("<html><head><title>{subject}</title></head><body><p>{body}</p></body></html>").into()
}

/// The first message has few properties, and a page in a subnode; later ones have those that 003,
/// 2.4.5.1.1 asks for, and no page.
fn message(node: u32, (subject, sender, body): Message) -> Properties {
    let minute = 600_000_000;
    let at = u64::from(node - FIRST_MESSAGE) / 0x20;
    let sent = 0x01CE_0000_0000_0000 + 37 * minute * at;
    let time = |time: u64| Given::Bytes(time.to_le_bytes().to_vec());
    let read = !UNREAD.contains(&node);
    let mut properties = vec![
        (0x0017, NUMBER, Given::Number(1)),
        (0x001A, TEXT, text("IPM.Note")),
        (0x0037, TEXT, text(subject)),
        (0x0039, TIME, time(sent)),
        (0x0C1A, TEXT, text(sender)),
        (0x0E07, NUMBER, Given::Number(u32::from(read))),
        (0x1000, TEXT, text(body)),
        (0x3FDE, NUMBER, Given::Number(65001)),
    ];
    if node == FIRST_MESSAGE {
        properties.push((0x1013, BYTES, Given::Subnode(PAGE)));
    } else {
        let size = 2 * (subject.len() + sender.len() + body.len()) as u32;
        properties.extend([
            (0x0042, TEXT, text(sender)),
            (0x0E06, TIME, time(sent + minute)),
            (0x0E08, NUMBER, Given::Number(size)),
            (0x0E17, NUMBER, Given::Number(0)),
            (0x3007, TIME, time(sent)),
            (0x3008, TIME, time(sent + minute)),
            (0x300B, BYTES, Given::Bytes(node.to_be_bytes().repeat(4))),
        ]);
    }
    properties
}
