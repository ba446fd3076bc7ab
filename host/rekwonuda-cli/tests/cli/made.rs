//! Files made for a test out of nodes and their data, and the tables that stand in them.

use model::build::heaps::{given_properties, Given};
use model::build::seal::{seal_block, seal_header, seal_page};
use model::build::tables::{
    place_table_of, usual_layout, GivenCell, GivenTable, RowsPlace, ROW_ID, ROW_VERSION,
};
use model::page::Tree;
use model::random::Random;
use model::{Edition, Reference};
use std::collections::BTreeMap;

pub const NAME: u32 = 0x3001_001F;
pub const COUNT: u32 = 0x3602_0003;
pub const UNREAD: u32 = 0x3603_0003;
pub const SUBJECT: u32 = 0x0037_001F;
pub const ROOT: u32 = 0x122;

const PAGE: usize = 512;

/// A sound file in the making, whose blocks are not encoded.
pub struct Made {
    edition: Edition,
    image: Vec<u8>,
    /// The entries of the two trees, by their keys.
    blocks: BTreeMap<u64, Vec<u8>>,
    nodes: BTreeMap<u64, Vec<u8>>,
    pages: u64,
}

impl Made {
    /// A 64-bit file.
    pub fn new() -> Made {
        Made::of(Edition::Bits64)
    }

    pub fn of(edition: Edition) -> Made {
        let mut image = vec![0; 0x4400];
        image[..10].copy_from_slice(b"!BDN\0\0\0\0SM");
        image[10] = match edition {
            Edition::Bits64 => 23,
            Edition::Bits32 => 14,
        };
        Made {
            edition,
            image,
            blocks: BTreeMap::new(),
            nodes: BTreeMap::new(),
            pages: 0,
        }
    }

    /// Leaves so many bytes of zeros.
    pub fn leave(&mut self, length: usize) {
        self.image.resize(self.image.len() + length, 0);
    }

    /// Places a block of data, and answers its number.
    pub fn block(&mut self, data: &[u8]) -> u64 {
        self.place(data, 4 * (self.blocks.len() as u64 + 1))
    }

    /// Places blocks of data and a data tree over them.
    pub fn tree(&mut self, parts: &[&[u8]]) -> u64 {
        let children: Vec<u64> = parts.iter().map(|part| self.block(part)).collect();
        let length: usize = parts.iter().map(|part| part.len()).sum();
        let mut root = vec![1, 1];
        root.extend((children.len() as u16).to_le_bytes());
        root.extend((length as u32).to_le_bytes());
        root.extend(self.fields(&children));
        self.place(&root, 4 * (self.blocks.len() as u64 + 1) + 2)
    }

    fn place(&mut self, data: &[u8], number: u64) -> u64 {
        let layout = self.edition.layout();
        let (offset, size) = (self.image.len(), data.len() as u16);
        let room = layout.room(u32::from(size)) as usize;
        self.image.extend(data);
        self.image.resize(offset + room, 0);
        seal_block(&mut self.image, offset, size, number);
        let mut entry = self.fields(&[number, offset as u64]);
        entry.extend(size.to_le_bytes());
        entry.resize(layout.block_leaf.size, 0);
        self.blocks.insert(number, entry);
        number
    }

    /// The numbers one behind the other, in the width that they have in the file.
    fn fields(&self, numbers: &[u64]) -> Vec<u8> {
        let width = self.edition.layout().width;
        let field = |number: &u64| number.to_le_bytes()[..width].to_vec();
        numbers.iter().flat_map(field).collect()
    }

    /// Lists a node with that data block.
    pub fn list(&mut self, node: u32, data: u64) {
        let mut entry = self.fields(&[node.into(), data]);
        entry.resize(self.edition.layout().node_leaf.size, 0);
        self.nodes.insert(node.into(), entry);
    }

    /// A node with this data in one block.
    pub fn node(&mut self, node: u32, data: &[u8]) {
        let data = self.block(data);
        self.list(node, data);
    }

    /// The hierarchy table and the contents table of a folder.
    pub fn folder(&mut self, folder: u32, subfolders: &[(u32, &str)], messages: u32) {
        self.node(folder & !0x1F | 0x0D, &bytes(&hierarchy(subfolders)));
        self.node(folder & !0x1F | 0x0E, &bytes(&contents(messages)));
    }

    /// The root folder's properties.
    pub fn root(&mut self, name: &str) {
        let given = vec![
            (0x3001, 0x1F, Given::Bytes(utf_16(name))),
            (0x3602, 3, Given::Number(0)),
            (0x3603, 3, Given::Number(0)),
        ];
        let heap = given_properties(&mut Random::new(1), given);
        self.node(ROOT, &heap.block);
    }

    /// The file.
    pub fn image(mut self) -> Vec<u8> {
        let blocks = std::mem::take(&mut self.blocks);
        let nodes = std::mem::take(&mut self.nodes);
        let blocks = self.grow(blocks, Tree::Blocks);
        let nodes = self.grow(nodes, Tree::Nodes);
        let layout = self.edition.layout();
        let mut image = self.image;
        let end = image.len() as u64;
        layout.put_number(&mut image, layout.header.end, end);
        layout.put_reference(&mut image, layout.header.nodes, nodes);
        layout.put_reference(&mut image, layout.header.blocks, blocks);
        image[layout.header.sentinel] = 0x80;
        seal_header(&mut image);
        image
    }

    /// Pages over the entries, level by level; answers the root page.
    fn grow(&mut self, entries: BTreeMap<u64, Vec<u8>>, tree: Tree) -> Reference {
        let mut entries: Vec<(u64, Vec<u8>)> = entries.into_iter().collect();
        if entries.is_empty() {
            return self.page(&[], tree, 0);
        }
        let mut level = 0;
        loop {
            let most = self.edition.layout().entries(tree, level).most;
            let pages: Vec<_> = entries
                .chunks(most)
                .map(|part| (part[0].0, self.page(part, tree, level)))
                .collect();
            if let [(_, root)] = pages.as_slice() {
                return *root;
            }
            let index = |(key, page): &(u64, Reference)| {
                (*key, self.fields(&[*key, page.number, page.offset]))
            };
            entries = pages.iter().map(index).collect();
            level += 1;
        }
    }

    fn page(&mut self, entries: &[(u64, Vec<u8>)], tree: Tree, level: u8) -> Reference {
        let layout = self.edition.layout();
        let (offset, shape) = (self.image.len(), layout.entries(tree, level));
        let mut page: Vec<u8> = entries
            .iter()
            .flat_map(|(_, entry)| entry.clone())
            .collect();
        page.resize(PAGE, 0);
        let counts = [
            entries.len() as u8,
            shape.most as u8,
            shape.size as u8,
            level,
        ];
        page[layout.page.counts..][..4].copy_from_slice(&counts);
        page[layout.page.kinds..][..2].fill(tree.kind());
        self.pages += 1;
        layout.put_number(&mut page, layout.page.number, self.pages);
        self.image.extend(page);
        seal_page(&mut self.image, offset);
        Reference {
            number: self.pages,
            offset: offset as u64,
        }
    }
}

pub fn utf_16(text: &str) -> Vec<u8> {
    text.encode_utf16().flat_map(u16::to_le_bytes).collect()
}

pub fn text(text: &str) -> GivenCell {
    GivenCell::Bytes(utf_16(text))
}

/// A table with these columns, and for each row its id and its cells in the order of the tags.
pub fn table(tags: &[u32], rows: &[(u32, Vec<GivenCell>)]) -> GivenTable {
    let layout = usual_layout(tags);
    let in_order = |(id, cells): &(u32, Vec<GivenCell>)| {
        let cell = |tag: u32| match tag {
            ROW_ID => GivenCell::Number((*id).into()),
            ROW_VERSION => GivenCell::Number(7),
            _ => {
                let at = tags.iter().position(|other| *other == tag);
                cells[at.expect("the layout has these tags alone")].clone()
            }
        };
        layout
            .columns
            .iter()
            .map(|column| cell(column.tag))
            .collect()
    };
    GivenTable {
        rows: rows.iter().map(in_order).collect(),
        row_index: rows
            .iter()
            .zip(0..)
            .map(|((id, _), row)| (*id, row))
            .collect(),
        layout,
        rows_place: match rows {
            [] => RowsPlace::None,
            _ => RowsPlace::Item,
        },
        left_over: Vec::new(),
        index_levels: 0,
        tidy: true,
    }
}

/// The block of a table in a 64-bit file.
pub fn bytes(given: &GivenTable) -> Vec<u8> {
    bytes_of(Edition::Bits64, given)
}

pub fn bytes_of(edition: Edition, given: &GivenTable) -> Vec<u8> {
    place_table_of(edition, &mut Random::new(1), given).block
}

/// A hierarchy table with these folders, each said to have two messages, one of them unread.
pub fn hierarchy(folders: &[(u32, &str)]) -> GivenTable {
    let rows: Vec<_> = folders
        .iter()
        .map(|(id, name)| {
            (
                *id,
                vec![text(name), GivenCell::Number(2), GivenCell::Number(1)],
            )
        })
        .collect();
    table(&[NAME, COUNT, UNREAD], &rows)
}

/// A contents table with so many messages.
pub fn contents(messages: u32) -> GivenTable {
    let message = |at: u32| (0x20_0024 + 0x20 * at, vec![text("Subject")]);
    let rows: Vec<_> = (0..messages).map(message).collect();
    table(&[SUBJECT], &rows)
}

/// A file whose node 0x802D is this table.
pub fn with_table(given: &GivenTable) -> Vec<u8> {
    let mut made = Made::new();
    made.node(0x802D, &bytes(given));
    made.image()
}
