//! The sample mail files of both editions are whole: their nodes, and the tables of their folders.

use model::build::office::office;
use model::build::tables::ROW_ID;
use model::build::{Built, MOST_SMALL};
use model::edition::Edition;
use model::{
    cell, check_blocks, check_nodes, column, count_rows, find_property, find_row, find_row32,
    header, item, table, Cell, Refusal, Rows, Value,
};
use std::collections::BTreeMap;

const NAME: u32 = 0x3001_001F;
const SUBJECT: u32 = 0x0037_001F;

fn both() -> [Built; 2] {
    Edition::BOTH.map(office)
}

/// The tag as files of that edition have it: texts of 32-bit files have a type of their own.
fn tag_in(edition: Edition, tag: u32) -> u32 {
    match (edition, tag as u16) {
        (Edition::Bits32, 0x1F) => tag - 1,
        _ => tag,
    }
}

fn data(office: &Built, node: u32) -> Vec<u8> {
    let mut nodes = office.nodes.iter();
    let node = nodes.find(|placed| placed.node == node);
    office.data(node.expect("it is listed"))
}

#[test]
fn every_node_is_read() {
    for office in both() {
        assert!(office.image.len() <= MOST_SMALL);
        let header = header(&office.image).expect("a header");
        assert_eq!((header.method, header.edition), (1, office.edition));
        assert_eq!(check_nodes(&office.image), Ok(()));
        assert_eq!(check_blocks(&office.image), Ok(()));
        assert_eq!((office.nodes.len(), office.blocks.len()), (60, 45));
        for node in &office.nodes {
            let data = office.data(node);
            let mut out = vec![0; data.len()];
            let read = model::read_node(&office.image, u64::from(node.node), &mut out);
            assert_eq!((read, &out), (Ok(Some(data.len())), &data));
        }
    }
}

/// The version that the real 32-bit file has whose header and pages are known.
#[test]
fn version_of_the_small_one() {
    let image = office(Edition::Bits32).image;
    assert_eq!(image[10..12], [14, 0]);
}

/// The properties of the first message, which the front page shows.
#[test]
fn first_message() {
    for office in both() {
        let heap = data(&office, 0x20_0024);
        let found = |id: u16| find_property(&heap, id).expect("a property context");
        let ids: Vec<_> = (0..=u16::MAX).filter(|&id| found(id).is_some()).collect();
        assert_eq!(
            ids,
            [0x17, 0x1A, 0x37, 0x39, 0xC1A, 0xE07, 0x1000, 0x1013, 0x3FDE]
        );
        let subject = found(0x37).expect("a subject");
        let kind = tag_in(office.edition, SUBJECT) as u16;
        assert_eq!(subject.kind, kind);
        let Value::Item(subject) = subject.value else {
            panic!("no item");
        };
        assert_eq!(text(office.edition, &heap, subject), "Minutes of Monday");
        let page = found(0x1013).expect("a page").value;
        assert_eq!(page, Value::Subnode(0x813F));
    }
}

/// A row's id and the text in one of its columns, row by row. The row index is that of the edition and
/// not that of the other.
fn rows(edition: Edition, block: &[u8], tag: u32) -> Vec<(u32, String)> {
    let tag = tag_in(edition, tag);
    let rows = count_rows(block, &[]).expect("a table");
    let row = |row| {
        let answer = |tag| cell(block, &[], row, tag).expect("a row");
        let Some(Cell::Number(id)) = answer(ROW_ID) else {
            panic!("no id");
        };
        let found = [find_row, find_row32].map(|find| find(block, id as u32));
        let (there, other) = (Ok(Some(row)), Err(Refusal::new(23, 0)));
        match edition {
            Edition::Bits64 => assert_eq!(found, [there, other]),
            Edition::Bits32 => assert_eq!(found, [other, there]),
        }
        let text = match answer(tag) {
            Some(Cell::Item(number)) => text(edition, block, number),
            Some(Cell::Empty) => String::new(),
            other => panic!("no text: {other:?}"),
        };
        (id as u32, text)
    };
    (0..rows as u32).map(row).collect()
}

fn text(edition: Edition, block: &[u8], number: u32) -> String {
    let item = item(block, number).expect("an item");
    let bytes = &block[item.start..item.start + item.length];
    match edition {
        Edition::Bits32 => String::from_utf8(bytes.to_vec()).expect("a text"),
        Edition::Bits64 => {
            let units = bytes.chunks_exact(2);
            let units = units.map(|unit| u16::from_le_bytes([unit[0], unit[1]]));
            String::from_utf16(&units.collect::<Vec<_>>()).expect("a text")
        }
    }
}

/// Folder, name, and how many messages it has, from the root down as the tables list them.
fn listed(office: &Built, folder: u32, name: String, folders: &mut Vec<(u32, String, usize)>) {
    let messages = rows(office.edition, &data(office, folder + 0xC), SUBJECT);
    folders.push((folder, name, messages.len()));
    for (below, name) in rows(office.edition, &data(office, folder + 0xB), NAME) {
        listed(office, below, name, folders);
    }
}

#[test]
fn folders_by_their_tables() {
    let expected = [
        (0x122, "", 0),
        (0x8022, "Top of Personal Folders", 0),
        (0x8062, "Deleted Items", 0),
        (0x8082, "Inbox", 11),
        (0x80A2, "Sent Items", 3),
        (0x80C2, "Archive", 0),
        (0x80E2, "2012", 2),
        (0x8042, "Search Root", 0),
    ];
    for office in both() {
        let mut folders = Vec::new();
        listed(&office, 0x122, String::new(), &mut folders);
        let folders = folders.iter();
        let folders: Vec<_> = folders
            .map(|(folder, name, messages)| (*folder, name.as_str(), *messages))
            .collect();
        assert_eq!(folders, expected);
    }
}

/// The number in a property of a context.
fn number(block: &[u8], id: u16) -> u32 {
    match find_property(block, id)
        .expect("a context")
        .expect("it is there")
        .value
    {
        Value::Number(number) => number,
        other => panic!("no number: {other:?}"),
    }
}

/// What a hierarchy table says of a folder is what the folder says of itself.
#[test]
fn tables_agree_with_folders() {
    both().iter().for_each(assert_folders);
}

fn assert_folders(office: &Built) {
    let parents: BTreeMap<_, _> = office
        .nodes
        .iter()
        .map(|node| (node.node, node.parent))
        .collect();
    for folder in [0x122, 0x8022, 0x80C2_u32] {
        let block = data(office, folder + 0xB);
        for (row, (below, _)) in (0..).zip(rows(office.edition, &block, NAME)) {
            assert_eq!(parents[&below], folder);
            let own = data(office, below);
            for (tag, id) in [
                (0x3602_0003, 0x3602),
                (0x3603_0003, 0x3603),
                (0x360A_000B, 0x360A),
            ] {
                let expected = Cell::Number(u64::from(number(&own, id)));
                assert_eq!(cell(&block, &[], row, tag), Ok(Some(expected)));
            }
            let messages = rows(office.edition, &data(office, below + 0xC), SUBJECT);
            assert_eq!(messages.len() as u32, number(&own, 0x3602));
        }
    }
}

/// A message's flags and times in the contents table are its own; what it does not have is missing.
#[test]
fn tables_agree_with_messages() {
    both().iter().for_each(assert_messages);
}

fn assert_messages(office: &Built) {
    let block = data(office, 0x808E);
    let mut unread = 0;
    for (row, (message, _)) in (0..).zip(rows(office.edition, &block, SUBJECT)) {
        let own = data(office, message);
        let flags = number(&own, 0x0E07);
        unread += 1 - flags;
        let expected = Cell::Number(u64::from(flags));
        assert_eq!(cell(&block, &[], row, 0x0E07_0003), Ok(Some(expected)));
        let delivered = cell(&block, &[], row, 0x0E06_0040);
        if row == 0 {
            assert_eq!(delivered, Ok(Some(Cell::Missing)));
        } else {
            // A minute after the first message was sent, or later.
            assert!(matches!(
                delivered,
                Ok(Some(Cell::Number(0x01CE_0000_23C3_4600..)))
            ));
        }
    }
    assert_eq!(unread, number(&data(office, 0x8082), 0x3603));
}

#[test]
fn templates() {
    both().iter().for_each(assert_templates);
}

fn assert_templates(office: &Built) {
    let expected = [
        (0x60D, 13),
        (0x60E, 27),
        (0x60F, 15),
        (0x610, 18),
        (0x671, 6),
        (0x692, 14),
    ];
    for (node, columns) in expected {
        let table = table(&data(office, node)).expect("a table");
        assert_eq!((table.columns, table.rows), (columns, Rows::None));
    }
    // An empty table is the template itself; one with rows has the sender as well.
    assert_eq!(data(office, 0x806E), data(office, 0x60E));
    let contents = table(&data(office, 0x808E)).expect("a table");
    assert_eq!((contents.columns, contents.row_size), (28, 126));
    let tag = tag_in(office.edition, 0x0C1A_001F);
    let sender = (0..28).find(|&at| {
        let column = column(&data(office, 0x808E), at);
        column.is_ok_and(|column| column.is_some_and(|column| column.tag == tag))
    });
    assert_eq!(sender, Some(10));
}
