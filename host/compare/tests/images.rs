//! The chosen images and the sample mail files: every call on them, put to both.

use compare::ask::{ask, Ask, Call, Lent, ON_HEAP, ON_IMAGE, ON_TABLE};
use compare::buffers::Buffers;
use compare::lists::WORDS;
use compare::tables::CELL_WORDS;
use model::build::office::office;
use model::edition::Edition;
use model::images::{images, Image};

/// Lent where the rows of a table stand in a subnode, which no call looks for.
const ROWS: [u8; 300] = [0xF0; 300];

fn assert_alike(name: &str, bytes: &[u8], nodes: &[u64], question: Ask) {
    let mut buffers = Buffers::default();
    let lent = Lent {
        bytes,
        nodes,
        rows: &ROWS,
    };
    let answers = ask(&question, lent, lent, &mut buffers);
    assert_eq!(answers.proved, answers.model, "{name}: {question:x?}");
    assert!(buffers.same(), "{name}: {question:x?}");
}

fn assert_image(image: &Image) {
    let Image { name, bytes, .. } = image;
    for &call in ON_IMAGE.iter().filter(|&&call| call != Call::FindNodes) {
        let numbers = if call.takes_node() {
            &image.nodes
        } else {
            &image.blocks
        };
        for &number in numbers.iter().chain(&image.from) {
            let question = Ask {
                out_length: image.buffer,
                ..Ask::new(call, number)
            };
            assert_alike(name, bytes, &[], question);
        }
    }
    assert_lists(image);
    for &node in &image.nodes {
        let mut out = vec![0; image.buffer];
        if let Ok(Some(length)) = model::read_node(bytes, node, &mut out) {
            assert_heap(image, &out[..length]);
            assert_table(image, &out[..length]);
        }
    }
}

/// Every number in one list, forwards and backwards, in areas too short, right and too long.
fn assert_lists(image: &Image) {
    let mut nodes = [&image.nodes[..], &image.from].concat();
    for _ in 0..2 {
        let needed = WORDS * nodes.len();
        for words in [
            0,
            needed - WORDS,
            needed - 1,
            needed,
            needed + 8,
            needed + 30,
        ] {
            let question = Ask {
                words,
                ..Ask::new(Call::FindNodes, 7)
            };
            assert_alike(&image.name, &image.bytes, &nodes, question);
        }
        nodes.reverse();
    }
}

fn assert_heap(image: &Image, block: &[u8]) {
    for &call in ON_HEAP {
        let items = (0..40).map(|at| at << 5);
        for number in items.chain(image.ids.iter().map(|&id| u64::from(id))) {
            assert_alike(&image.name, block, &[], Ask::new(call, number));
        }
    }
}

/// Every cell of a table, and around its last row and column; of no table the same few calls.
fn assert_table(image: &Image, block: &[u8]) {
    let assert = |question| assert_alike(&image.name, block, &[], question);
    let columns = model::table(block).map_or(2, |table| usize::from(table.columns));
    let rows = model::count_rows(block, &ROWS).unwrap_or(2) as u64;
    let columns_of = |at| model::column(block, at).ok().flatten();
    let tags: Vec<_> = (0..=255)
        .filter_map(columns_of)
        .map(|column| column.tag)
        .collect();
    for call in ON_TABLE.iter().filter(|call| **call != Call::Cell) {
        let ids = image.nodes.iter().copied();
        for number in (0..=rows + 1).chain([columns as u64, 255]).chain(ids) {
            for words in [0, CELL_WORDS * columns, CELL_WORDS * columns + 7] {
                let question = Ask::new(*call, number);
                assert(Ask { words, ..question });
            }
        }
    }
    for row in 0..=rows {
        for &tag in tags.iter().chain(&[0, 0x3001_001E]) {
            let question = Ask::new(Call::Cell, row);
            assert(Ask { tag, ..question });
        }
    }
}

#[test]
fn chosen_images() {
    images().iter().for_each(assert_image);
}

#[test]
fn sample_mail_files() {
    for office in Edition::BOTH.map(office) {
        assert_image(&Image {
            name: format!("office, {:?}", office.edition),
            nodes: office.node_numbers(),
            blocks: office.block_numbers(),
            from: vec![0, 0x8022, u64::from(u32::MAX), 1 << 32 | 4],
            ids: vec![0x37, 0x1000, 0x3001, 0x3602],
            buffer: 65_536,
            bytes: office.image,
        });
    }
}
