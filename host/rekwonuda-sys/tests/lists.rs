//! A list of nodes in one call: what stands in each place, and what is left alone.

use rekwonuda_sys::{
    find_node, find_nodes, Answer, BlockAnswer, CellAnswer, CellsAnswer, ColumnAnswer, CountAnswer,
    DataAnswer, HeaderAnswer, ItemAnswer, LengthAnswer, NodeAnswer, PropertyAnswer, RowAnswer,
    SizeAnswer, TableAnswer, MOST_NODES,
};

/// What stands in an area before a call.
const BEFORE: u64 = 0xA5A5_A5A5_A5A5_A5A5;

/// Found, absent, refused, and the first once more with a bit above the low four bytes.
const NODES: [u64; 4] = [0x122, 0x20, 0x804F, 0x122 | 1 << 32];

fn sample() -> Vec<u8> {
    let path = concat!(env!("CARGO_MANIFEST_DIR"), "/../../samples/mini.img");
    std::fs::read(path).expect("the sample can be read")
}

fn short(more: u64) -> Answer {
    Answer {
        refusal: 17,
        place: 0,
        more,
    }
}

macro_rules! comes_back {
    ($($name:ident)*) => {$({
        let mut fields = [0; $name::WORDS];
        fields.iter_mut().zip(1..).for_each(|(field, number)| *field = number);
        assert_eq!($name::from_fields(fields).fields(), fields);
        assert_eq!(size_of::<$name>(), 8 * $name::WORDS);
    })*};
}

#[test]
fn an_answer_is_its_fields_in_their_order() {
    comes_back! {
        Answer HeaderAnswer NodeAnswer BlockAnswer SizeAnswer LengthAnswer DataAnswer ItemAnswer
        PropertyAnswer TableAnswer ColumnAnswer CountAnswer CellAnswer RowAnswer CellsAnswer
    }
    assert_eq!(NodeAnswer::WORDS, 9);
    assert_eq!(CellAnswer::WORDS, 6);
}

#[test]
fn each_place_is_the_answer_to_its_number() {
    let image = sample();
    let mut area = [BEFORE; NODES.len() * NodeAnswer::WORDS + 5];
    assert_eq!(find_nodes(&image, &NODES, &mut area).fields(), [0; 3]);
    let places = area.chunks_exact(NodeAnswer::WORDS);
    for (place, node) in places.zip(NODES) {
        assert_eq!(place, find_node(&image, node).fields(), "{node:#x}");
    }
    assert_eq!(area[NODES.len() * NodeAnswer::WORDS..], [BEFORE; 5]);
}

#[test]
fn a_refused_header_stands_in_each_place() {
    let mut places = [[BEFORE; NodeAnswer::WORDS]; 2];
    let answer = find_nodes(b"no image", &NODES[..2], places.as_flattened_mut());
    assert_eq!(answer.refusal, 0);
    assert_eq!(places, [find_node(b"no image", 0).fields(); 2]);
    assert_eq!(places[0][0], 1);
}

#[test]
fn a_refused_list_leaves_the_area_as_it_was() {
    let image = sample();
    let mut area = vec![BEFORE; (MOST_NODES + 1) * NodeAnswer::WORDS];
    let too_many = vec![0x122; MOST_NODES + 1];
    let one_short = &mut area[..NODES.len() * NodeAnswer::WORDS - 1];
    assert_eq!(find_nodes(&image, &NODES, one_short), short(4));
    let most = MOST_NODES as u64;
    assert_eq!(find_nodes(&image, &too_many, &mut area), short(most));
    assert_eq!(find_nodes(&image, &too_many, &mut []), short(most));
    assert!(area.iter().all(|word| *word == BEFORE));
    let answer = find_nodes(&image, &too_many[1..], &mut area);
    assert_eq!(answer.refusal, 0);
}

#[test]
fn an_empty_list_is_answered() {
    let mut area = [BEFORE; 5];
    for image in [&sample()[..], b"no image", b""] {
        assert_eq!(find_nodes(image, &[], &mut []).fields(), [0; 3]);
        assert_eq!(find_nodes(image, &[], &mut area).fields(), [0; 3]);
    }
    assert_eq!(area, [BEFORE; 5]);
}
