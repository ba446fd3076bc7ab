//! One call, put to both.

use crate::answers;
use crate::buffers::Buffers;
use crate::checksums::Part;
use crate::lists::WORDS;
use crate::tables::CELL_WORDS;
use model::page::Tree;
use rekwonuda_sys as proved;

#[derive(Clone, Copy, PartialEq, Eq, PartialOrd, Ord, Debug)]
pub enum Call {
    Header,
    CheckNodes,
    CheckBlocks,
    FindNode,
    FindNodes,
    FindBlock,
    NextNode,
    NextBlock,
    TestBlock,
    ReadBlock,
    ReadNode,
    Encode,
    Decode,
    TestHeap,
    TestItem,
    Item,
    FindProperty,
    Table,
    Column,
    CountRows,
    Cell,
    FindRow,
    FindRow32,
    ReadRow,
    Checksum,
    Signature,
    Room,
    Room32,
}

/// The calls on an image; those with a buffer are asked more often.
pub const ON_IMAGE: &[Call] = &[
    Call::Header,
    Call::CheckNodes,
    Call::CheckBlocks,
    Call::FindNode,
    Call::FindNodes,
    Call::FindBlock,
    Call::NextNode,
    Call::NextBlock,
    Call::TestBlock,
    Call::ReadBlock,
    Call::ReadBlock,
    Call::ReadNode,
    Call::ReadNode,
    Call::ReadNode,
];

pub const ON_HEAP: &[Call] = &[
    Call::TestHeap,
    Call::TestItem,
    Call::Item,
    Call::FindProperty,
    Call::FindProperty,
    Call::FindProperty,
];

/// The calls on a table, and some that know no table.
pub const ON_TABLE: &[Call] = &[
    Call::Table,
    Call::Column,
    Call::Column,
    Call::CountRows,
    Call::CountRows,
    Call::Cell,
    Call::Cell,
    Call::Cell,
    Call::Cell,
    Call::FindRow,
    Call::FindRow,
    Call::FindRow,
    Call::FindRow32,
    Call::FindRow32,
    Call::FindRow32,
    Call::ReadRow,
    Call::ReadRow,
    Call::ReadRow,
    Call::Item,
    Call::FindProperty,
];

pub const ON_BYTES: &[Call] = &[
    Call::Encode,
    Call::Decode,
    Call::Checksum,
    Call::Signature,
    Call::Room,
    Call::Room32,
];

impl Call {
    pub fn takes_node(self) -> bool {
        if matches!(self, Call::NextNode | Call::ReadNode) {
            return true;
        }
        matches!(self, Call::FindNode | Call::FindNodes)
    }

    /// Whether the call seeks a block, so that bit 0 of its number makes no difference.
    pub fn seeks_block(self) -> bool {
        matches!(self, Call::FindBlock | Call::TestBlock | Call::ReadBlock)
    }

    /// Whether the call reads an image.
    pub fn reads_image(self) -> bool {
        ON_IMAGE.contains(&self)
    }

    /// Whether the call reads the node tree, or the block tree, before all else behind the header.
    pub fn first_tree(self) -> Option<Tree> {
        match self {
            Call::CheckBlocks | Call::NextBlock => Some(Tree::Blocks),
            _ if self.seeks_block() => Some(Tree::Blocks),
            Call::CheckNodes => Some(Tree::Nodes),
            _ if self.takes_node() => Some(Tree::Nodes),
            _ => None,
        }
    }

    /// Whether the call seeks a row in a row index.
    pub fn seeks_row(self) -> bool {
        matches!(self, Call::FindRow | Call::FindRow32)
    }

    /// Whether the call reads a heap.
    pub fn reads_heap(self) -> bool {
        ON_HEAP.contains(&self) || self.reads_table()
    }

    /// Whether the call reads a table.
    pub fn reads_table(self) -> bool {
        (Call::Table..=Call::ReadRow).contains(&self)
    }

    /// Whether the answer's fourth field says found or absent.
    pub fn may_be_absent(self) -> bool {
        let in_table =
            matches!(self, Call::Column | Call::Cell | Call::ReadRow) || self.seeks_row();
        let in_image = matches!(self, Call::FindNode | Call::FindBlock | Call::ReadNode);
        let next = matches!(self, Call::NextNode | Call::NextBlock);
        in_image || next || in_table || self == Call::FindProperty
    }

    /// The refusals that the header of the C face allows this call.
    pub fn refusals(self) -> Vec<u64> {
        match self {
            Call::Header => (1..=5).collect(),
            Call::FindNodes => vec![17],
            Call::TestBlock => (1..=15).chain([21]).collect(),
            Call::ReadBlock => (1..=15).chain([17, 21]).collect(),
            Call::ReadNode => (1..=17).chain([21]).collect(),
            Call::Encode | Call::Decode => vec![5],
            Call::TestHeap => vec![18],
            Call::TestItem | Call::Item => vec![18, 19],
            Call::FindProperty => vec![18, 19, 20],
            Call::ReadRow => vec![17, 18, 19, 23],
            _ if self.reads_table() => vec![18, 19, 23],
            Call::Checksum | Call::Signature | Call::Room | Call::Room32 => Vec::new(),
            _ => (1..=11).chain([21]).collect(),
        }
    }
}

/// A call's arguments beside what is lent. Each call takes those that it has.
#[derive(Clone, Copy, Debug)]
pub struct Ask {
    pub call: Call,
    /// Of a cell and of all cells of a row the row's.
    pub number: u64,
    pub tag: u32,
    /// A page or block offset, for the signature.
    pub offset: u64,
    pub method: u8,
    pub out_length: usize,
    /// The words of the area that a list of nodes, or all cells of a row, are answered in.
    pub words: usize,
    /// Of which bytes the checksum is taken.
    pub part: Part,
}

impl Ask {
    /// Of a call that takes a number at most.
    pub fn new(call: Call, number: u64) -> Self {
        Self {
            call,
            number,
            tag: 0,
            offset: 0,
            method: 0,
            out_length: 0,
            words: 0,
            part: Part::WHOLE,
        }
    }
}

/// What is lent to a call for reading: an image, a block or other bytes, a list of node numbers, and the
/// block of a table's rows.
#[derive(Clone, Copy, PartialEq, Eq)]
pub struct Lent<'a> {
    pub bytes: &'a [u8],
    pub nodes: &'a [u64],
    pub rows: &'a [u8],
}

/// All fields of both answers.
#[derive(Clone, Debug, PartialEq, Eq)]
pub struct Answers {
    pub proved: Vec<u64>,
    pub model: Vec<u64>,
}

fn both<const N: usize>(proved: [u64; N], model: [u64; N]) -> Answers {
    Answers {
        proved: proved.to_vec(),
        model: model.to_vec(),
    }
}

/// Puts one call to both. `lent` is what the proved library reads, `own` the model's copy of it.
pub fn ask(ask: &Ask, lent: Lent, own: Lent, buffers: &mut Buffers) -> Answers {
    buffers.clear();
    match ask.call {
        Call::ReadBlock | Call::ReadNode => {
            buffers.set_bytes(&[], ask.out_length, ask.number as u8);
            read(ask, lent.bytes, own.bytes, buffers)
        }
        Call::Encode | Call::Decode => {
            buffers.set_bytes(own.bytes, ask.out_length, ask.number as u8);
            code(ask, buffers)
        }
        Call::FindNodes => {
            buffers.set_words(ask.words, ask.number);
            find_nodes(lent, own, buffers)
        }
        Call::ReadRow => {
            buffers.set_words(ask.words, ask.number);
            read_row(ask, lent, own, buffers)
        }
        call if call.reads_table() => look_in_table(ask, lent, own),
        _ => look(ask, lent.bytes, own.bytes),
    }
}

fn find_nodes(lent: Lent, own: Lent, buffers: &mut Buffers) -> Answers {
    let (places, model_places) = buffers.lend_words();
    let model = model::find_nodes(own.bytes, own.nodes, model_places);
    let proved = proved::find_nodes(lent.bytes, lent.nodes, places);
    both(proved.fields(), answers::plain(model))
}

fn read_row(ask: &Ask, lent: Lent, own: Lent, buffers: &mut Buffers) -> Answers {
    let row = ask.number as u32;
    let (places, model_places) = buffers.lend_words();
    let model = model::read_row(own.bytes, own.rows, row, model_places);
    let proved = proved::read_row(lent.bytes, lent.rows, row, places);
    both(proved.fields(), answers::data(model))
}

/// Whether each place, as a call for a row has just left it, is what the proved library answers to that
/// cell alone.
pub fn alike_cell_by_cell(ask: &Ask, lent: Lent, buffers: &mut Buffers) -> bool {
    let (places, _) = buffers.lend_words();
    let columns = (0..).map(|at| proved::column(lent.bytes, at));
    let columns = columns.take_while(|column| column.found == 1);
    let mut each = columns.zip(places.chunks_exact(CELL_WORDS));
    each.all(|(column, place)| {
        let row = ask.number as u32;
        proved::cell(lent.bytes, lent.rows, row, column.tag as u32).fields() == place
    })
}

/// Whether each place, as a call for a list has just left it, is what the proved library answers to
/// that number alone.
pub fn alike_one_by_one(lent: Lent, buffers: &mut Buffers) -> bool {
    let (places, _) = buffers.lend_words();
    let mut each = lent.nodes.iter().zip(places.chunks_exact(WORDS));
    each.all(|(&node, place)| proved::find_node(lent.bytes, node).fields() == place)
}

/// Whether the proved library answers the number and the number with bit 0 the other way alike, in
/// every field and every byte of the buffer.
pub fn alike_either_way(ask: &Ask, lent: &[u8], buffers: &mut Buffers) -> bool {
    buffers.set_bytes(&[], ask.out_length, ask.number as u8);
    let [number, other] = [ask.number, ask.number ^ 1];
    let (out, other_out) = buffers.lend_bytes();
    let alike = match ask.call {
        Call::FindBlock => {
            proved::find_block(lent, number).fields() == proved::find_block(lent, other).fields()
        }
        Call::TestBlock => {
            proved::test_block(lent, number).fields() == proved::test_block(lent, other).fields()
        }
        Call::ReadBlock => {
            proved::read_block(lent, number, out).fields()
                == proved::read_block(lent, other, other_out).fields()
        }
        _ => true,
    };
    alike && buffers.same()
}

/// Whether the proved library answers a call on an image and on another image alike, in every field and
/// every byte and word of the buffers.
pub fn alike_on_another(ask: &Ask, lent: Lent, other: &[u8], buffers: &mut Buffers) -> bool {
    buffers.set_bytes(&[], ask.out_length, ask.number as u8);
    buffers.set_words(ask.words, ask.number);
    let [(out, places), (other_out, other_places)] = buffers.lend_all();
    let other = Lent {
        bytes: other,
        ..lent
    };
    let alike = on_image(ask, lent, out, places) == on_image(ask, other, other_out, other_places);
    alike && buffers.same()
}

/// What the proved library answers to a call on an image.
fn on_image(ask: &Ask, lent: Lent, out: &mut [u8], places: &mut [u64]) -> Vec<u64> {
    let (image, number) = (lent.bytes, ask.number);
    match ask.call {
        Call::CheckNodes => proved::check_nodes(image).fields().to_vec(),
        Call::CheckBlocks => proved::check_blocks(image).fields().to_vec(),
        Call::FindNode => proved::find_node(image, number).fields().to_vec(),
        Call::FindNodes => proved::find_nodes(image, lent.nodes, places)
            .fields()
            .to_vec(),
        Call::FindBlock => proved::find_block(image, number).fields().to_vec(),
        Call::NextNode => proved::next_node(image, number).fields().to_vec(),
        Call::NextBlock => proved::next_block(image, number).fields().to_vec(),
        Call::TestBlock => proved::test_block(image, number).fields().to_vec(),
        Call::ReadBlock => proved::read_block(image, number, out).fields().to_vec(),
        Call::ReadNode => proved::read_node(image, number, out).fields().to_vec(),
        _ => proved::header(image).fields().to_vec(),
    }
}

fn read(ask: &Ask, lent: &[u8], own: &[u8], buffers: &mut Buffers) -> Answers {
    let number = ask.number;
    let (out, model_out) = buffers.lend_bytes();
    if ask.call == Call::ReadBlock {
        let model = model::read_block(own, number, model_out);
        let proved = proved::read_block(lent, number, out);
        both(proved.fields(), answers::length(model))
    } else {
        let model = model::read_node(own, number, model_out);
        let proved = proved::read_node(lent, number, out);
        both(proved.fields(), answers::data(model))
    }
}

fn code(ask: &Ask, buffers: &mut Buffers) -> Answers {
    let Ask { number, method, .. } = *ask;
    let (bytes, model_bytes) = buffers.lend_bytes();
    if ask.call == Call::Encode {
        let model = model::encode(method, number, model_bytes);
        let proved = proved::encode(method, number, bytes);
        both(proved.fields(), answers::plain(model))
    } else {
        let model = model::decode(method, number, model_bytes);
        let proved = proved::decode(method, number, bytes);
        both(proved.fields(), answers::plain(model))
    }
}

/// The same call of both, its answer as the fields of that shape, or as a number.
macro_rules! put_to_both {
    ($call:ident, $lent:expr, $own:expr $(, $argument:expr)*) => {
        both(
            answers::number(proved::$call($lent $(, $argument)*)),
            answers::number(model::$call($own $(, $argument)*)),
        )
    };
    ($call:ident as $shape:ident, $lent:expr, $own:expr $(, $argument:expr)*) => {
        both(
            proved::$call($lent $(, $argument)*).fields(),
            answers::$shape(model::$call($own $(, $argument)*)),
        )
    };
}

fn look_in_table(ask: &Ask, lent: Lent, own: Lent) -> Answers {
    let Ask { number, tag, .. } = *ask;
    let (block, own_block) = (lent.bytes, own.bytes);
    match ask.call {
        Call::Table => put_to_both!(table as table, block, own_block),
        Call::Column => put_to_both!(column as column, block, own_block, number as u32),
        Call::FindRow => put_to_both!(find_row as row, block, own_block, number as u32),
        Call::FindRow32 => put_to_both!(find_row32 as row, block, own_block, number as u32),
        Call::CountRows => both(
            proved::count_rows(block, lent.rows).fields(),
            answers::length(model::count_rows(own_block, own.rows)),
        ),
        _ => both(
            proved::cell(block, lent.rows, number as u32, tag).fields(),
            answers::cell(model::cell(own_block, own.rows, number as u32, tag)),
        ),
    }
}

fn look(ask: &Ask, lent: &[u8], own: &[u8]) -> Answers {
    let number = ask.number;
    match ask.call {
        Call::Header => put_to_both!(header as header, lent, own),
        Call::CheckNodes => put_to_both!(check_nodes as plain, lent, own),
        Call::CheckBlocks => put_to_both!(check_blocks as plain, lent, own),
        Call::FindNode => put_to_both!(find_node as node, lent, own, number),
        Call::FindBlock => put_to_both!(find_block as block, lent, own, number),
        Call::NextNode => put_to_both!(next_node as node, lent, own, number),
        Call::NextBlock => put_to_both!(next_block as block, lent, own, number),
        Call::TestBlock => put_to_both!(test_block as size, lent, own, number),
        Call::TestHeap => put_to_both!(test_heap as plain, lent, own),
        Call::TestItem => put_to_both!(test_item as plain, lent, own, number as u32),
        Call::Item => put_to_both!(item as item, lent, own, number as u32),
        Call::FindProperty => put_to_both!(find_property as property, lent, own, number as u16),
        Call::Signature => put_to_both!(signature, ask.offset, ask.offset, number),
        Call::Room => put_to_both!(room, number as u32, number as u32),
        Call::Room32 => put_to_both!(room32, number as u32, number as u32),
        _ => put_to_both!(checksum, ask.part.of(lent), ask.part.of(own)),
    }
}
