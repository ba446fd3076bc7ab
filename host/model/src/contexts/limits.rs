//! Tables whose block, or the block of whose rows, has the most bytes, or one more.

use super::{context_of, given, three_rows, Context, TAGS};
use crate::build::tables::{place_table_of, usual_layout, GivenCell, PlacedTable, RowsPlace};
use crate::edition::Edition;
use crate::random::Random;

pub fn contexts() -> Vec<Context> {
    let named = [
        ("heap-8177", heap(Edition::Bits64, 8177)),
        ("bits32-heap-8180", heap(Edition::Bits32, 8180)),
        ("refusal-18-heap-8181", heap(Edition::Bits64, 8181)),
        ("rows-8180", rows(Edition::Bits64, 8180)),
        ("bits32-rows-8177", rows(Edition::Bits32, 8177)),
        ("refusal-23-rows-8181", rows(Edition::Bits64, 8181)),
    ];
    named.into_iter().map(context_of).collect()
}

/// Three rows on a heap in a block of just so many bytes: a text is as long as it takes. Where the length
/// is odd, a byte that nothing reads stands behind the map.
fn heap(edition: Edition, length: usize) -> PlacedTable {
    let placed = |filler: usize| {
        let layout = usual_layout(&TAGS);
        let mut rows = three_rows(&layout);
        let texts = rows[0].iter_mut();
        let mut texts = texts.filter(|cell| matches!(cell, GivenCell::Bytes(_)));
        let text = texts.next().expect("a text");
        *text = GivenCell::Bytes(vec![0x42; filler]);
        let given = given(layout, rows, RowsPlace::Item);
        place_table_of(edition, &mut Random::new(0), &given)
    };
    let without = placed(0).block.len();
    let mut placed = placed((length - without) & !1);
    placed.block.resize(length, 0xA5);
    placed
}

/// Three rows in a subnode's block, and bytes behind them up to that length.
fn rows(edition: Edition, length: usize) -> PlacedTable {
    let layout = usual_layout(&TAGS);
    let rows = three_rows(&layout);
    let given = given(layout, rows, RowsPlace::Subnode(0x3F));
    let mut placed = place_table_of(edition, &mut Random::new(0), &given);
    placed.rows.resize(length, 0);
    placed
}
