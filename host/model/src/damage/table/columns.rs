//! Damage to columns. A column that is changed is moved behind the others first, so that no other rule
//! is broken along the way.

use super::{Spoiler, TableDamage};
use crate::table::{is_reference, Cell};
use TableDamage::*;

const WRONG_NUMBER_WIDTHS: [u8; 8] = [0, 3, 5, 6, 7, 9, 16, 255];
const WRONG_REFERENCE_WIDTHS: [u8; 7] = [0, 1, 2, 3, 5, 8, 16];
const REFERENCES: [u16; 10] = [
    0x1F, 0x1E, 0x102, 0x0D, 0x48, 0x1000, 0x1003, 0x101F, 0x3000, 0xFFFF,
];
/// Types next to those.
const NUMBERS: [u16; 13] = [
    0x20, 0x1D, 0x101, 0x103, 0x0C, 0x0E, 0x47, 0x49, 0x0FFF, 0x2000, 0xEFFF, 0x11F, 0,
];

impl Spoiler<'_> {
    pub(super) fn spoil_columns(&mut self, damage: TableDamage) -> Option<()> {
        match damage {
            ColumnPastRow => self.column_past_row(),
            BitPastRow => self.bit_past_row(),
            NumberWidth | ReferenceWidth | ReferenceType => self.width(damage),
            _ => {
                let (one, other) = self.pair(damage)?;
                match damage {
                    TagNeighbours | TagEnds => self.tags(one, other),
                    ByteNeighbours | ByteEnds => self.bytes(one, other),
                    _ => self.bits(one, other),
                }
                Some(())
            }
        }
    }

    fn any_column(&mut self, fits: impl Fn(u32) -> bool) -> Option<usize> {
        let columns = self.layout.columns.iter().enumerate();
        let fitting = columns.filter(|(_, column)| fits(column.tag));
        let fitting: Vec<_> = fitting.map(|(at, _)| at).collect();
        self.random.pick(&fitting).copied()
    }

    /// Two columns that stand side by side in the record, or its first and its last, in either order.
    fn pair(&mut self, damage: TableDamage) -> Option<(usize, usize)> {
        let last = self.layout.columns.len().checked_sub(1)?;
        let (low, high) = if matches!(damage, TagEnds | ByteEnds | BitEnds) {
            (0, last)
        } else {
            let low = self.random.below(last);
            (low, low + 1)
        };
        let pair = if self.random.one_in(2) {
            (low, high)
        } else {
            (high, low)
        };
        (last > 0).then_some(pair)
    }

    /// Gives the column new bytes behind those of all others.
    fn move_behind(&mut self, at: usize, width: u8) {
        let column = &mut self.layout.columns[at];
        column.offset = self.layout.ends[2];
        column.width = width;
        self.layout.ends[2] += u16::from(width);
        self.layout.ends[3] += u16::from(width);
    }

    /// Makes the column missing in every row.
    fn clear(&mut self, at: usize) {
        for row in &mut self.cells {
            row[at] = Cell::Missing;
        }
    }

    /// Gives the columns the first bits in their order, and answers the last bit, which none has.
    fn pack_bits(&mut self) -> u8 {
        for (bit, column) in self.layout.columns.iter_mut().enumerate() {
            column.bit = bit as u8;
        }
        let bytes = self.layout.columns.len() / 8 + 1;
        self.layout.ends[3] = self.layout.ends[2] + bytes as u16;
        (8 * bytes - 1) as u8
    }

    fn column_past_row(&mut self) -> Option<()> {
        let at = self.any_column(|_| true)?;
        self.move_behind(at, self.layout.columns[at].width);
        self.layout.columns[at].offset += u16::from(self.refused());
        Some(())
    }

    fn bit_past_row(&mut self) -> Option<()> {
        let at = self.any_column(|_| true)?;
        let last = self.pack_bits();
        self.layout.columns[at].bit = last.checked_add(u8::from(self.refused()))?;
        Some(())
    }

    fn width(&mut self, damage: TableDamage) -> Option<()> {
        let sought = damage == ReferenceWidth;
        let at = self.any_column(|tag| is_reference(tag as u16) == sought)?;
        let refused = self.refused();
        let random = &mut *self.random;
        let width = match damage {
            NumberWidth if refused => random.one_of(WRONG_NUMBER_WIDTHS),
            NumberWidth => random.one_of([1, 2, 4, 8]),
            ReferenceWidth if refused => random.one_of(WRONG_REFERENCE_WIDTHS),
            ReferenceWidth => 4,
            _ => random.one_of([1, 2, 8]),
        };
        if damage == ReferenceType {
            let kind = if refused {
                random.one_of(REFERENCES)
            } else {
                random.one_of(NUMBERS)
            };
            self.layout.columns[at].tag = self.free_tag(kind);
        }
        self.move_behind(at, width);
        Some(())
    }

    fn is_taken(&self, tag: u32) -> bool {
        self.layout.columns.iter().any(|column| column.tag == tag)
    }

    fn free_tag(&self, kind: u16) -> u32 {
        let tags = (0..=0xFFFF_u32).map(|id| id << 16 | u32::from(kind));
        let mut free = tags.filter(|&tag| !self.is_taken(tag));
        free.next().expect("columns are fewer than ids")
    }

    /// The same tag, or one that differs in a single bit of its id.
    fn tags(&mut self, one: usize, other: usize) {
        let column = self.layout.columns[one];
        let mut tag = column.tag;
        if !self.refused() {
            let near = (16..32).map(|bit| column.tag ^ 1 << bit);
            let free: Vec<_> = near.filter(|&tag| !self.is_taken(tag)).collect();
            let picked = self.random.pick(&free).copied();
            tag = picked.unwrap_or_else(|| self.free_tag(column.tag as u16));
        }
        self.layout.columns[other].tag = tag;
        self.clear(other);
        self.move_behind(other, column.width);
    }

    /// One right behind the other, or beginning within it; then its last byte is shared or all of it.
    fn bytes(&mut self, one: usize, other: usize) {
        let [width, behind] = [one, other].map(|at| self.layout.columns[at].width);
        self.move_behind(one, width);
        self.move_behind(other, behind);
        if self.refused() {
            let all = self.random.one_in(2);
            self.layout.columns[other].offset -= u16::from(if all { width } else { 1 });
        }
    }

    fn bits(&mut self, one: usize, other: usize) {
        let free = self.pack_bits();
        let columns = &mut self.layout.columns;
        columns[other].bit = if self.side == super::Side::Refused {
            columns[one].bit
        } else {
            free
        };
    }
}
