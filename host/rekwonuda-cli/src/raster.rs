//! A file as rows of pixels.

use crate::stretches::{Kind, Stretch};
use std::ops::Range;

/// How many pixels a row has.
pub const WIDTH: usize = 896;

pub const MOST_ROWS: usize = 64;
const SHORTEST_ROW: u64 = 512;

/// Neighbours of one kind are parted where the first has at least so many pixels.
const LEAST_PARTED: usize = 4;

/// What each pixel shows: of the stretches that it touches, the first by their kinds.
pub struct Raster {
    /// How many bytes a row has.
    pub row_bytes: u64,
    pixels: Vec<Stretch>,
}

/// Pixels side by side that show one stretch, or several of a kind: from where the first of them begins
/// to where the last one ends.
#[derive(Clone, Debug)]
pub struct Run {
    pub stretch: Stretch,
    pub pixels: Range<usize>,
}

impl Raster {
    /// Of stretches that cover a file of that size, in order.
    pub fn new(size: u64, stretches: impl Iterator<Item = Stretch>) -> Raster {
        let row_bytes = size.div_ceil(MOST_ROWS as u64).max(SHORTEST_ROW);
        let mut raster = Raster {
            row_bytes: row_bytes.next_power_of_two(),
            pixels: Vec::new(),
        };
        for stretch in stretches {
            raster.paint(stretch);
        }
        raster
    }

    /// Paints a stretch. It may share its first pixel with those before it.
    fn paint(&mut self, stretch: Stretch) {
        let from = self.pixel(stretch.from);
        let to = scaled(stretch.to).div_ceil(self.row_bytes.into()) as usize;
        if let Some(shared) = self.pixels.get_mut(from) {
            if stretch.kind < shared.kind {
                *shared = stretch;
            } else if stretch.kind == shared.kind {
                shared.to = stretch.to;
            }
        }
        self.pixels.resize(to, stretch);
    }

    /// The pixel in which a byte begins.
    pub fn pixel(&self, offset: u64) -> usize {
        (scaled(offset) / u128::from(self.row_bytes)) as usize
    }

    pub fn rows(&self) -> usize {
        self.pixels.len().div_ceil(WIDTH)
    }

    /// The pixels of a row.
    pub fn row(&self, row: usize) -> Range<usize> {
        row * WIDTH..((row + 1) * WIDTH).min(self.pixels.len())
    }

    /// The pixels of each stretch. Where the next one is of the same kind, one pixel is left between them.
    pub fn parted(&self) -> Vec<Run> {
        let mut runs = self.runs(|one, next| one.kind == next.kind && one.from == next.from);
        let kinds: Vec<Kind> = runs.iter().map(Run::kind).collect();
        for (run, next) in runs.iter_mut().zip(kinds.iter().skip(1)) {
            if run.kind() == *next && run.pixels.len() >= LEAST_PARTED {
                run.pixels.end -= 1;
            }
        }
        runs
    }

    /// The pixels of neighbours of one kind.
    pub fn joined(&self) -> Vec<Run> {
        self.runs(|one, next| one.kind == next.kind)
    }

    fn runs(&self, is_one: impl Fn(&Stretch, &Stretch) -> bool) -> Vec<Run> {
        let mut to = 0;
        let runs = self.pixels.chunk_by(is_one).map(|pixels| {
            let from = to;
            to += pixels.len();
            let last = pixels[pixels.len() - 1];
            Run {
                stretch: Stretch {
                    to: last.to,
                    ..pixels[0]
                },
                pixels: from..to,
            }
        });
        runs.collect()
    }
}

/// An offset times the pixels of a row: divided by its bytes it is a pixel.
fn scaled(offset: u64) -> u128 {
    u128::from(offset) * WIDTH as u128
}

impl Run {
    pub fn kind(&self) -> Kind {
        self.stretch.kind
    }

    /// What of it lies in each row.
    pub fn pieces(&self) -> impl Iterator<Item = (usize, Range<usize>)> + '_ {
        let Range { start, end } = self.pixels;
        (start / WIDTH..end.div_ceil(WIDTH)).map(move |row| {
            let first = row * WIDTH;
            let from = start.max(first) - first;
            (row, from..end.min(first + WIDTH) - first)
        })
    }
}

#[cfg(test)]
mod tests {
    use super::*;

    /// A raster of stretches of those kinds, each up to that offset.
    fn raster(ends: &[(Kind, u64)]) -> Raster {
        let mut from = 0;
        let stretches = ends.iter().map(|&(kind, to)| {
            let stretch = Stretch { kind, from, to };
            from = to;
            stretch
        });
        let stretches: Vec<Stretch> = stretches.collect();
        Raster::new(from, stretches.into_iter())
    }

    fn told(runs: &[Run]) -> Vec<(Kind, Range<usize>)> {
        let told = |run: &Run| (run.kind(), run.pixels.clone());
        runs.iter().map(told).collect()
    }

    #[test]
    fn a_row_is_a_power_of_two_and_there_are_at_most_64() {
        for (size, row_bytes, rows) in [
            (1, 512, 1),
            (512, 512, 1),
            (513, 512, 2),
            (32_768, 512, 64),
            (32_769, 1_024, 33),
            (59 << 20, 1 << 20, 59),
            (1 << 30, 1 << 24, 64),
            (u64::MAX, 1 << 58, 64),
        ] {
            let raster = raster(&[(Kind::Unknown, size)]);
            assert_eq!(
                (raster.row_bytes, raster.rows()),
                (row_bytes, rows),
                "{size}"
            );
        }
        assert_eq!(raster(&[]).rows(), 0);
    }

    #[test]
    fn a_shared_pixel_shows_the_first_of_the_kinds() {
        // 1,024 bytes a row, so that a pixel has more than one.
        let ends = [
            (Kind::Blocks, 512),
            (Kind::NodeTree, 513),
            (Kind::Blocks, 1_025),
            (Kind::Free, 1_026),
            (Kind::Blocks, 40_000),
        ];
        let raster = raster(&ends);
        assert_eq!(raster.row_bytes, 1_024);
        let joined = [
            (Kind::Blocks, 0..448),
            (Kind::NodeTree, 448..449),
            (Kind::Blocks, 449..35_000),
        ];
        assert_eq!(told(&raster.joined()), joined);
        let last = &raster.joined()[2];
        assert_eq!((last.stretch.from, last.stretch.to), (513, 40_000));
        let pieces: Vec<_> = last.pieces().take(2).collect();
        assert_eq!(pieces, [(0, 449..896), (1, 0..896)]);
        assert_eq!(last.pieces().last(), Some((39, 0..56)));
    }

    #[test]
    fn neighbours_of_one_kind_are_parted_where_there_is_room() {
        let blocks = [64, 128, 129, 130, 512].map(|end| (Kind::Blocks, end));
        let parted = raster(&blocks).parted();
        let wanted = [0..111, 112..223, 224..226, 226..228, 228..896];
        assert_eq!(told(&parted), wanted.map(|pixels| (Kind::Blocks, pixels)));
        let other = raster(&[(Kind::Blocks, 64), (Kind::Free, 512)]).parted();
        assert_eq!(other[0].pixels, 0..112);
    }
}
