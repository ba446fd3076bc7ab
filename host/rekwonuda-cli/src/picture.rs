//! The picture of a file: what it is, a legend, and what lies where, row by row.

use crate::account::Account;
use crate::raster::{Raster, Run, WIDTH};
use crate::stretches::{Kind, Stretch, Tally};
use crate::svg::Svg;
use crate::words::{counted, cut, place};
use std::ops::Range;

/// How wide the picture is: offsets, a row, and a margin.
const PICTURE_WIDTH: usize = 1_000;
const LEFT: usize = 88;
const MARGIN: usize = 16;

/// How high a row is, and how far below it the next one begins.
const ROW_HEIGHT: usize = 11;
const ROW_DISTANCE: usize = 14;
const LINE_DISTANCE: usize = 17;

/// Where the columns of the legend begin.
const NAMES: usize = 38;
const AMOUNTS: usize = 116;
const WORDS: usize = 400;

/// How many characters of a name, and of a line of words, have room in the width.
const MOST_OF_NAME: usize = 54;
const MOST_OF_LINE: usize = 140;

/// Up to so many stretches are drawn one by one, with their offsets.
const MOST_TOLD: usize = 1_000;

/// What is drawn.
pub struct Picture<'a> {
    pub name: String,
    /// What the file is, and whether it is accepted.
    pub facts: String,
    pub refusal: Option<&'a Account>,
    pub size: u64,
    pub raster: Raster,
    pub tallies: Vec<Tally>,
}

/// A drawing, and how far down it has come.
struct Drawing {
    svg: Svg,
    y: usize,
}

impl Picture<'_> {
    pub fn draw(&self) -> String {
        let mut drawing = Drawing {
            svg: Svg::default(),
            y: MARGIN,
        };
        drawing.heading(self);
        drawing.legend(self);
        drawing.rows(self);
        let title = format!("Map of {}", self.name);
        let height = drawing.y + MARGIN;
        let svg = drawing.svg;
        svg.finish(PICTURE_WIDTH, height, &title, &self.description())
    }

    /// The offset of the refusal, where it lies in the file.
    fn mark(&self) -> Option<u64> {
        let offset = self.refusal.and_then(Account::offset);
        offset.filter(|offset| *offset < self.size)
    }

    fn told(&self, refusal: &Account) -> String {
        match self.mark() {
            Some(_) => format!("{}.", refusal.line()),
            None => format!("{}. It names no place in the file.", refusal.line()),
        }
    }

    fn scale(&self) -> String {
        let row = counted(self.raster.row_bytes, "byte");
        format!("From left to right and from top to bottom, {row} a row.")
    }

    /// All that the picture shows, in words.
    fn description(&self) -> String {
        let mut parts = vec![format!("{}.", self.facts)];
        parts.extend(self.refusal.map(|refusal| self.told(refusal)));
        parts.push(self.scale());
        let amounts = self.tallies.iter();
        let amounts = amounts.map(|tally| format!("{}: {}.", tally.kind.name(), tally.text()));
        parts.extend(amounts);
        parts.join(" ")
    }
}

impl Drawing {
    /// A line of text below what is drawn.
    fn line(&mut self, x: usize, style: &str, words: &str) {
        self.y += LINE_DISTANCE;
        self.svg.text(x, self.y, style, words);
    }

    fn heading(&mut self, picture: &Picture<'_>) {
        let style = " font-size=\"16\" font-weight=\"bold\"";
        self.line(MARGIN, style, &cut(&picture.name, MOST_OF_NAME));
        self.y += 4;
        self.line(MARGIN, " font-size=\"14\"", &picture.facts);
        let Some(refusal) = picture.refusal else {
            return;
        };
        self.y += 8;
        if picture.mark().is_some() {
            self.pin(MARGIN + 6, self.y + LINE_DISTANCE + 4, refusal);
        }
        for line in textwrap::wrap(&picture.told(refusal), MOST_OF_LINE) {
            self.line(NAMES, "", &line);
        }
    }

    /// Marks a place: a triangle above a row, and a line through it.
    fn pin(&mut self, x: usize, y: usize, refusal: &Account) {
        let style = "fill=\"#000000\" stroke=\"#FFFFFF\"";
        let title = format!("refusal {}", refusal.number());
        let data = format!("M{x},{y}h3v-{ROW_HEIGHT}l6,-12h-15l6,12z");
        self.svg.path(style, &data, Some(&title));
    }

    /// What the colours stand for, and how much there is of each.
    fn legend(&mut self, picture: &Picture<'_>) {
        self.y += 8;
        for tally in &picture.tallies {
            self.line(NAMES, "", tally.kind.name());
            self.svg.text(AMOUNTS, self.y, "", &tally.text());
            self.svg.text(WORDS, self.y, "", meaning(tally.kind));
            let style = format!("fill=\"{}\" stroke=\"#8A8A8A\"", colour(tally.kind));
            let data = rectangle(MARGIN..MARGIN + 13, self.y - 10);
            self.svg.path(&style, &data, None);
        }
        self.y += 4;
        let shared = "A pixel in which several lie shows the one that stands first in this list.";
        self.line(MARGIN, "", &format!("{} {shared}", picture.scale()));
    }

    fn rows(&mut self, picture: &Picture<'_>) {
        let raster = &picture.raster;
        let top = self.y + 20;
        let parted = raster.parted();
        match parted.len() {
            0..=MOST_TOLD => self.told_runs(&parted, top),
            _ => self.plain_runs(&raster.joined(), top),
        }
        self.outlines(raster, top);
        if let (Some(refusal), Some(offset)) = (picture.refusal, picture.mark()) {
            let pixel = raster.pixel(offset);
            let bottom = row_top(pixel / WIDTH, top) + ROW_HEIGHT;
            self.pin(LEFT + pixel % WIDTH, bottom, refusal);
        }
        self.y = row_top(raster.rows(), top);
    }

    /// Each run with its offsets, for a pointer that rests on it.
    fn told_runs(&mut self, runs: &[Run], top: usize) {
        for run in runs {
            let Stretch { kind, from, to } = run.stretch;
            let title = format!("{}: {} to below {}", kind.name(), place(from), place(to));
            self.svg.path(&fill(kind), &shape(run, top), Some(&title));
        }
    }

    /// All runs of a kind in one path, so that a picture of many stays small.
    fn plain_runs(&mut self, runs: &[Run], top: usize) {
        for kind in Kind::ALL {
            let of_kind = runs.iter().filter(|run| run.kind() == kind);
            let data: String = of_kind.map(|run| shape(run, top)).collect();
            if !data.is_empty() {
                self.svg.path(&fill(kind), &data, None);
            }
        }
    }

    /// The outline of each row, and its offset.
    fn outlines(&mut self, raster: &Raster, top: usize) {
        let mut data = String::new();
        for row in 0..raster.rows() {
            let y = row_top(row, top);
            let width = raster.row(row).len();
            data += &rectangle(LEFT..LEFT + width, y);
            let offset = format!("{:#x}", row as u64 * raster.row_bytes);
            let style = " font-size=\"11\" text-anchor=\"end\"";
            self.svg.text(LEFT - 8, y + 10, style, &offset);
        }
        self.svg.path(
            "fill=\"none\" stroke=\"#8A8A8A\" stroke-width=\"0.5\"",
            &data,
            None,
        );
    }
}

fn row_top(row: usize, top: usize) -> usize {
    top + row * ROW_DISTANCE
}

/// A rectangle of the height of a row.
fn rectangle(x: Range<usize>, y: usize) -> String {
    let width = x.len();
    format!("M{},{y}h{width}v{ROW_HEIGHT}h-{width}z", x.start)
}

fn shape(run: &Run, top: usize) -> String {
    run.pieces()
        .map(|(row, x)| rectangle(LEFT + x.start..LEFT + x.end, row_top(row, top)))
        .collect()
}

fn fill(kind: Kind) -> String {
    format!("fill=\"{}\" shape-rendering=\"crispEdges\"", colour(kind))
}

/// They differ in lightness and not in hue alone: some see less of red, green or blue.
fn colour(kind: Kind) -> &'static str {
    match kind {
        Kind::Header => "#000000",
        Kind::Maps => "#CC79A7",
        Kind::NodeTree => "#0072B2",
        Kind::BlockTree => "#E69F00",
        Kind::Stale => "#A63C00",
        Kind::Blocks => "#7CC6F0",
        Kind::Hanging => "#F0E442",
        Kind::Reserved => "#CCCCCC",
        Kind::Free => "#FFFFFF",
        Kind::Unknown => "#666666",
    }
}

fn meaning(kind: Kind) -> &'static str {
    match kind {
        Kind::Header => "the edition, the end of the file, and where the two trees begin",
        Kind::Maps => {
            "pages of the allocation maps, and the density list; what they say is not read"
        }
        Kind::NodeTree => "pages of the list of all folders, messages and tables",
        Kind::BlockTree => "pages of the list of where all data stands",
        Kind::Stale => "listed nowhere, and not zero: old pages, old blocks",
        Kind::Blocks => "room of the listed blocks, in which all data stands",
        Kind::Hanging => "behind the end that the header states",
        Kind::Reserved => "behind the header, where no page or block may stand",
        Kind::Free => "listed nowhere, and zero",
        Kind::Unknown => {
            "listed nowhere while a tree is refused, or not looked at since the header is"
        }
    }
}

#[cfg(test)]
mod tests {
    use super::*;
    use crate::raster::MOST_ROWS;

    const SIZE: u64 = 1 << 30;

    /// Stretches of two kinds by turns, so that no two pixels side by side show the same.
    fn by_turns() -> Vec<Stretch> {
        let pixels = (MOST_ROWS * WIDTH) as u64;
        let pixel = |at: u64| {
            let (from, to) = (at * SIZE, (at + 1) * SIZE);
            let kind = [Kind::NodeTree, Kind::BlockTree][at as usize % 2];
            let (from, to, behind) = (from.div_ceil(pixels), to / pixels, to.div_ceil(pixels));
            let shared = Kind::Free;
            [(kind, from, to), (shared, to, behind)]
        };
        let stretches = (0..pixels).flat_map(pixel);
        let stretches = stretches.map(|(kind, from, to)| Stretch { kind, from, to });
        stretches
            .filter(|stretch| stretch.from < stretch.to)
            .collect()
    }

    #[test]
    fn no_picture_is_larger_than_its_bound() {
        let raster = Raster::new(SIZE, by_turns().into_iter());
        let tally = |kind| Tally {
            kind,
            count: SIZE / 64,
            bytes: SIZE,
        };
        assert_eq!(raster.joined().len(), MOST_ROWS * WIDTH);
        let picture = Picture {
            name: "\"".repeat(300),
            facts: String::new(),
            refusal: None,
            size: SIZE,
            raster,
            tallies: Kind::ALL.map(tally).to_vec(),
        };
        let drawn = picture.draw().len();
        assert!((900_000..1_500_000).contains(&drawn), "{drawn}");
    }
}
