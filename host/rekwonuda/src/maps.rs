//! Where the allocation maps of a file stand (003, 2.2.2.7.2 to 2.2.2.7.6).

use crate::layout::{Layout, Seal, PAGE};
use crate::{signature, Image};
use std::iter;

const DENSITY_LIST: usize = 0x4200;
const FIRST_MAP: usize = 0x4400;

/// How many bytes an allocation map is about, itself among them; the next one stands behind them.
const MAPPED: usize = 253_952;

/// Behind an allocation map there may be a page map, a free map and a free page map.
const MOST_TOGETHER: usize = 4;

impl<'a> Image<'a> {
    /// The offsets of the allocation maps and of all maps of them, and of the density list: pages that
    /// stand where the format has them and whose kind, number, signature and checksum are right. What
    /// they say is not read. Where the header is refused there is none.
    ///
    /// They are told by this crate and not by the proved library.
    ///
    /// ```
    /// use rekwonuda::Image;
    ///
    /// let bytes = std::fs::read("../../samples/office.pst")?;
    /// assert_eq!(Image::new(&bytes).map_pages().count(), 0); // a made file, and without them
    /// # Ok::<(), std::io::Error>(())
    /// ```
    pub fn map_pages(&self) -> impl Iterator<Item = u64> + 'a {
        let file = self.file();
        file.into_iter().flat_map(|(header, bytes)| {
            let layout = Layout::of(header.edition);
            let places = map_places(bytes.len());
            let maps = places.filter(move |place| is_map(*place, layout, bytes));
            maps.map(|place| place as u64)
        })
    }
}

/// Where maps may stand in a file of that length.
fn map_places(length: usize) -> impl Iterator<Item = usize> {
    let together = |first| (first..).step_by(PAGE).take(MOST_TOGETHER);
    let maps = (FIRST_MAP..length).step_by(MAPPED).flat_map(together);
    iter::once(DENSITY_LIST).chain(maps)
}

/// Whether a map stands there. All but the density list have their offset for a number, and no
/// signature.
fn is_map(place: usize, layout: &Layout, file: &[u8]) -> bool {
    let Some(page) = file.get(place..place + PAGE) else {
        return false;
    };
    let (kind, offset) = (page[layout.trailer], place as u64);
    let (number, signature) = match (place, kind) {
        (DENSITY_LIST, 0x86) => (layout.number(page), signature(offset, layout.number(page))),
        (FIRST_MAP.., 0x82..=0x85) => (offset, 0),
        _ => return false,
    };
    let seal = Seal {
        kind,
        number,
        signature,
    };
    layout.is_sealed(page, &seal)
}
