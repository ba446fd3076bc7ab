use crate::Fault;
use rekwonuda_sys::{self as sys, Answered};
use std::error::Error;
use std::fmt;

/// The first fault that a call met, and its place. As text it says what is wrong and where.
///
/// ```
/// use rekwonuda::Image;
///
/// let mut bytes = std::fs::read("../../samples/office.pst")?;
/// bytes[100] ^= 1;
/// let refusal = Image::new(&bytes).check_nodes().unwrap_err();
/// assert_eq!(
///     refusal.to_string(),
///     "refusal 4: the first checksum of the header differs; at 0x4 (4)"
/// );
/// # Ok::<(), std::io::Error>(())
/// ```
#[derive(Clone, Copy, Debug, PartialEq, Eq, Hash)]
pub struct Refusal {
    /// Which fault.
    pub fault: Fault,
    /// Where: an offset in the image, or 0.
    pub place: u64,
    /// For [`Fault::ShortBuffer`] the length needed, for [`Fault::KeyOrder`] and [`Fault::KeyRange`] the
    /// index of the first entry at fault, from 0, otherwise 0.
    pub more: u64,
}

/// The answer, or the refusal that it carries.
pub(crate) fn answered<T: Answered>(answer: T) -> Result<T, Refusal> {
    match answer.refusal() {
        [0, _, _] => Ok(answer),
        [number, place, more] => Err(Refusal {
            fault: Fault::from(number),
            place,
            more,
        }),
    }
}

impl Refusal {
    /// The number of the fault.
    #[must_use]
    pub const fn number(&self) -> u64 {
        self.fault.number()
    }

    /// What is wrong, in words.
    #[must_use]
    pub fn meaning(&self) -> &'static str {
        sys::refusal_words(self.number(), self.place)
    }

    /// The offset in the image that it names, if it names one.
    #[must_use]
    pub fn offset(&self) -> Option<u64> {
        let is_offset = match self.fault {
            Fault::BlockUnlisted
            | Fault::ShortBuffer
            | Fault::HeapShape
            | Fault::HeapItem
            | Fault::PropertyTree
            | Fault::TableShape => false,
            Fault::ImageLength | Fault::Encoding => self.place != 0,
            _ => true,
        };
        is_offset.then_some(self.place)
    }
}

impl fmt::Display for Refusal {
    fn fmt(&self, out: &mut fmt::Formatter<'_>) -> fmt::Result {
        let Self { place, more, .. } = self;
        write!(out, "refusal {}: {}", self.number(), self.meaning())?;
        match self.fault {
            Fault::ShortBuffer => write!(out, "; {more} bytes are needed"),
            Fault::KeyOrder | Fault::KeyRange => write!(
                out,
                "; entry {more} (counted from 0) of the page at {place:#x} ({place})"
            ),
            _ if self.offset().is_some() => write!(out, "; at {place:#x} ({place})"),
            _ => Ok(()),
        }
    }
}

impl Error for Refusal {}
