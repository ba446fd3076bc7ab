//! Where a file ends by its header, and what hangs on behind.

use crate::source::Source;
use crate::words::{capital, counted, place};
use rekwonuda::Refusal;

const NO_FAULT: &str =
    "What hangs on is no part of the file, and no answer depends on it; by itself it is no fault.";

pub struct Ending<'a> {
    /// Where the header says that the file ends.
    pub end: u64,
    hanging: &'a [u8],
}

impl<'a> Ending<'a> {
    pub fn of(source: &'a Source) -> Result<Ending<'a>, Refusal> {
        let image = source.image();
        Ok(Ending {
            end: image.header()?.end,
            hanging: image.hanging()?,
        })
    }

    /// How many bytes hang on.
    pub fn hanging(&self) -> u64 {
        self.hanging.len() as u64
    }

    pub fn text(&self) -> String {
        let hanging = match self.hanging() {
            0 => "nothing hangs on behind".to_string(),
            count => hangs_on(count),
        };
        format!("{}, by the header; {hanging}", place(self.end))
    }

    /// What is worth a remark: that something hangs on, and whether it is more than zeros.
    pub fn remark(&self) -> Option<Remark> {
        let what = match self.hanging {
            [] => return None,
            bytes if bytes.iter().all(|byte| *byte == 0) => "all zero",
            _ => "not all zero",
        };
        let end = place(self.end);
        let hanging = hangs_on(self.hanging());
        let line = format!("by its header the file ends at {end}; {hanging}, {what}");
        Some(Remark { line })
    }
}

/// "1 byte hangs on behind", "2 bytes hang on behind".
fn hangs_on(count: u64) -> String {
    let hang = if count == 1 { "hangs" } else { "hang" };
    format!("{} {hang} on behind", counted(count, "byte"))
}

/// What is no fault of a file, and yet told.
pub struct Remark {
    /// In one line.
    pub line: String,
}

impl Remark {
    pub fn text(&self) -> String {
        format!("{}. {NO_FAULT}", capital(&self.line))
    }
}
