use crate::names;
use crate::outcome::Failure;
use rekwonuda::{Edition, Image, LONGEST_IMAGE};
use std::fmt::Display;
use std::fs::{File, Metadata};
use std::io::{self, Read};
use std::os::fd::AsFd;
use std::os::unix::fs::MetadataExt;
use std::path::{Path, PathBuf};

/// By how much room grows for a stream, whose length is not known beforehand.
const STEP: u64 = 64 << 20;

/// A file in memory, once.
///
/// One that is longer than the library takes is not read: its image is left empty, which the library
/// refuses by the same number as one that is too long.
pub struct Source {
    pub path: PathBuf,
    /// How many bytes it has; `None` for a stream that is too long to be read to its end.
    pub size: Option<u64>,
    bytes: Vec<u8>,
    identity: Identity,
}

/// What a file is, whatever name it goes by: its device and its number there.
#[derive(Clone, Copy, PartialEq, Eq)]
pub struct Identity(u64, u64);

impl Identity {
    pub fn of(metadata: &Metadata) -> Identity {
        Identity(metadata.dev(), metadata.ino())
    }
}

impl Source {
    /// Reads a file, or standard input where the path is "-".
    pub fn read(path: &Path) -> io::Result<Source> {
        let file = open(path)?;
        let metadata = file.metadata()?;
        let expected = if metadata.is_file() {
            metadata.len()
        } else {
            0
        };
        let (size, bytes) = if expected > LONGEST_IMAGE {
            (Some(expected), Vec::new())
        } else {
            read_bytes(file, expected)?
        };
        Ok(Source {
            path: path.to_path_buf(),
            size,
            bytes,
            identity: Identity::of(&metadata),
        })
    }

    pub fn image(&self) -> Image<'_> {
        Image::new(&self.bytes)
    }

    pub fn identity(&self) -> Identity {
        self.identity
    }

    pub fn is_too_long(&self) -> bool {
        self.size.is_none_or(|size| size > LONGEST_IMAGE)
    }

    /// The version that stands in its header, whether that is accepted or not.
    pub fn version(&self) -> u16 {
        self.number_at(10, 2) as u16
    }

    /// The edition that the version stands for. Whatever has another version is refused before its
    /// edition matters.
    pub fn edition(&self) -> Edition {
        Edition::of_version(self.version()).unwrap_or(Edition::Bits64)
    }

    /// The number that stands there, the lowest byte first.
    pub fn number_at(&self, place: u64, length: usize) -> u64 {
        let bytes = self.bytes_at(place, length).iter().rev();
        bytes.fold(0, |number, byte| number << 8 | u64::from(*byte))
    }

    /// The bytes there, or as many of them as the image has.
    pub fn bytes_at(&self, place: u64, length: usize) -> &[u8] {
        let end = self.bytes.len();
        let start = usize::try_from(place).map_or(end, |place| place.min(end));
        &self.bytes[start..start.saturating_add(length).min(end)]
    }
}

pub fn cannot_read(path: &Path, why: impl Display) -> Failure {
    Failure::Error(format!("cannot read {}: {why}", shown_name(path)))
}

/// The name of a source for a reader.
pub fn shown_name(path: &Path) -> String {
    if names::is_standard(path) {
        return "standard input".to_string();
    }
    names::shown(path)
}

fn open(path: &Path) -> io::Result<File> {
    if names::is_standard(path) {
        return Ok(File::from(io::stdin().as_fd().try_clone_to_owned()?));
    }
    File::open(path)
}

/// Reads to the end, or until it is clear that the library takes no file so long. Room is made for
/// what is expected and the byte behind it, which tells the end, and then step by step: it never
/// doubles.
fn read_bytes(mut file: File, expected: u64) -> io::Result<(Option<u64>, Vec<u8>)> {
    let mut bytes = Vec::new();
    let mut room = expected + 1;
    loop {
        bytes
            .try_reserve_exact(room as usize)
            .map_err(|_| io::Error::from(io::ErrorKind::OutOfMemory))?;
        let read = file.by_ref().take(room).read_to_end(&mut bytes)?;
        let size = bytes.len() as u64;
        if (read as u64) < room {
            return Ok((Some(size), bytes));
        }
        if size > LONGEST_IMAGE {
            return Ok((None, Vec::new()));
        }
        room = STEP.min(LONGEST_IMAGE + 1 - size);
    }
}
