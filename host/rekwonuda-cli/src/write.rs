//! Writes a file so that nothing that was there is harmed.

use crate::args::OutputArguments;
use crate::names;
use crate::outcome::Failure;
use crate::output::Output;
use crate::source::{Identity, Source};
use crate::words::counted;
use std::fs::{self, File, OpenOptions};
use std::io::{self, ErrorKind, IsTerminal, Write};
use std::path::{Path, PathBuf};
use std::process;

/// Where the bytes go that a command makes.
pub enum Goal<'a> {
    File(Target<'a>),
    Standard,
    /// A terminal that was not asked for, and gets a preview.
    Screen,
}

impl<'a> Goal<'a> {
    pub fn of(arguments: &'a OutputArguments, source: &Source) -> Result<Goal<'a>, Failure> {
        match arguments.output.as_deref() {
            Some(path) if names::is_standard(path) => Ok(Goal::Standard),
            Some(path) => Target::new(path, source.identity(), arguments.force).map(Goal::File),
            None if io::stdout().is_terminal() => Ok(Goal::Screen),
            None => Ok(Goal::Standard),
        }
    }
}

/// A file to be written, whose name is found to be free or may be taken.
pub struct Target<'a> {
    name: &'a Path,
    /// The file itself, where the name is that of a link to it.
    path: PathBuf,
    replaces: bool,
}

impl<'a> Target<'a> {
    /// Makes sure, before the file is looked at, that the name may be written to: that it is not the
    /// source, by whatever name or link, and is free, unless it may be replaced.
    fn new(name: &'a Path, source: Identity, force: bool) -> Result<Target<'a>, Failure> {
        let refuse = |why: &str| {
            let name = names::shown(name);
            Err(Failure::Error(format!("will not write to {name}: {why}")))
        };
        let replaces = match fs::metadata(name) {
            Ok(there) if Identity::of(&there) == source => {
                return refuse("it is the file that is read");
            }
            Ok(there) if !there.is_file() => return refuse("it is there, and is no plain file"),
            Ok(_) if !force => return refuse("it is there already, and --force is not given"),
            Ok(_) => true,
            Err(_) if name.is_symlink() => return refuse("it is a link that leads nowhere"),
            Err(_) => false,
        };
        let path = match replaces {
            true => fs::canonicalize(name).map_err(|error| cannot_write(name, &error))?,
            false => name.to_path_buf(),
        };
        Ok(Target {
            name,
            path,
            replaces,
        })
    }

    /// Writes all bytes and says so, or leaves everything as it was.
    pub fn put(&self, bytes: &[u8], out: &mut Output<'_>) -> Result<(), Failure> {
        self.write(bytes)?;
        let length = counted(bytes.len() as u64, "byte");
        out.line(format!("{length} written to {}", names::shown(self.name)))?;
        out.name("output", self.name)
    }

    fn write(&self, bytes: &[u8]) -> Result<(), Failure> {
        let folder = match self.path.parent() {
            Some(folder) if folder != Path::new("") => folder,
            _ => Path::new("."),
        };
        let written = Part::begin(folder).and_then(|part| {
            if self.replaces {
                // Who may read the file is as before, from its first byte on.
                part.file
                    .set_permissions(fs::metadata(&self.path)?.permissions())?;
            }
            part.fill(bytes)?;
            self.put_in_place(part)
        });
        written.map_err(|error| cannot_write(self.name, &error))?;
        // It is in place, whether or not the folder can be synced too.
        let _ = File::open(folder).and_then(|folder| folder.sync_all());
        Ok(())
    }

    /// Renames the part. Where nothing is to be replaced the name is first taken by an empty file,
    /// so that a file that came there meanwhile is not lost.
    fn put_in_place(&self, part: Part) -> io::Result<()> {
        if self.replaces {
            return part.rename(&self.path);
        }
        create(&self.path)?;
        let renamed = part.rename(&self.path);
        if renamed.is_err() {
            let _ = fs::remove_file(&self.path);
        }
        renamed
    }
}

fn cannot_write(path: &Path, error: &io::Error) -> Failure {
    Failure::Error(format!("cannot write {}: {error}", names::shown(path)))
}

fn create(path: &Path) -> io::Result<File> {
    OpenOptions::new().write(true).create_new(true).open(path)
}

/// A temporary file, removed unless it is renamed.
struct Part {
    path: PathBuf,
    file: File,
}

impl Part {
    fn begin(folder: &Path) -> io::Result<Part> {
        let mut tries = (0..100).map(|at| format!(".rekwonuda-{}-{at}.part", process::id()));
        loop {
            let name = tries.next().ok_or(ErrorKind::AlreadyExists)?;
            let path = folder.join(name);
            match create(&path) {
                Ok(file) => return Ok(Part { path, file }),
                Err(error) if error.kind() == ErrorKind::AlreadyExists => {}
                Err(error) => return Err(error),
            }
        }
    }

    fn fill(&self, bytes: &[u8]) -> io::Result<()> {
        (&self.file).write_all(bytes)?;
        self.file.sync_all()
    }

    fn rename(self, path: &Path) -> io::Result<()> {
        fs::rename(&self.path, path)
    }
}

impl Drop for Part {
    /// After a rename there is nothing left to remove.
    fn drop(&mut self) {
        let _ = fs::remove_file(&self.path);
    }
}
