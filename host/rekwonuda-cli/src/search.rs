//! The files that the arguments of `check` name.

use crate::names;
use std::fs;
use std::path::{Path, PathBuf};
use walkdir::{DirEntry, WalkDir};

/// What there is to check.
#[derive(Debug, PartialEq, Eq)]
pub enum Found {
    File(PathBuf),
    /// A folder with no .pst file in it.
    Empty(PathBuf),
    /// A file or folder that cannot be read, and why.
    Unreadable(PathBuf, String),
}

/// Files as they are named, and in folders every file whose name ends in .pst. Every path leads to
/// something, so that none passes in silence.
pub fn search(paths: &[PathBuf]) -> Vec<Found> {
    let mut found = Vec::new();
    for path in paths {
        if path.is_dir() && !names::is_standard(path) {
            found.extend(in_folder(path));
        } else {
            found.push(Found::File(path.clone()));
        }
    }
    found
}

fn in_folder(folder: &Path) -> Vec<Found> {
    let mut found = Vec::new();
    for entry in WalkDir::new(folder).sort_by_file_name() {
        match entry {
            Ok(entry) => found.extend(of_entry(&entry)),
            Err(error) => {
                let path = error.path().unwrap_or(folder);
                let why = error
                    .io_error()
                    .map_or(error.to_string(), ToString::to_string);
                found.push(unreadable(path, why));
            }
        }
    }
    if found.is_empty() {
        found.push(Found::Empty(folder.to_path_buf()));
    }
    found
}

/// A pipe or a device is not opened: a read of it need not end.
fn of_entry(entry: &DirEntry) -> Option<Found> {
    let path = entry.path();
    if !is_pst(path) {
        return None;
    }
    match fs::metadata(path) {
        Ok(metadata) if metadata.is_file() => Some(Found::File(path.to_path_buf())),
        Ok(metadata) if metadata.is_dir() => None,
        Ok(_) => Some(unreadable(path, "it is no plain file".to_string())),
        Err(error) => Some(unreadable(path, error.to_string())),
    }
}

fn unreadable(path: &Path, why: String) -> Found {
    Found::Unreadable(path.to_path_buf(), why)
}

fn is_pst(path: &Path) -> bool {
    let extension = path.extension();
    extension.is_some_and(|extension| extension.eq_ignore_ascii_case("pst"))
}
