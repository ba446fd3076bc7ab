//! The command line as a test runs it.

use serde_json::Value;
use std::fs;
use std::io::ErrorKind;
use std::ops::Deref;
use std::path::{Path, PathBuf};
use std::process::{Command, Output};

pub const PROGRAM: &str = env!("CARGO_BIN_EXE_rekwonuda");

/// What a run of the command line gave.
pub struct Run {
    pub status: i32,
    pub bytes: Vec<u8>,
    pub text: String,
    pub errors: String,
}

impl Run {
    pub fn of(output: Output) -> Run {
        let run = Run {
            status: output.status.code().expect("no signal ends it"),
            text: String::from_utf8_lossy(&output.stdout).into_owned(),
            errors: String::from_utf8_lossy(&output.stderr).into_owned(),
            bytes: output.stdout,
        };
        assert!(!run.errors.contains("panicked"), "{}", run.errors);
        assert_ne!(run.status, 101);
        run
    }

    /// The answer, which must be JSON and nothing else.
    pub fn json(&self) -> Value {
        serde_json::from_str(&self.text).unwrap_or_else(|error| panic!("{error}: {}", self.text))
    }

    pub fn says(&self, words: &str) -> bool {
        let text = format!("{} {}", self.text, self.errors);
        let plain: Vec<&str> = text.split_whitespace().collect();
        plain.join(" ").contains(words)
    }
}

pub fn command(words: &[&str], file: &Path, rest: &[&str]) -> Command {
    let mut command = Command::new(PROGRAM);
    command.args(words).arg(file).args(rest);
    command
}

pub fn run(words: &[&str], file: &Path, rest: &[&str]) -> Run {
    Run::of(command(words, file, rest).output().expect("it starts"))
}

/// A run with these words alone.
pub fn words(words: &[&str]) -> Run {
    Run::of(
        Command::new(PROGRAM)
            .args(words)
            .output()
            .expect("it starts"),
    )
}

/// A script of a shell in which `./rekwonuda` is the command line.
pub fn run_in(folder: &Path, script: &str) -> Run {
    let script = script.replace("./rekwonuda", PROGRAM);
    let mut shell = Command::new("sh");
    shell.args(["-c", &script]).current_dir(folder);
    Run::of(shell.output().expect("there is a shell"))
}

/// Whether the command line runs under an emulator, whose own memory is several hundred MiB and counts
/// as the program's, so that a bound on it tells nothing. The shell is the machine's own.
pub fn emulated() -> bool {
    let machine = Command::new("sh").args(["-c", "uname -m"]).output();
    let machine = machine.expect("there is a shell").stdout;
    let emulated = String::from_utf8_lossy(&machine).trim() != std::env::consts::ARCH;
    if emulated {
        eprintln!("not tested under an emulator: a bound on memory");
    }
    emulated
}

pub fn repository(path: &str) -> PathBuf {
    Path::new(env!("CARGO_MANIFEST_DIR"))
        .join("../..")
        .join(path)
}

pub fn office() -> PathBuf {
    repository("samples/office.pst")
}

/// A file with these bytes, under a name that no other test uses.
pub fn file(name: &str, bytes: &[u8]) -> PathBuf {
    let path = Path::new(env!("CARGO_TARGET_TMPDIR")).join(name);
    fs::write(&path, bytes).expect("the file can be written");
    path
}

/// A folder of one test, which goes with it: tests make links there, and `rt ci` takes no checkout with
/// links.
pub struct Folder(PathBuf);

impl Deref for Folder {
    type Target = Path;

    fn deref(&self) -> &Path {
        &self.0
    }
}

impl Drop for Folder {
    fn drop(&mut self) {
        if let Err(error) = fs::remove_dir_all(&self.0) {
            eprintln!("{} stays: {error}", self.0.display());
        }
    }
}

/// An empty folder, under a name that no other test uses.
pub fn folder(name: &str) -> Folder {
    let path = Path::new(env!("CARGO_TARGET_TMPDIR")).join(name);
    match fs::remove_dir_all(&path) {
        Err(error) if error.kind() != ErrorKind::NotFound => panic!("{error}"),
        _ => fs::create_dir(&path).expect("the folder can be made"),
    }
    Folder(path)
}

/// The names of what is in a folder, in order.
pub fn listed(folder: &Path) -> Vec<String> {
    let entries = fs::read_dir(folder).expect("the folder can be read");
    let mut names: Vec<_> = entries
        .map(|entry| entry.unwrap().file_name().to_string_lossy().into_owned())
        .collect();
    names.sort();
    names
}
