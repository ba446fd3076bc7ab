//! Writes the chosen images into a folder as `NN-name.img`, or those and the report on them into the
//! folder of the crate `images`, or the chosen tables and the report on them into that of the crate
//! `contexts`, or the sample mail file of 64 or of 32 bits: `images FOLDER`, `images --crate FOLDER`,
//! `images --contexts FOLDER`, `images --office FILE` or `images --small-office FILE`.

use model::build::office::office;
use model::edition::Edition;
use model::{contexts, report};
use std::path::Path;
use std::process::ExitCode;
use std::{env, fs, io};

fn main() -> ExitCode {
    let words: Vec<_> = env::args().skip(1).collect();
    let words: Vec<_> = words.iter().map(String::as_str).collect();
    let written = match words[..] {
        ["--office", file] => fs::write(file, office(Edition::Bits64).image),
        ["--small-office", file] => fs::write(file, office(Edition::Bits32).image),
        ["--crate", folder] => write_crate(folder, report::files(), report::report()),
        ["--contexts", folder] => write_crate(folder, contexts::files(), contexts::report()),
        [folder] if !folder.starts_with('-') => write_all(Path::new(folder), report::files()),
        _ => {
            eprintln!(
                "images FOLDER | images --crate FOLDER | images --contexts FOLDER | \
                 images --office FILE | images --small-office FILE"
            );
            return ExitCode::from(2);
        }
    };
    match written {
        Ok(()) => ExitCode::SUCCESS,
        Err(error) => {
            eprintln!("images: {error}");
            ExitCode::FAILURE
        }
    }
}

fn write_all(folder: &Path, files: Vec<(String, Vec<u8>)>) -> io::Result<()> {
    fs::create_dir_all(folder)?;
    for (name, bytes) in files {
        fs::write(folder.join(name), bytes)?;
    }
    Ok(())
}

fn write_crate(folder: &str, files: Vec<(String, Vec<u8>)>, report: String) -> io::Result<()> {
    let folder = Path::new(folder);
    write_all(&folder.join("data"), files)?;
    fs::write(folder.join("stdout"), report)
}
