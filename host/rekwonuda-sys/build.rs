//! Links the proved archive, `librkw.a`, and the C file with the two calls that are not proved.

use std::env;
use std::ffi::OsString;
use std::path::{Path, PathBuf};
use std::process::{self, Command};

fn main() {
    link_archive();
    link_words();
}

fn link_archive() {
    let dir = archive_dir();
    let archive = dir.join("librkw.a");
    println!("cargo:rerun-if-env-changed=REKWONUDA_ARCHIVE_DIR");
    println!("cargo:rerun-if-changed={}", archive.display());
    if !archive.is_file() {
        fail(&format!(
            "{} is missing: run ./rekwonuda",
            archive.display()
        ));
    }
    println!("cargo:rustc-link-search=native={}", dir.display());
    println!("cargo:rustc-link-lib=static=rkw");
}

fn archive_dir() -> PathBuf {
    env::var_os("REKWONUDA_ARCHIVE_DIR").map_or_else(
        || PathBuf::from(env!("CARGO_MANIFEST_DIR")).join("../../target/staticlib"),
        PathBuf::from,
    )
}

fn link_words() {
    let root = Path::new(env!("CARGO_MANIFEST_DIR")).join("../..");
    let include = root.join("include");
    let source = root.join("host/c/words.c");
    for path in [&include.join("rekwonuda.h"), &source] {
        println!("cargo:rerun-if-changed={}", path.display());
    }
    for variable in ["CC", "AR"] {
        println!("cargo:rerun-if-env-changed={variable}");
    }
    let out = PathBuf::from(env::var_os("OUT_DIR").unwrap_or_default());
    let object = out.join("words.o");
    let mut compile = tool("CC", "cc");
    compile.args(["-std=c11", "-O2", "-fPIC", "-c", "-o"]);
    run(compile.arg(&object).arg("-I").arg(include).arg(source));
    let mut pack = tool("AR", "ar");
    run(pack.arg("crs").arg(out.join("librkw_words.a")).arg(object));
    println!("cargo:rustc-link-search=native={}", out.display());
    println!("cargo:rustc-link-lib=static=rkw_words");
}

/// The program that the variable names, or this one.
fn tool(variable: &str, program: &str) -> Command {
    Command::new(env::var_os(variable).unwrap_or_else(|| OsString::from(program)))
}

fn run(command: &mut Command) {
    match command.status() {
        Ok(status) if status.success() => (),
        Ok(status) => fail(&format!("{command:?}: {status}")),
        Err(error) => fail(&format!("{command:?}: {error}")),
    }
}

fn fail(why: &str) -> ! {
    eprintln!("{why}");
    process::exit(1);
}
