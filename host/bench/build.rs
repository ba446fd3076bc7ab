//! Where `REKWONUDA_FORMER_ARCHIVE` names an archive of the library as it was, links that one too, each of
//! its names with `former_` in front, so that the two can be timed in turns. Else it does nothing.

use std::env;
use std::path::{Path, PathBuf};
use std::process::Command;

/// What the archive asks of the C library keeps its name.
const OF_THE_C_LIBRARY: [&str; 2] = ["memcpy", "memset"];

fn main() {
    println!("cargo:rerun-if-env-changed=REKWONUDA_FORMER_ARCHIVE");
    println!("cargo:rustc-check-cfg=cfg(former)");
    if let Some(archive) = env::var_os("REKWONUDA_FORMER_ARCHIVE") {
        link(Path::new(&archive));
    }
}

fn link(archive: &Path) {
    println!("cargo:rerun-if-changed={}", archive.display());
    let folder = PathBuf::from(env::var_os("OUT_DIR").expect("cargo names a folder"));
    let renamed = folder.join("libformer_rkw.a");
    let mut prefix = Command::new("objcopy");
    run(prefix
        .arg("--prefix-symbols=former_")
        .arg(archive)
        .arg(&renamed));
    let mut restore = Command::new("objcopy");
    for name in OF_THE_C_LIBRARY {
        restore.arg(format!("--redefine-sym=former_{name}={name}"));
    }
    run(restore.arg(&renamed));
    println!("cargo:rustc-link-search=native={}", folder.display());
    println!("cargo:rustc-link-lib=static=former_rkw");
    println!("cargo:rustc-cfg=former");
}

fn run(command: &mut Command) {
    let status = command.status().expect("objcopy, of Debian's binutils");
    assert!(status.success(), "objcopy failed");
}
