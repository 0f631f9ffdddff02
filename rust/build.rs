//! Finds the library's archive and has it linked: where CLASPOTTER_ARCHIVE says, else where the repository's tools/archive writes it.

use std::env;
use std::path::PathBuf;

fn main() {
    println!("cargo:rerun-if-env-changed=CLASPOTTER_ARCHIVE");
    let here = PathBuf::from(env::var_os("CARGO_MANIFEST_DIR").expect("cargo says where the package is"));
    let archive = match env::var_os("CLASPOTTER_ARCHIVE") {
        Some(named) => PathBuf::from(named),
        None => here.join("../target/native/libclaspotter.a"),
    };
    println!("cargo:rerun-if-changed={}", archive.display());
    let Ok(archive) = archive.canonicalize() else {
        panic!("{} is not there: tools/archive makes it, or CLASPOTTER_ARCHIVE says where it is", archive.display());
    };
    let name = archive.file_name().and_then(|name| name.to_str()).and_then(|name| name.strip_prefix("lib")?.strip_suffix(".a"));
    let (Some(name), Some(folder)) = (name, archive.parent()) else {
        panic!("{} is no archive: its name is to be lib*.a", archive.display());
    };
    println!("cargo:rustc-link-search=native={}", folder.display());
    println!("cargo:rustc-link-lib=static={name}");
    // A build script of a package that depends on this one reads it as DEP_CLASPOTTER_ARCHIVE.
    println!("cargo:archive={}", archive.display());
}
