//! Says where the port's archive, which the crate `claspotter` links, its header and the repository are.

use std::env;
use std::path::PathBuf;

fn main() {
    println!("cargo:rerun-if-env-changed=CLASPOTTER_HEADER");
    println!("cargo:rerun-if-env-changed=CLASPOTTER_PAD");
    let here = PathBuf::from(env::var_os("CARGO_MANIFEST_DIR").unwrap());
    let repository = here.parent().unwrap().to_path_buf();
    let archive = env::var("DEP_CLASPOTTER_ARCHIVE").expect("claspotter says which archive it links");
    let header = env::var_os("CLASPOTTER_HEADER").map(PathBuf::from).unwrap_or_else(|| repository.join("include/claspotter.h"));
    println!("cargo:rustc-env=CLASPOTTER_ARCHIVE={archive}");
    println!("cargo:rustc-env=CLASPOTTER_HEADER={}", header.display());
    println!("cargo:rustc-env=CLASPOTTER_PAD={}", env::var("CLASPOTTER_PAD").unwrap_or("16".into()));
    println!("cargo:rustc-env=CLASPOTTER_REPOSITORY={}", repository.display());
}
