//! Finds the Rust's own files and says to the compiler where they stand. No text of theirs is kept here: whole files are named by
//! their path, and three stretches are cut out of a file into the build's own folder.

use std::path::{Path, PathBuf};
use std::{env, fs};

/// Files that are compiled as they stand, with the module that each becomes.
const UNCHANGED: &[(&str, &str)] = &[
    ("constants", "constants.rs"),
    ("errors", "errors.rs"),
    ("bits", "bits.rs"),
    ("read_write_uint", "read_write_uint.rs"),
    ("bit_reader", "bit_reader.rs"),
    ("bit_writer", "bit_writer.rs"),
    ("latent_priv", "data_types/latent_priv.rs"),
    ("number_priv", "data_types/number_priv.rs"),
    ("signed", "data_types/signed.rs"),
    ("delta_encoding", "metadata/delta_encoding.rs"),
    ("format_version", "metadata/format_version.rs"),
    ("per_latent_var", "metadata/per_latent_var.rs"),
    ("conv1", "delta/conv1.rs"),
];

/// Files of which a stretch is used.
const CUT: &[&str] = &["delta/mod.rs", "data_types/mod.rs"];

fn source_root() -> PathBuf {
    if let Some(named) = env::var_os("CLASPOTTER_RUST_SOURCE") {
        return PathBuf::from(named);
    }
    let here = PathBuf::from(env::var_os("CARGO_MANIFEST_DIR").unwrap());
    // original -> harness -> the repository -> its parent
    here.ancestors().nth(3).unwrap().join("shared/docs/src")
}

/// The one stretch that begins with `from` and ends with the first `to` behind it. Anything but one place is an error: the text is
/// then not the one that these cuts were made for.
fn stretch<'a>(file: &str, text: &'a str, from: &str, to: &str) -> &'a str {
    assert_eq!(text.matches(from).count(), 1, "{file}: not one `{from}`");
    let begin = text.find(from).unwrap();
    let end = begin + text[begin..].find(to).unwrap_or_else(|| panic!("{file}: no `{to}`")) + to.len();
    &text[begin..end]
}

fn main() {
    println!("cargo:rerun-if-env-changed=CLASPOTTER_RUST_SOURCE");
    let root = source_root().join("src");
    let root = root.canonicalize().unwrap_or_else(|e| panic!("the Rust's sources are not at {}: {e}", root.display()));
    let out = PathBuf::from(env::var_os("OUT_DIR").unwrap());
    let read = |file: &str| fs::read_to_string(root.join(file)).unwrap_or_else(|e| panic!("{}: {e}", root.join(file).display()));
    for file in UNCHANGED.iter().map(|(_, file)| file).chain(CUT) {
        println!("cargo:rerun-if-changed={}", root.join(file).display());
    }

    let at = |module: &str| -> &Path { Path::new(UNCHANGED.iter().find(|(name, _)| *name == module).unwrap().1) };
    let module = |name: &str| format!("#[path = {:?}]\npub(crate) mod {name};\n", root.join(at(name)).display().to_string());
    let write = |file: &str, text: String| fs::write(out.join(file), text).unwrap();

    write("root.rs", ["constants", "errors", "bits", "read_write_uint", "bit_reader", "bit_writer"].map(module).concat());
    write("data_types.rs", ["latent_priv", "number_priv", "signed"].map(module).concat());
    write("metadata.rs", ["delta_encoding", "format_version", "per_latent_var"].map(module).concat());

    let conv1 = read("delta/conv1.rs");
    // The general way at order 6: the same text, with a test that never holds where the quick way is chosen.
    let choice = "if order == 6 {";
    assert_eq!(conv1.matches(choice).count(), 1, "conv1.rs: not one `{choice}`");
    write("conv1_general.rs", conv1.replace(choice, "if order == usize::MAX {"));
    write(
        "delta.rs",
        format!(
            "{}#[path = {:?}]\npub(crate) mod conv1_general;\n",
            module("conv1"),
            out.join("conv1_general.rs").display().to_string()
        ),
    );

    // The tail of `choose_config`, from the sums on, with the floats and the centre for parameters.
    let tail = stretch("conv1.rs", &conv1, "  let mut total_weight = 0.0;\n", "  Some(config)\n}\n");
    write(
        "quantise.rs",
        format!(
            "pub fn quantise<L: Latent>(order: usize, float_weights_and_centered_bias: &[Real], center: L) \
             -> Option<DeltaConv1Config> {{\n{tail}"
        ),
    );

    let delta = read("delta/mod.rs");
    write("toggle.rs", stretch("delta/mod.rs", &delta, "#[inline(never)]\nfn toggle_center_in_place", "\n}\n").to_string());

    let data_types = read("data_types/mod.rs");
    let from = data_types.find("/// Trait for types that behave like").expect("data_types/mod.rs: no trait Latent");
    write("traits.rs", data_types[from..].to_string());
}
