//! Links the product's static library: the file that the environment variable UNIT_LIB names, or ../target/staticlib/libunit.a.
use std::path::{Path, PathBuf};

fn main() {
    println!("cargo::rerun-if-env-changed=UNIT_LIB");
    let library = match std::env::var_os("UNIT_LIB") {
        Some(path) => PathBuf::from(path),
        None => Path::new(env!("CARGO_MANIFEST_DIR")).join("../target/staticlib/libunit.a"),
    };
    let library =
        library.canonicalize().unwrap_or_else(|e| panic!("{}: {e}; `tools/staticlib` writes it", library.display()));
    let folder = library.parent().expect("a file stands in a folder");
    let name = library.file_stem().and_then(|stem| stem.to_str()?.strip_prefix("lib")).expect("the file is libNAME.a");
    println!("cargo::rerun-if-changed={}", library.display());
    println!("cargo::rustc-link-search=native={}", folder.display());
    println!("cargo::rustc-link-lib=static={name}");
}
