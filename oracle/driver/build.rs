//! Links the product's static library, whose path is in the environment variable UNIT_LIB. A function that src/ffi.rs
//! declares and the library lacks is named in LACKING: the driver never calls it, so any address will do to link.
use std::process::Command;

fn main() {
    let library = std::env::var("UNIT_LIB").expect("UNIT_LIB is the path of libunit.a");
    println!("cargo::rerun-if-env-changed=UNIT_LIB");
    println!("cargo::rerun-if-changed={library}");
    println!("cargo::rerun-if-changed=src/ffi.rs");
    let held = functions_of(&library);
    let source = std::fs::read_to_string("src/ffi.rs").expect("src/ffi.rs");
    let lacking: Vec<&str> = declared(&source).filter(|name| !held.iter().any(|h| h == name)).collect();
    assert!(lacking.len() < declared(&source).count(), "{library} has no function of the product");
    lacking.iter().for_each(|name| println!("cargo::rustc-link-arg=-Wl,--defsym={name}=main"));
    println!("cargo::rustc-env=LACKING={}", lacking.join(" "));
    println!("cargo::rustc-link-arg={library}");
}

/// The names that the archive defines.
fn functions_of(library: &str) -> Vec<String> {
    let words = ["--defined-only", "--extern-only", "--format=posix", library];
    let found = Command::new("nm").args(words).output().expect("nm, which lists the names in a library");
    assert!(found.status.success(), "nm can't read {library}");
    let lines = String::from_utf8_lossy(&found.stdout).into_owned();
    lines.lines().filter_map(|line| line.split(' ').next()).map(str::to_string).collect()
}

/// The names that a source declares as the product's.
fn declared(source: &str) -> impl Iterator<Item = &str> {
    let declarations = source.lines().filter_map(|line| line.trim_start().strip_prefix("fn "));
    declarations.filter_map(|rest| rest.split('(').next()).filter(|name| name.starts_with("tsunghawi_"))
}
