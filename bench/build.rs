//! Links the product's static library, whose path is in the environment variable UNIT_LIB.
fn main() {
    let library = std::env::var("UNIT_LIB").expect("UNIT_LIB is the path of libunit.a");
    println!("cargo::rerun-if-env-changed=UNIT_LIB");
    println!("cargo::rerun-if-changed={library}");
    println!("cargo::rustc-link-arg={library}");
}
