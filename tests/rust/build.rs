//! Says where the static library is, for the tests that link it.
fn main() {
    let folder = concat!(env!("CARGO_MANIFEST_DIR"), "/../../target/staticlib");
    println!("cargo:rerun-if-changed=build.rs");
    println!("cargo:rerun-if-changed={folder}/libpanel.a");
    println!("cargo:rustc-link-search=native={folder}");
}
