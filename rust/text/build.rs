//! Links the proved library that `sh built.sh text_c` writes.
fn main() {
    let folder = concat!(env!("CARGO_MANIFEST_DIR"), "/../../target/staticlib");
    println!("cargo:rustc-link-search=native={folder}");
    println!("cargo:rustc-link-lib=static=text_c");
    println!("cargo:rerun-if-changed={folder}/libtext_c.a");
}
