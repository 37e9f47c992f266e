//! Covers: that every public item of the crate has an example. Only the boundary's declarations in `sys.rs` share one.

use std::path::Path;

/// The public items of a file, each with whether its documentation has an example.
fn items(text: &str) -> Vec<(String, bool)> {
    let (mut found, mut example) = (Vec::new(), false);
    for line in text.lines().map(str::trim_start) {
        if line.starts_with("///") {
            example |= line.starts_with("/// ```");
        } else if !line.starts_with("#[") {
            let kinds = ["pub fn ", "pub struct ", "pub enum ", "pub trait ", "pub type ", "pub const "];
            if kinds.iter().any(|kind| line.starts_with(kind)) {
                found.push((line.to_string(), example));
            }
            example = false;
        }
    }
    found
}

#[test]
fn every_public_item_has_an_example() {
    let mut count = 0;
    for file in Path::new(env!("CARGO_MANIFEST_DIR")).join("src").read_dir().unwrap() {
        let path = file.unwrap().path();
        let text = std::fs::read_to_string(&path).unwrap();
        if path.ends_with("sys.rs") {
            assert!(text.contains("//! ```"), "an example of the module");
            continue;
        }
        for (item, example) in items(&text) {
            assert!(example, "{}: {item}", path.display());
            count += 1;
        }
    }
    assert!(count >= 60, "{count} items");
}

#[test]
fn an_item_without_an_example_is_seen() {
    let text = "/// It does.\n///\n/// ```\n/// ```\npub fn one() {}\n\n/// It does not.\n#[inline]\npub fn two() {}\n";
    let found = items(text);
    assert_eq!(found, [("pub fn one() {}".into(), true), ("pub fn two() {}".into(), false)]);
}
