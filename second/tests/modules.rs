//! The modules stand in an order: each uses only those before it, so none import each other in a circle.

use std::fs;
use std::path::Path;

const ORDER: [&str; 20] = [
    "layout",
    "tables",
    "picture",
    "starts",
    "description",
    "record",
    "state",
    "sums",
    "turns",
    "place",
    "print",
    "report",
    "explain",
    "feeder",
    "two",
    "read",
    "repair",
    "builder",
    "source",
    "cases",
];

#[test]
fn modules_use_only_those_before_them() {
    let folder = Path::new(env!("CARGO_MANIFEST_DIR")).join("src");
    let listed = fs::read_to_string(folder.join("lib.rs")).expect("lib.rs");
    assert_eq!(listed.matches("pub mod ").count(), ORDER.len());
    for (place, module) in ORDER.iter().enumerate() {
        let text = fs::read_to_string(folder.join(format!("{module}.rs"))).expect(module);
        for (at, _) in text.match_indices("crate::") {
            let used = text[at + "crate::".len()..].split(|c: char| !c.is_alphanumeric()).next();
            assert!(ORDER[..place].contains(&used.unwrap_or("")), "{module} uses {used:?}");
        }
    }
}
