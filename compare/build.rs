//! Links the numbers and pages by themselves, for tests and for counting instructions.
#[path = "../rust/link.rs"]
mod link;

fn main() {
    link::link(&["printed_c"]);
}
