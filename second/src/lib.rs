//! The second program: document 01, and requests of document 02, implemented plainly, to compare
//! with the first.
//!
//! description bytes -> `description` -> tables; state -> `state` -> rules; a call -> `report`:
//! which groups are due (`turns`), where they land (`place`), what they print (`print`). `feeder` makes calls of bytes cut
//! anywhere. `two` prints two reports into one output. `explain` finds totals again from the rows. `read` reads a
//! printed sheet back, `repair` mends a damaged one.
//!
//! Each module uses only those before it in this order (`tests/modules.rs`): layout, tables, picture, starts, description,
//! record, state, sums, turns, place, print, report, explain, feeder, two, read, repair, builder, source, cases.

pub mod builder;
pub mod cases;
pub mod description;
pub mod explain;
pub mod feeder;
pub mod layout;
pub mod picture;
pub mod place;
pub mod print;
pub mod read;
pub mod record;
pub mod repair;
pub mod report;
pub mod source;
pub mod starts;
pub mod state;
pub mod sums;
pub mod tables;
pub mod turns;
pub mod two;
