//! The measurements: inputs from a seed, and the settlements that take them.

pub mod callgrind;
pub mod growth;
pub mod inputs;
pub mod random;
pub mod settlement;

mod with_library;
mod with_sqlite;
mod with_twin;

use settlement::{Implementation, implementation};
pub use with_library::Library;
use with_sqlite::Sqlite;
pub use with_twin::Twin;

/// What is measured, the one that the others are compared with first. A further
/// implementation is a module beside `with_twin` and a line here.
pub const IMPLEMENTATIONS: &[Implementation] = &[
    implementation::<Library>("proved"),
    implementation::<Twin>("twin"),
    implementation::<Sqlite<false>>("SQLite"),
    implementation::<Sqlite<true>>("SQLite sums"),
];
