//! The same settlement with SQLite: a table for each table of document 01, for
//! lines and for sent totals, and prepared statements. Either each message updates
//! the lines, or a round sums them anew. It asks no question: it is for messages that
//! are known to be accepted.

mod book;
mod database;

pub use book::{Book, Lines};
pub use database::version;
