//! What the settlement programs are tried with: the text form of the file, the
//! stored cases, and a generator of random files.

#![forbid(unsafe_code)]

pub mod bytes_to_text;
pub mod cases;
pub mod encode;
pub mod generator;
pub mod program;
pub mod repeat;
pub mod survey;
pub mod text_to_bytes;

pub use bytes_to_text::bytes_to_text;
pub use text_to_bytes::text_to_bytes;
