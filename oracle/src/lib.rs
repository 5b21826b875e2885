//! goscript's own label.rs and returns.rs, made runnable to judge a port.
//! Document 01 says what the words of a body and of an answer mean.

pub mod bodies;
pub mod domains;
pub mod file;
mod marks;
pub mod placing;
pub mod refusals;
pub mod text;
mod utf8;

pub use marks::Marks;
pub use records::{branch, kind, Answer, Body, Words};
pub use utf8::with_utf8_names;

/// label.rs and returns.rs byte for byte.
pub use stock;

/// label.rs and returns.rs with the differences A, B and C mended.
pub use mended;
