//! The Rust that judges the proved library on program files.

#[cfg(original)]
pub mod analysis;
pub mod bench;
pub mod call;
pub mod compare;
pub mod difference;
pub mod draft;
pub mod entry;
pub mod explain;
pub mod generate;
pub mod lent;
#[cfg(original)]
pub mod original;
#[cfg(original)]
pub mod place;
pub mod program;
pub mod random;
pub mod reader;
pub mod records;
pub mod shrink;
#[cfg(original)]
pub mod soak;
pub mod stats;
pub mod table;
pub mod triples;
