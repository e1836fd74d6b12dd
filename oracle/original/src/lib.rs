//! The original modules, once for all, and its allocator once for each triple of target sizes. It is a crate of its own so
//! that it is built only once. Where the sources are not at hand it is empty.
#![allow(dead_code, unused_imports, clippy::all)]

#[cfg(original)]
include!(concat!(env!("OUT_DIR"), "/all.rs"));
