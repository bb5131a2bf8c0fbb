//! What writes the package: it reads the sources of the proved crates, and makes files of plain Rust of them.

pub mod attributes;
pub mod between;
pub mod changes;
pub mod conditions;
pub mod edits;
pub mod erasing;
pub mod errors;
pub mod examples;
pub mod items;
pub mod modules;
pub mod names;
pub mod package;
pub mod pages;
pub mod pointers;
pub mod references;
pub mod table;
pub mod tokens;
pub mod traits;
