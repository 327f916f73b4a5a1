//! Tests of the proved library from Rust: its C interface, a plain reference of the specification, random chains, and the programs.
pub mod command;
pub mod compiler;
pub mod ffi;
pub mod header;
pub mod random;
pub mod reference;
pub mod sources;
pub mod texts;
