//! The definitions of crates/*/specs in Rust, module by crate and name by name, and document 01's numbers beside them.
//! It is written from document 01, docs/DIFFERENCES.md and those definitions, not from the Rust's text: where it and the
//! oracle agree, that is evidence about the definitions. The proved code is compared with both by src/compare.
//!
//! Where a refusal stands, which the Rust does not say, is written from document 02 (No. 6), not from the definitions.

pub mod answer;
pub mod channels;
pub mod choice;
pub mod door;
pub mod framing;
pub mod names;
pub mod negotiation;
pub mod preferred;
pub mod put;
pub mod text;
pub mod wire;
