//! Hyperglyph 1.0 and glyph 0.5 over the same rows, written from documents
//! 003 and 000, from document 02 (request E14) and from what was decided where
//! these leave a point open. Where prose, examples and grammar of a document
//! differ, its grammar decides.
//!
//! A unicode is a row of kind String, a bytearray a Binary, T and F are
//! Booleans, a list is an Array and a dict a Struct.

mod meaning;
mod reader;
mod writer;

pub mod papers;

pub use meaning::same_meaning;
pub use reader::{read, read_within};
pub use writer::{writable_within, write, write_within};

/// Which of the two documents a message follows.
#[derive(Clone, Copy, Debug, PartialEq, Eq)]
pub enum Edition {
    /// Hyperglyph 1.0: `X` begins an extension.
    Hyperglyph,
    /// Glyph 0.5: `X` begins a node, `H` an extension.
    Glyph,
}

impl Edition {
    pub const BOTH: [Edition; 2] = [Edition::Hyperglyph, Edition::Glyph];
}
