//! An independent second reader and writer of Binmode RPC messages, written
//! from documents 01, 02 (as far as it has landed) and 002 only; and of
//! hyperglyph 1.0 and glyph 0.5, from documents 003 and 000.

pub mod corpus;
pub mod defaults;
pub mod generate;
pub mod glyph;
pub mod hex;
pub mod index;
pub mod job;
pub mod keys;
pub mod layout;
pub mod lookup;
pub mod meaning;
pub mod papers;
pub mod pieces;
pub mod plan;
pub mod questions;
pub mod reader;
pub mod rules;
pub mod shortest;
pub mod stations;
pub mod writer;

pub use layout::{ByColumns, ByRows};
pub use meaning::same_meaning;
pub use reader::{Read, read, read_within};
pub use writer::{Write, write, write_within};
