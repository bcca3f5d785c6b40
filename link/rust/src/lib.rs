//! Binmode RPC messages, read and written by the proved library; the cards of
//! job files; members of Structs, looked up, and an index of them; two stations
//! that share a table.
//!
//! ```
//! let bytes = b"binmode-rpc:CU\x03\0\0\0addA\x02\0\0\0I\x02\0\0\0I\x02\0\0\0";
//! let mut table = [0; binmode::TABLE_WORDS];
//! let message = binmode::read(bytes, &mut table)?;
//! assert_eq!(message.method(), Some("add"));
//! let numbers: Vec<_> = message.items().filter_map(|item| item.integer()).collect();
//! assert_eq!(numbers, [2, 2]);
//! # Ok::<(), binmode::Refusal>(())
//! ```
//!
//! Nothing has to be tested before a call. What the library asks of its caller
//! (`link/binmode.h`) holds of every slice in Rust: the pointer is not null and
//! is aligned, its elements are there, `&mut` overlaps nothing else, and the
//! bytes are at most `isize::MAX`. Every content and length has its answer. A
//! thread needs the stack that [`STACK_READ`], [`STACK_LOOKUP`],
//! [`STACK_WRITE`], [`STACK_INDEX`] and [`STACK_PLAN`] name; those of `std` have
//! more.
//!
//! Arrays and Structs may be nested [`USUAL_NESTING`] deep, and in the calls
//! named `.._within` as deep as the caller's limit says, 1 to [`MOST_NESTING`];
//! the cards of job files, lookups and indexes are always at [`MOST_NESTING`].
//!
//! Nothing is allocated. `docs/FORMAT.md` says what a message, a row and a job
//! file are. The library is looked for where `link/archive` puts it,
//! or in the folder that the environment variable `BINMODE_LIB_DIR` names when
//! this crate is built.

#![no_std]
#![warn(missing_debug_implementations, unreachable_pub)]

#[cfg(test)]
extern crate std;

#[cfg(not(all(target_arch = "x86_64", target_os = "linux")))]
compile_error!("the proved library is built for x86-64 Linux");

mod glyph;
mod index;
mod job;
mod lookup;
mod message;
mod pieces;
mod plan;
mod refusal;
mod stations;
pub mod sys;
mod table;

pub use glyph::{read_glyph, read_hyperglyph};
pub use index::{Entry, Index};
pub use job::{Card, Cards, Job};
pub use lookup::{Member, Position, Source};
pub use message::{Message, read, read_within};
pub use pieces::Pieces;
pub use plan::Form;
pub use refusal::{Reason, Refusal};
pub use stations::{Share, Station, StationPieces, shares};
pub use table::{Children, Item, Items, Kind, Members, Table, room, set_row, word_place};

/// Most bytes in a message, and in the bytes a writer's texts lie in.
pub const MOST_BYTES: usize = 65_536;
/// Most rows in a table.
pub const MOST_ROWS: usize = 4_096;
/// The highest limit of nesting: an Array or Struct stands in at most so many,
/// itself counted.
pub const MOST_NESTING: usize = 32;
/// The limit of nesting of a call that states none.
pub const USUAL_NESTING: usize = 8;
/// Words in a row: kind, a, b, end. Each stands in a column of the table.
pub const ROW_WORDS: usize = 4;
/// Words of a table that has room for any message.
pub const TABLE_WORDS: usize = MOST_ROWS * ROW_WORDS;

/// What reading takes of the stack, in bytes: whole messages, cards and pieces.
pub const STACK_READ: usize = 65_536;
/// What looking up takes: members, positions and texts with defaults.
pub const STACK_LOOKUP: usize = 49_152;
/// What writing takes.
pub const STACK_WRITE: usize = 65_536;
/// What filling an index, and looking up through one, takes of the stack.
pub const STACK_INDEX: usize = 65_536;
/// What writing with a plan takes, and proving it shortest.
pub const STACK_PLAN: usize = 131_072;
