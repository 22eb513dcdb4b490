//! Checks, reads, inverts, concatenates, selects from and prints changesets, the files of SQLite's
//! session extension. A [`Store`] in memory applies, records and undoes them. The crate calls the C
//! library of Vollikash, whose core is proved.
//!
//! A *file* is the bytes of a changeset. No bytes are the file of the changeset without a table.
//! Floating-point values, texts that are not UTF-8, and patchsets are refused.
//!
//! ```
//! use vollikash::{changes, invert, sql, Operation, Value};
//!
//! # fn main() -> Result<(), vollikash::Error> {
//! let file = b"T\x02\x01\x00t\x00\x12\x00\x01\0\0\0\0\0\0\0\x01\x03\x01x";
//! assert_eq!(sql(file)?, "INSERT INTO \"t\" VALUES(1, 'x');\n");
//! let undo = invert(file)?;
//! for change in changes(&undo) {
//!     let change = change?;
//!     assert_eq!(change.table(), "t");
//!     assert_eq!(change.operation(), Operation::Delete);
//!     assert_eq!(change.old_value(0), Some(Value::Integer(1)));
//!     assert_eq!(change.old_value(1), Some(Value::Text("x")));
//! }
//! # Ok(())
//! # }
//! ```
//!
//! ```
//! use vollikash::{Column, Policy, Store, Value};
//!
//! # fn main() -> Result<(), vollikash::StoreError> {
//! let mut store = Store::new()?;
//! store.declare("t", &[Column::key("a"), Column::new("b")])?;
//! let file = b"T\x02\x01\x00t\x00\x12\x00\x01\0\0\0\0\0\0\0\x01\x03\x01x";
//! assert_eq!(store.apply(file, false, Policy::default())?.written, 1);
//! let row = store.get("t", &[Value::Integer(1)])?;
//! assert_eq!(row.unwrap(), [Value::Integer(1), Value::Text("x")]);
//! # Ok(())
//! # }
//! ```
//!
//! Only a [`Changegroup`] and a [`Store`] keep state: several threads can call at once. A call needs
//! 128 KiB of stack, and one on a [`Store`] 2 MiB. A call on files needs at most some twenty times
//! their bytes, of [`concat_many()`] and of a [`Changegroup`] a hundred times. Make none in a signal
//! handler, or in the child of a fork of a process with threads. A call panics if the library has
//! another version than the crate.
#![deny(missing_docs)]
#![deny(unsafe_code)]
#![warn(unsafe_op_in_unsafe_fn)]

mod changes;
mod error;
#[allow(unsafe_code)]
mod ffi;
mod files;
mod group;
mod store;

pub use changes::{changes, Change, Changes, Operation, Value};
pub use error::{Code, Error};
pub use files::{check, concat, concat_many, dump, invert, number_keys, select, sql};
pub use group::Changegroup;
pub use store::{
    AllRows, Choice, Column, Conflict, ConflictKind, OwnedValue, Page, Policy, Report,
    ResolvedConflict, Store, StoreError, Transaction,
};

/// Returns the version of the library: a million times the major number, a thousand times the minor
/// number, and the patch.
#[must_use]
pub fn version() -> u32 {
    u32::try_from(ffi::version()).expect("a version is not negative")
}

#[cfg(doctest)]
#[doc = include_str!("../README.md")]
struct Readme;
