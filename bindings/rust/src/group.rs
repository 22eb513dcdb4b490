//! A concatenation to which files are added.

use crate::error::Error;
use crate::ffi;
use crate::files::make;

/// A concatenation to which files are added one by one, as SQLite's `sqlite3_changegroup`.
///
/// ```
/// use vollikash::{concat, Changegroup};
///
/// # fn main() -> Result<(), vollikash::Error> {
/// let first = b"T\x01\x01t\x00\x12\x00\x03\x01x";
/// let second = b"T\x01\x01t\x00\x12\x00\x03\x01y";
/// let mut group = Changegroup::new();
/// group.add(first)?;
/// assert!(group.add(b"damaged").is_err());
/// group.add(second)?;
/// assert_eq!(group.to_bytes()?, concat(first, second)?);
/// # Ok(())
/// # }
/// ```
#[derive(Default)]
pub struct Changegroup {
    group: ffi::Group,
}

impl Changegroup {
    /// Returns a concatenation without files.
    #[must_use]
    pub fn new() -> Self {
        Self::default()
    }

    /// Adds a file, which is copied: the concatenation does what it did, and then what the file does.
    /// After an error it does what it did.
    ///
    /// It takes time as [`concat_many`](crate::concat_many) does for the file.
    ///
    /// # Errors
    ///
    /// Those of [`check`](crate::check). [`Code::Schema`](crate::Code::Schema) if the file has a table
    /// with other columns or another key than the concatenation.
    pub fn add(&mut self, file: &[u8]) -> Result<(), Error> {
        self.group.add(file).map_err(Error::of)
    }

    /// Returns the file of the concatenation, which is at most as long as all files together. It has
    /// no bytes if nothing is left. More files can be added after that.
    ///
    /// # Errors
    ///
    /// [`Code::NoMemory`](crate::Code::NoMemory).
    pub fn to_bytes(&mut self) -> Result<Vec<u8>, Error> {
        make(self.group.limit(), |out| self.group.output(out))
    }
}
