//! Calls that check files, and that make files and texts of them.

use crate::error::Error;
use crate::ffi::{self, Made};

/// Checks whether bytes are the file of a changeset.
///
/// # Errors
///
/// The first fault of the file, or [`Code::NoMemory`](crate::Code::NoMemory).
///
/// ```
/// assert!(vollikash::check(b"").is_ok());
/// assert!(vollikash::check(b"SQLite format 3").is_err());
/// ```
pub fn check(file: &[u8]) -> Result<(), Error> {
    ffi::check(file).map_err(Error::of)
}

/// Returns the inverse, which undoes what the file does. It is as long as the file.
///
/// # Errors
///
/// Those of [`check`].
pub fn invert(file: &[u8]) -> Result<Vec<u8>, Error> {
    make(file.len(), |out| ffi::invert(file, out))
}

/// Returns the same changeset with the columns of each key numbered in column order.
///
/// `sqlite3changeset_apply` silently skips a table whose flags are not the positions of its columns
/// in the PRIMARY KEY. A store's changeset marks each of them by 1, and this call numbers them. Do
/// not call it on a file that SQLite recorded, or on its inverse: it is wrong for
/// `PRIMARY KEY(b, a)`.
///
/// # Errors
///
/// Those of [`check`].
pub fn number_keys(file: &[u8]) -> Result<Vec<u8>, Error> {
    make(file.len(), |out| ffi::number_keys(file, out))
}

/// Returns the concatenation, which does what the first file does and then what the second does. It
/// is at most as long as both.
///
/// # Errors
///
/// Those of [`check`] for the first file, otherwise for the second. [`Code::Schema`] if the second
/// has a table with other columns or another key.
///
/// [`Code::Schema`]: crate::Code::Schema
pub fn concat(first: &[u8], second: &[u8]) -> Result<Vec<u8>, Error> {
    let room = first.len().saturating_add(second.len());
    make(room, |out| ffi::concat(first, second, out))
}

/// Returns the concatenation of many files, in their order. Without a file it has no bytes.
///
/// It takes time in proportion to the bytes of the files, and for each change of a row that an
/// earlier file has changed to both changes.
///
/// # Errors
///
/// Those of [`concat()`] for the first file at fault.
///
/// ```
/// use vollikash::{concat_many, invert};
///
/// # fn main() -> Result<(), vollikash::Error> {
/// let file = b"T\x02\x01\x00t\x00\x12\x00\x01\0\0\0\0\0\0\0\x01\x03\x01x".to_vec();
/// let undo = invert(&file)?;
/// assert_eq!(concat_many([&file, &undo, &file])?, file);
/// # Ok(())
/// # }
/// ```
pub fn concat_many(files: impl IntoIterator<Item = impl AsRef<[u8]>>) -> Result<Vec<u8>, Error> {
    let mut all = Vec::new();
    let mut lengths = Vec::new();
    for file in files {
        let file = file.as_ref();
        reserve(&mut all, file.len())?;
        all.extend_from_slice(file);
        reserve(&mut lengths, 1)?;
        lengths.push(file.len());
    }
    make(all.len(), |out| ffi::concat_many(&all, &lengths, out))
}

/// Returns the file of the tables that are named, in the order of the file.
///
/// Names are compared byte by byte, so `T` is not `t`. A name that the file does not have is ignored.
/// Without any the result has no bytes.
///
/// # Errors
///
/// Those of [`check`].
pub fn select(
    file: &[u8],
    tables: impl IntoIterator<Item = impl AsRef<str>>,
) -> Result<Vec<u8>, Error> {
    let mut names = Vec::new();
    for table in tables {
        let table = table.as_ref();
        // A zero byte ends a name for the library, and no table has one in its name.
        if !table.contains('\0') {
            reserve(&mut names, table.len() + 1)?;
            names.extend_from_slice(table.as_bytes());
            names.push(0);
        }
    }
    make(file.len(), |out| ffi::select(file, &names, out))
}

/// Returns a line for each table and each change, to be read by people: texts and names are in it as
/// they are, line feeds too.
///
/// # Errors
///
/// Those of [`check`].
pub fn dump(file: &[u8]) -> Result<String, Error> {
    make_text(file, ffi::dump)
}

/// Returns a SQL statement for each change, to be read by people: texts are in it as they are. The
/// columns are `c1`, `c2` and so on, since the format has no names of columns.
///
/// # Errors
///
/// Those of [`check`].
pub fn sql(file: &[u8]) -> Result<String, Error> {
    make_text(file, ffi::sql)
}

/// Returns the text that a call makes of a file. Most texts have room in the first buffer.
fn make_text(file: &[u8], call: fn(&[u8], &mut Vec<u8>) -> Made) -> Result<String, Error> {
    let room = file.len().saturating_mul(4).saturating_add(256);
    let mut text = make(room, |out| call(file, out))?;
    text.shrink_to_fit();
    Ok(String::from_utf8(text).expect("the library makes UTF-8"))
}

/// Returns what a call makes in a buffer with this room, or with the room that it asks for.
pub(crate) fn make(
    room: usize,
    mut call: impl FnMut(&mut Vec<u8>) -> Made,
) -> Result<Vec<u8>, Error> {
    let mut out = with_room(room)?;
    let mut made = call(&mut out);
    if let Made::NoRoom(needed) = made {
        out = with_room(needed)?;
        made = call(&mut out);
    }
    match made {
        Made::Done => Ok(out),
        Made::NoRoom(needed) => panic!("the library asks for {needed} bytes again"),
        Made::Refused(fault) => Err(Error::of(fault)),
    }
}

/// Returns an empty list with room for this many items.
fn with_room<T>(room: usize) -> Result<Vec<T>, Error> {
    let mut list = Vec::new();
    reserve(&mut list, room)?;
    Ok(list)
}

/// Makes room for this many more items.
pub(crate) fn reserve<T>(list: &mut Vec<T>, more: usize) -> Result<(), Error> {
    list.try_reserve(more).map_err(|_| Error::no_memory())
}

#[cfg(test)]
mod tests {
    use super::*;
    use crate::Code;

    #[test]
    fn buffer_that_no_memory_has() {
        let error = with_room::<u8>(usize::MAX).unwrap_err();
        assert_eq!(error.code(), Code::NoMemory);
        assert_eq!((error.which_file(), error.offset()), (None, None));
        assert_eq!(error.to_string(), "out of memory");
    }
}
