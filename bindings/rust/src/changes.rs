//! The changes of a file, and their values.

use std::fmt;
use std::iter::FusedIterator;
use std::str;

use crate::error::Error;
use crate::ffi::{self, Cursor, Field, Located, Side};

/// What a change does with its row.
#[derive(Clone, Copy, Debug, PartialEq, Eq, Hash)]
pub enum Operation {
    /// It adds the row.
    Insert,
    /// It modifies columns of the row.
    Update,
    /// It removes the row.
    Delete,
}

/// A value, which is borrowed: that of a change from its file. Floating-point values are refused.
#[derive(Clone, Copy, Debug, PartialEq, Eq, Hash)]
#[non_exhaustive]
pub enum Value<'a> {
    /// NULL.
    Null,
    /// An integer.
    Integer(i64),
    /// A text.
    Text(&'a str),
    /// A blob.
    Blob(&'a [u8]),
}

/// Returns an iterator over the changes of a file.
///
/// A step takes time in proportion to the change, and allocates nothing.
///
/// # Errors
///
/// The error of [`check`](crate::check), at the same place, after which the iterator ends. But it does
/// not notice [`DuplicateTable`](crate::Code::DuplicateTable) and
/// [`DuplicateKey`](crate::Code::DuplicateKey), and goes on. Call `check` first if no change may be
/// used of a file that is damaged.
///
/// ```
/// use vollikash::{changes, Value};
///
/// # fn main() -> Result<(), vollikash::Error> {
/// // UPDATE t SET b = 'y' WHERE a = 7, where b was 'x'
/// let file = b"T\x02\x01\x00t\x00\x17\x00\x01\0\0\0\0\0\0\0\x07\x03\x01x\x00\x03\x01y";
/// for change in changes(file) {
///     let change = change?;
///     let values = [Some(Value::Integer(7)), Some(Value::Text("x"))];
///     assert_eq!(change.old_values(), values);
///     assert_eq!(change.new_values(), [None, Some(Value::Text("y"))]);
/// }
/// # Ok(())
/// # }
/// ```
pub fn changes(file: &[u8]) -> Changes<'_> {
    let cursor = Some(Cursor::new(file));
    Changes { cursor }
}

/// An iterator over the changes of a file, from [`changes`].
#[derive(Clone)]
#[must_use = "iterators are lazy"]
pub struct Changes<'a> {
    /// It is `None` after the end and after an error.
    cursor: Option<Cursor<'a>>,
}

impl<'a> Iterator for Changes<'a> {
    type Item = Result<Change<'a>, Error>;

    fn next(&mut self) -> Option<Self::Item> {
        let item = self.cursor.as_mut()?.next().map_err(Error::of).transpose();
        if !matches!(item, Some(Ok(_))) {
            self.cursor = None;
        }
        item.map(|located| located.map(Change))
    }
}

impl FusedIterator for Changes<'_> {}

impl fmt::Debug for Changes<'_> {
    fn fmt(&self, f: &mut fmt::Formatter<'_>) -> fmt::Result {
        f.debug_struct("Changes").finish_non_exhaustive()
    }
}

/// A change of a row. Its name and its values are borrowed from the file.
#[derive(Clone, Copy)]
pub struct Change<'a>(Located<'a>);

impl<'a> Change<'a> {
    /// Returns the name of the table.
    #[must_use]
    pub fn table(&self) -> &'a str {
        str::from_utf8(self.0.name()).expect("a table's name is UTF-8")
    }

    /// Returns what the change does.
    #[must_use]
    pub fn operation(&self) -> Operation {
        match self.0.operation() {
            ffi::INSERT => Operation::Insert,
            ffi::UPDATE => Operation::Update,
            ffi::DELETE => Operation::Delete,
            other => panic!("the library returned the operation {other}"),
        }
    }

    /// Returns whether a trigger or a foreign key made the change.
    #[must_use]
    pub fn is_indirect(&self) -> bool {
        self.0.is_indirect()
    }

    /// Returns the number of columns of the table.
    #[must_use]
    pub fn column_count(&self) -> usize {
        self.key_flags().len()
    }

    /// Returns a byte for each column, which is not 0 if the column is of the key. In SQLite's files
    /// it is the position of the column in the PRIMARY KEY, from 1.
    #[must_use]
    pub fn key_flags(&self) -> &'a [u8] {
        self.0.flags()
    }

    /// Returns whether a zero-based column is of the key. It is not if there is no such column.
    #[must_use]
    pub fn is_key(&self, column: usize) -> bool {
        self.key_flags()
            .get(column)
            .map_or(false, |flag| *flag != 0)
    }

    /// Returns the value of a zero-based column before the change. NULL is `Some(Value::Null)`.
    ///
    /// It is `None` for an INSERT, for a column that an UPDATE does not modify, and if there is no
    /// such column. An UPDATE has the values of the key here. A call takes time in proportion to the
    /// bytes of the change up to the value: see [`old_values`](Self::old_values).
    #[must_use]
    pub fn old_value(&self, column: usize) -> Option<Value<'a>> {
        self.value(Side::Old, column)
    }

    /// Returns the value of a zero-based column after the change. NULL is `Some(Value::Null)`.
    ///
    /// It is `None` for a DELETE, and if there is no such column. Of an UPDATE it is `None` for the
    /// key, and for a column that is not modified. A call takes time in proportion to the bytes of
    /// the change up to the value: see [`new_values`](Self::new_values).
    #[must_use]
    pub fn new_value(&self, column: usize) -> Option<Value<'a>> {
        self.value(Side::New, column)
    }

    /// Returns what [`old_value`](Self::old_value) does for each column, in one pass over the change.
    #[must_use]
    pub fn old_values(&self) -> Vec<Option<Value<'a>>> {
        self.values(Side::Old)
    }

    /// Returns what [`new_value`](Self::new_value) does for each column, in one pass over the change.
    #[must_use]
    pub fn new_values(&self) -> Vec<Option<Value<'a>>> {
        self.values(Side::New)
    }

    fn value(&self, side: Side, column: usize) -> Option<Value<'a>> {
        self.value_of(self.0.field(side, column)?)
    }

    fn values(&self, side: Side) -> Vec<Option<Value<'a>>> {
        let fields = self.0.fields(side);
        fields.into_iter().map(|it| self.value_of(it)).collect()
    }

    /// Returns the value of a field, which the library promises to be in the file.
    fn value_of(&self, field: Field) -> Option<Value<'a>> {
        let bytes = || self.0.bytes(field.offset, field.length);
        match field.kind {
            ffi::UNDEFINED => None,
            ffi::INTEGER => Some(Value::Integer(field.integer)),
            ffi::TEXT => Some(Value::Text(
                str::from_utf8(bytes()).expect("a text is UTF-8"),
            )),
            ffi::BLOB => Some(Value::Blob(bytes())),
            ffi::NULL => Some(Value::Null),
            other => panic!("the library returned the kind {other} of a value"),
        }
    }
}

impl fmt::Debug for Change<'_> {
    fn fmt(&self, f: &mut fmt::Formatter<'_>) -> fmt::Result {
        f.debug_struct("Change")
            .field("table", &self.table())
            .field("operation", &self.operation())
            .field("is_indirect", &self.is_indirect())
            .field("key_flags", &self.key_flags())
            .field("old", &self.old_values())
            .field("new", &self.new_values())
            .finish()
    }
}
