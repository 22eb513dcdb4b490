//! Why a store refuses a call.

use std::fmt;

use super::parts::{ConflictKind, OwnedValue};
use crate::{Code, Error};

/// A store refuses a call. Nothing was changed, but a [`Transaction`](crate::Transaction) can have
/// ended.
///
/// ```
/// use vollikash::{Code, Store, Value};
///
/// # fn main() -> Result<(), vollikash::StoreError> {
/// let mut store = Store::new()?;
/// let error = store.get("notes", &[Value::Integer(1)]).unwrap_err();
/// assert_eq!((error.code(), error.code().number()), (Code::NoTable, 31));
/// assert_eq!(error.table(), Some("notes"));
/// assert_eq!(error.to_string(), "there is no table with this name, table \"notes\"");
/// # Ok(())
/// # }
/// ```
#[derive(Clone, Debug, PartialEq, Eq)]
pub struct StoreError {
    pub(super) code: Code,
    pub(super) table: Option<String>,
    pub(super) column: Option<String>,
    pub(super) key: Option<Vec<OwnedValue>>,
    pub(super) detail: Option<u64>,
}

impl StoreError {
    /// Returns an error without parts.
    pub(super) fn of(code: Code) -> Self {
        Self {
            code,
            table: None,
            column: None,
            key: None,
            detail: None,
        }
    }

    /// Returns the number of the error.
    #[must_use]
    pub fn code(&self) -> Code {
        self.code
    }

    /// Returns the table at fault. The codes from [`Code::TableExists`] to [`Code::NullInKey`] have
    /// one, and so do [`Code::NotNull`], [`Code::Abort`], [`Code::Misuse`] and
    /// [`Code::AlreadyAttached`].
    #[must_use]
    pub fn table(&self) -> Option<&str> {
        self.table.as_deref()
    }

    /// Returns the first column that has NULL and refuses it. [`Code::NullInKey`] and
    /// [`Code::NotNull`] have one.
    #[must_use]
    pub fn column(&self) -> Option<&str> {
        self.column.as_deref()
    }

    /// Returns the key of the row. [`Code::KeyTaken`], [`Code::NoRow`], [`Code::Abort`] and
    /// [`Code::Misuse`] have one.
    #[must_use]
    pub fn key(&self) -> Option<&[OwnedValue]> {
        self.key.as_deref()
    }

    /// Returns a number, which the code gives its meaning:
    ///
    /// - For the codes up to [`Code::DuplicateKey`] it is the byte offset in the changeset.
    /// - For [`Code::Wider`] and [`Code::Schema`] it is the zero-based index of the table in the
    ///   changeset.
    /// - For [`Code::Abort`] and [`Code::Misuse`] it is [`conflict`](Self::conflict) as a number.
    /// - For [`Code::StoreFault`] it is SQLite's number of the reason. It is `None` from
    ///   [`Store::open`](crate::Store::open) and [`Store::to_bytes`](crate::Store::to_bytes).
    #[must_use]
    pub fn detail(&self) -> Option<u64> {
        self.detail
    }

    /// Returns the kind of the conflict. [`Code::Abort`] and [`Code::Misuse`] have one.
    #[must_use]
    pub fn conflict(&self) -> Option<ConflictKind> {
        let has_one = matches!(self.code, Code::Abort | Code::Misuse);
        let number = self.detail.filter(|_| has_one)?;
        let mut kinds = ConflictKind::ALL.into_iter();
        kinds.find(|kind| *kind as u64 == number)
    }

    /// Writes the detail, if the error has one.
    fn fmt_detail(&self, f: &mut fmt::Formatter<'_>) -> fmt::Result {
        match (self.detail, self.conflict()) {
            (None, _) => Ok(()),
            (_, Some(kind)) => write!(f, ", conflict {kind:?}"),
            (Some(detail), _) => match self.code {
                Code::StoreFault => write!(f, ", SQLite's number {detail}"),
                Code::Wider | Code::Schema => write!(f, ", at table {detail}"),
                _ => write!(f, ", at byte {detail}"),
            },
        }
    }
}

impl fmt::Display for StoreError {
    fn fmt(&self, f: &mut fmt::Formatter<'_>) -> fmt::Result {
        f.write_str(&self.code.sentence())?;
        if let Some(table) = &self.table {
            write!(f, ", table {table:?}")?;
        }
        if let Some(column) = &self.column {
            write!(f, ", column {column:?}")?;
        }
        if let Some(key) = &self.key {
            write!(f, ", key {key:?}")?;
        }
        self.fmt_detail(f)
    }
}

impl std::error::Error for StoreError {}

impl From<Error> for StoreError {
    /// Returns the error of a file. Its offset or its index of a table is the detail.
    fn from(error: Error) -> Self {
        let place = error.offset().or_else(|| error.table_index());
        Self {
            detail: place.map(|it| it as u64),
            ..Self::of(error.code())
        }
    }
}
