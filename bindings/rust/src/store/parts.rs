//! What calls on a store take and return.

use crate::Value;

/// A value that a store returns.
///
/// ```
/// use vollikash::{OwnedValue, Value};
///
/// let value = OwnedValue::Text("milk".to_string());
/// assert_eq!(value.as_value(), Value::Text("milk"));
/// assert_eq!(value, Value::Text("milk"));
/// ```
#[derive(Clone, Debug, PartialEq, Eq, Hash)]
pub enum OwnedValue {
    /// NULL.
    Null,
    /// An integer.
    Integer(i64),
    /// A text.
    Text(String),
    /// A blob.
    Blob(Vec<u8>),
}

impl OwnedValue {
    /// Returns the value, borrowed.
    #[must_use]
    pub fn as_value(&self) -> Value<'_> {
        match self {
            Self::Null => Value::Null,
            Self::Integer(number) => Value::Integer(*number),
            Self::Text(text) => Value::Text(text),
            Self::Blob(blob) => Value::Blob(blob),
        }
    }
}

impl From<Value<'_>> for OwnedValue {
    fn from(value: Value<'_>) -> Self {
        match value {
            Value::Null => Self::Null,
            Value::Integer(number) => Self::Integer(number),
            Value::Text(text) => Self::Text(text.to_string()),
            Value::Blob(blob) => Self::Blob(blob.to_vec()),
        }
    }
}

impl PartialEq<Value<'_>> for OwnedValue {
    fn eq(&self, other: &Value<'_>) -> bool {
        self.as_value() == *other
    }
}

/// A column of a table.
#[derive(Clone, Debug, PartialEq, Eq, Hash)]
pub struct Column {
    /// The name.
    pub name: String,
    /// Whether the column is of the key.
    pub is_key: bool,
    /// Whether the column refuses NULL. A column of the key always does.
    pub not_null: bool,
}

impl Column {
    /// Returns a column that is not of the key, and can be NULL.
    #[must_use]
    pub fn new(name: impl Into<String>) -> Self {
        Self {
            name: name.into(),
            is_key: false,
            not_null: false,
        }
    }

    /// Returns a column of the key.
    #[must_use]
    pub fn key(name: impl Into<String>) -> Self {
        Self {
            name: name.into(),
            is_key: true,
            not_null: true,
        }
    }

    /// Returns the column, which refuses NULL.
    #[must_use]
    pub fn not_null(self) -> Self {
        Self {
            not_null: true,
            ..self
        }
    }
}

/// Rows of a table, from [`Store::rows`](crate::Store::rows).
#[derive(Clone, Debug, PartialEq, Eq)]
#[non_exhaustive]
pub struct Page {
    /// The rows, each with its values in column order.
    pub rows: Vec<Vec<OwnedValue>>,
    /// Whether the table has rows after these.
    pub more: bool,
}

/// What is done about a conflict.
#[derive(Clone, Copy, Debug, PartialEq, Eq, Hash)]
#[repr(u8)]
pub enum Choice {
    /// The row stays as it is.
    Omit = 0,
    /// The change is carried out anyway. [`ConflictKind::NotFound`] cannot be replaced.
    Replace = 1,
    /// The apply fails, and changes nothing.
    Abort = 2,
}

impl Choice {
    /// Each choice.
    pub(super) const ALL: [Self; 3] = [Self::Omit, Self::Replace, Self::Abort];
}

/// Why a change does not fit a row.
#[derive(Clone, Copy, Debug, PartialEq, Eq, Hash)]
#[repr(u8)]
pub enum ConflictKind {
    /// The row has other values than the change expects.
    Data = 1,
    /// There is no row with the key.
    NotFound = 2,
    /// There is a row with the key of an INSERT.
    Conflict = 3,
    /// The new row breaks a constraint.
    Constraint = 4,
}

impl ConflictKind {
    /// Each kind.
    pub(super) const ALL: [Self; 4] =
        [Self::Data, Self::NotFound, Self::Conflict, Self::Constraint];
}

/// A choice for each kind of conflict. By default each is [`Choice::Abort`].
#[derive(Clone, Copy, Debug, PartialEq, Eq, Hash)]
pub struct Policy {
    /// The choice for [`ConflictKind::Data`].
    pub data: Choice,
    /// The choice for [`ConflictKind::NotFound`].
    pub not_found: Choice,
    /// The choice for [`ConflictKind::Conflict`].
    pub conflict: Choice,
    /// The choice for [`ConflictKind::Constraint`].
    pub constraint: Choice,
}

impl Default for Policy {
    fn default() -> Self {
        Self {
            data: Choice::Abort,
            not_found: Choice::Abort,
            conflict: Choice::Abort,
            constraint: Choice::Abort,
        }
    }
}

/// A conflict that an apply would have, from [`Store::rehearse`](crate::Store::rehearse).
#[derive(Clone, Debug, PartialEq, Eq)]
#[non_exhaustive]
pub struct Conflict {
    /// The zero-based index of the change in the file.
    pub change: u64,
    /// Why the change does not fit.
    pub kind: ConflictKind,
    /// The name of the table.
    pub table: String,
    /// The key of the row.
    pub key: Vec<OwnedValue>,
    /// The row of the key, if there is one.
    pub current: Option<Vec<OwnedValue>>,
}

/// What an apply did.
#[derive(Clone, Debug, PartialEq, Eq)]
#[non_exhaustive]
pub struct Report {
    /// The number of changes that were carried out.
    pub written: u64,
    /// The number of changes that were ignored, because their rows were already there.
    pub ignored: u64,
    /// The tables whose changes were skipped: the store does not have them, or has them with
    /// another key or fewer columns.
    pub skipped: Vec<String>,
    /// The conflicts, in the order of the file.
    pub conflicts: Vec<ResolvedConflict>,
}

/// A conflict that an apply had, and what was done.
#[derive(Clone, Debug, PartialEq, Eq)]
#[non_exhaustive]
pub struct ResolvedConflict {
    /// Why the change did not fit.
    pub kind: ConflictKind,
    /// What was done.
    pub choice: Choice,
    /// The name of the table.
    pub table: String,
    /// The key of the row.
    pub key: Vec<OwnedValue>,
}
