//! An iterator over the rows of a table.

use std::iter::FusedIterator;
use std::vec;

use super::parts::OwnedValue;
use super::{Store, StoreError};
use crate::Value;

/// The number of rows that are read at once.
const PAGE: usize = 512;

/// An iterator over the rows of a table, from [`Store::all_rows`]. It ends after an error.
#[derive(Debug)]
#[must_use = "iterators are lazy"]
pub struct AllRows<'s> {
    store: &'s mut Store,
    table: String,
    /// The columns of the key.
    key: Vec<usize>,
    /// The rows that were read, and the key of the last one.
    rows: vec::IntoIter<Vec<OwnedValue>>,
    last: Option<Vec<OwnedValue>>,
    more: bool,
}

impl<'s> AllRows<'s> {
    pub(super) fn new(store: &'s mut Store, table: &str) -> Result<Self, StoreError> {
        let columns = store.schema(table)?.into_iter().enumerate();
        Ok(Self {
            store,
            table: table.to_string(),
            key: columns
                .filter_map(|(place, column)| column.is_key.then(|| place))
                .collect(),
            rows: Vec::new().into_iter(),
            last: None,
            more: true,
        })
    }

    /// Reads the next rows.
    fn turn(&mut self) -> Result<(), StoreError> {
        let last = self.last.iter().flatten().map(OwnedValue::as_value);
        let after: Vec<Value<'_>> = last.collect();
        let after = self.last.is_some().then(|| &after[..]);
        let page = self.store.rows(&self.table, after, PAGE)?;
        let key_of = |row: &Vec<OwnedValue>| self.key.iter().map(|it| row[*it].clone()).collect();
        self.last = page.rows.last().map(key_of);
        self.rows = page.rows.into_iter();
        self.more = page.more;
        Ok(())
    }
}

impl Iterator for AllRows<'_> {
    type Item = Result<Vec<OwnedValue>, StoreError>;

    fn next(&mut self) -> Option<Self::Item> {
        if self.more && self.rows.as_slice().is_empty() {
            if let Err(error) = self.turn() {
                self.more = false;
                return Some(Err(error));
            }
        }
        self.rows.next().map(Ok)
    }
}

impl FusedIterator for AllRows<'_> {}
