//! Changes and their values, of whole and of damaged files.

mod common;

use common::{damaged, header, record, DELETE, INSERT, THREE_TABLES, UPDATE};
use vollikash::{changes, check, Change, Changes, Code, Error, Operation, Value};

type Values<'a> = Vec<Option<Value<'a>>>;

const fn integer(number: i64) -> Option<Value<'static>> {
    Some(Value::Integer(number))
}

const fn text(text: &str) -> Option<Value<'_>> {
    Some(Value::Text(text))
}

const fn blob(blob: &[u8]) -> Option<Value<'_>> {
    Some(Value::Blob(blob))
}

const NULL: Option<Value<'static>> = Some(Value::Null);

/// Returns all that a file has, if it has no fault that the iterator reports.
fn all_of(file: &[u8]) -> Result<Vec<(Operation, Values<'_>, Values<'_>)>, Error> {
    changes(file)
        .map(|change| change.map(|it| (it.operation(), it.old_values(), it.new_values())))
        .collect()
}

#[test]
fn each_operation_has_its_sides() -> Result<(), Error> {
    let (row, none) = (vec![integer(1), text("x")], vec![None, None]);
    let cases = [
        (INSERT, Operation::Insert, none.clone(), row.clone()),
        (DELETE, Operation::Delete, row.clone(), none),
        (UPDATE, Operation::Update, row, vec![None, text("y")]),
    ];
    for (file, operation, old, new) in cases {
        assert_eq!(all_of(file)?, [(operation, old, new)]);
    }
    assert_eq!(all_of(b"")?, []);
    Ok(())
}

#[test]
fn file_of_three_tables() -> Result<(), Error> {
    let found: Vec<_> = changes(THREE_TABLES).collect::<Result<_, _>>()?;
    let heads: Vec<_> = found
        .iter()
        .map(|it| (it.table(), it.is_indirect(), it.key_flags()))
        .collect();
    let wanted: [(&str, bool, &[u8]); 4] = [
        ("t", false, &[1, 0]),
        ("t", false, &[1, 0]),
        ("two words", true, &[2, 1, 0]),
        ("z\u{e9}", true, &[1]),
    ];
    assert_eq!(heads, wanted);
    let update = vec![text("k"), blob(b"\x00\xff"), integer(-2)];
    let wanted = [
        (
            Operation::Insert,
            vec![None; 2],
            vec![integer(1), text("x")],
        ),
        (Operation::Delete, vec![integer(2), NULL], vec![None; 2]),
        (Operation::Update, update, vec![None, None, NULL]),
        (Operation::Insert, vec![None], vec![text("")]),
    ];
    assert_eq!(all_of(THREE_TABLES)?, wanted);
    Ok(())
}

#[test]
fn values_of_each_kind() -> Result<(), Error> {
    let long = "\u{e9}".repeat(100);
    let rows = [
        vec![integer(0), NULL],
        vec![integer(i64::MIN), integer(i64::MAX)],
        vec![text(""), text("a\0b")],
        vec![text(&long), blob(b"")],
        vec![blob(b"\xff\x00\x80"), blob(&[7; 300])],
    ];
    for row in &rows {
        let file = [header("t", &[1, 0]), b"\x12\x00".to_vec(), record(row)].concat();
        let (_, old, new) = &all_of(&file)?[0];
        assert_eq!((old, new), (&vec![None, None], row));
    }
    Ok(())
}

#[test]
fn hundred_columns() -> Result<(), Error> {
    let row: Values<'_> = (0..100).map(integer).collect();
    let mut flags = vec![0; 100];
    flags[99] = 1;
    let file = [header("wide", &flags), b"\x09\x01".to_vec(), record(&row)].concat();
    let change = changes(&file).next().unwrap()?;
    assert_eq!(
        (change.column_count(), change.key_flags()),
        (100, &flags[..])
    );
    assert_eq!(change.old_values(), row);
    assert!((0..100).all(|column| change.old_value(column) == row[column]));
    assert_eq!(change.new_values(), vec![None; 100]);
    Ok(())
}

#[test]
fn columns_that_are_not_there() -> Result<(), Error> {
    let change = changes(UPDATE).next().unwrap()?;
    for column in [2, 3, usize::MAX] {
        assert_eq!(
            (change.old_value(column), change.new_value(column)),
            (None, None)
        );
    }
    Ok(())
}

#[test]
fn names_and_values_outlive_the_change() {
    fn first(file: &[u8]) -> Option<(&str, Value<'_>)> {
        let change = changes(file).next()?.ok()?;
        Some((change.table(), change.new_value(1)?))
    }
    assert_eq!(first(INSERT), Some(("t", Value::Text("x"))));
}

#[test]
fn iteration_ends_after_an_error() {
    let file = [INSERT, b"x"].concat();
    let mut iterator = changes(&file);
    assert!(iterator.next().unwrap().is_ok());
    let error = iterator.next().unwrap().unwrap_err();
    assert_eq!(error.code(), Code::BadOp);
    assert_eq!(error.offset(), Some(INSERT.len()));
    assert!(iterator.next().is_none());
    assert!(iterator.next().is_none());
}

#[test]
fn iterators_and_changes_are_plain_values() {
    fn assert_plain<T: Clone + std::fmt::Debug + Send + Sync>() {}
    assert_plain::<Changes<'_>>();
    assert_plain::<Change<'_>>();
    let mut iterator = changes(THREE_TABLES);
    iterator.next();
    assert_eq!(iterator.clone().count(), 3);
    assert_eq!(iterator.count(), 3);
    let shown = format!("{:?}", changes(INSERT).next().unwrap().unwrap());
    assert!(shown.contains(r#"table: "t", operation: Insert"#));
}

/// Reads all of a file, and asserts that the iterator and `check` agree as far as they have to.
fn assert_agreement(file: &[u8]) {
    let mut end = Ok(());
    for change in changes(file) {
        assert!(end.is_ok(), "a change is after an error of {:?}", file);
        match change {
            Ok(change) => assert_change(&change),
            Err(error) => end = Err(error),
        }
    }
    match check(file) {
        Err(error) if matches!(error.code(), Code::DuplicateTable | Code::DuplicateKey) => {}
        checked => assert_eq!(end, checked, "{:?}", file),
    }
}

/// Asserts that all of a change can be read, and that one value is as all of them.
fn assert_change(change: &Change<'_>) {
    let (old, new) = (change.old_values(), change.new_values());
    assert!(!change.table().is_empty());
    assert_eq!(
        (old.len(), new.len()),
        (change.column_count(), change.column_count())
    );
    for column in 0..change.column_count() {
        assert_eq!(change.old_value(column), old[column]);
        assert_eq!(change.new_value(column), new[column]);
    }
    assert_eq!(
        old.iter().all(Option::is_none),
        change.operation() == Operation::Insert
    );
}

#[test]
fn truncated_files() {
    for file in [INSERT, DELETE, UPDATE, THREE_TABLES] {
        for end in 0..=file.len() {
            assert_agreement(&file[..end]);
        }
    }
}

#[test]
fn damaged_files() {
    for file in [INSERT, DELETE, UPDATE, THREE_TABLES] {
        for other in damaged(file) {
            assert_agreement(&other);
        }
    }
}
