//! What is wrong with files, and where.

mod common;

use common::{INSERT, UPDATE};
use vollikash::{
    changes, check, concat, concat_many, dump, invert, number_keys, select, sql, Changegroup, Code,
    Error,
};

/// A file for each fault of a file, and the byte offset of the fault.
const FAULTS: [(&[u8], Code, usize); 18] = [
    (b"T\x02\x01", Code::Truncated, 3),
    (b"SQLite format 3\0", Code::NotTable, 0),
    (b"P\x02\x01\x00t\x00\x12\x00\x05\x05", Code::Patchset, 0),
    (b"T\x80\x01\x01t\x00", Code::BadVarint, 1),
    (b"T\x00t\x00", Code::ColumnCount, 1),
    (b"T\x02\x00\x00t\x00", Code::NoKey, 2),
    (b"T\x01\x01\xff\x00", Code::BadName, 3),
    (
        b"T\x01\x01t\x00\x12\x00\x03\x00T\x01\x01t\x00\x12\x00\x03\x00",
        Code::DuplicateTable,
        9,
    ),
    (b"T\x01\x01t\x00", Code::EmptyGroup, 5),
    (b"T\x01\x01t\x00\x13\x00\x03\x00", Code::BadOp, 5),
    (b"T\x01\x01t\x00\x12\x02\x03\x00", Code::BadFlag, 6),
    (b"T\x01\x01t\x00\x12\x00\x06\x00", Code::BadType, 7),
    (
        b"T\x01\x01t\x00\x12\x00\x02\0\0\0\0\0\0\0\0",
        Code::RealValue,
        7,
    ),
    (b"T\x01\x01t\x00\x12\x00\x03\x01\xff", Code::BadText, 9),
    (b"T\x01\x01t\x00\x12\x00\x00", Code::UndefinedField, 7),
    (
        b"T\x02\x01\x00t\x00\x17\x00\x03\x00\x05\x00\x00",
        Code::Unpaired,
        12,
    ),
    (b"T\x01\x01t\x00\x12\x00\x05", Code::NullKey, 7),
    (
        b"T\x01\x01t\x00\x12\x00\x03\x00\x09\x00\x03\x00",
        Code::DuplicateKey,
        9,
    ),
];

/// A table t of one column, and one of two key columns.
const ONE_COLUMN: &[u8] = b"T\x01\x01t\x00\x12\x00\x03\x00";
const OTHER_KEY: &[u8] =
    b"T\x01\x01s\x00\x12\x00\x03\x00T\x02\x01\x01t\x00\x12\x00\x03\x00\x03\x00";

fn assert_fault<T: std::fmt::Debug>(made: Result<T, Error>, code: Code, file: usize, place: usize) {
    let error = made.unwrap_err();
    assert_eq!(error.code(), code);
    assert_eq!(error.which_file(), Some(file));
    assert_eq!(error.offset(), Some(place));
    assert_eq!(error.table_index(), None);
}

#[test]
fn each_call_refuses_a_file() {
    for (number, (file, code, place)) in FAULTS.into_iter().enumerate() {
        assert_eq!(code.number(), number as i32 + 1);
        assert_fault(check(file), code, 1, place);
        assert_fault(invert(file), code, 1, place);
        assert_fault(number_keys(file), code, 1, place);
        assert_fault(select(file, ["t"]), code, 1, place);
        assert_fault(dump(file), code, 1, place);
        assert_fault(sql(file), code, 1, place);
        assert_fault(concat(file, file), code, 1, place);
        assert_fault(concat(INSERT, file), code, 2, place);
        assert_fault(concat_many([INSERT, UPDATE, file, file]), code, 3, place);
        assert_fault(Changegroup::new().add(file), code, 1, place);
    }
}

#[test]
fn changes_end_with_the_fault() {
    for (file, code, place) in FAULTS {
        let last = changes(file).last().unwrap();
        if matches!(code, Code::DuplicateTable | Code::DuplicateKey) {
            assert_eq!(changes(file).filter_map(Result::ok).count(), 2);
            assert!(last.is_ok());
        } else {
            assert_fault(last, code, 1, place);
        }
    }
}

#[test]
fn other_columns_and_keys_are_refused() {
    for (second, index) in [(ONE_COLUMN, 0), (OTHER_KEY, 1)] {
        let error = concat(INSERT, second).unwrap_err();
        assert_eq!((error.code(), error.code().number()), (Code::Schema, 43));
        assert_eq!(
            (error.which_file(), error.table_index()),
            (Some(2), Some(index))
        );
        assert_eq!(error.offset(), None);
        let mut group = Changegroup::new();
        group.add(INSERT).unwrap();
        let error = group.add(second).unwrap_err();
        assert_eq!(
            (error.code(), error.which_file(), error.table_index()),
            (Code::Schema, Some(1), Some(index))
        );
        assert_eq!(group.to_bytes().unwrap(), INSERT);
        let error = concat_many([INSERT, UPDATE, second]).unwrap_err();
        assert_eq!(
            (error.which_file(), error.table_index()),
            (Some(3), Some(index))
        );
    }
}

#[test]
fn errors_have_sentences() {
    let schema = "a table has other columns or another key than in an earlier file";
    let cases = [
        (
            check(b"x").err(),
            "the file does not begin with a table, at byte 0".to_string(),
        ),
        (
            concat(b"", b"T\x01\x01t\x00").err(),
            "a table has no change, at byte 5 of file 2".to_string(),
        ),
        (
            concat(INSERT, ONE_COLUMN).err(),
            format!("{}, at table 0 of file 2", schema),
        ),
    ];
    for (error, sentence) in cases {
        assert_eq!(error.map(|it| it.to_string()), Some(sentence));
    }
}

#[test]
fn errors_are_plain_values() {
    fn assert_error<E: std::error::Error + Clone + PartialEq + Send + Sync + 'static>(_: &E) {}
    let error = check(b"x").unwrap_err();
    assert_error(&error);
    assert_eq!(error.clone(), error);
    assert_ne!(check(b"T").unwrap_err(), error);
    assert_eq!(format!("{:?}", error.code()), "NotTable");
}
