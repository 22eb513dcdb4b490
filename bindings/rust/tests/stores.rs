//! Stores in memory.

mod common;

use std::thread;

use common::{damaged, header, record, DELETE, INSERT, UPDATE};
use vollikash::{
    changes, invert, Choice, Code, Column, Conflict, ConflictKind, OwnedValue, Policy, Store,
    StoreError, Value,
};

type Tested = Result<(), StoreError>;

const ONE: &[Value<'_>] = &[Value::Integer(1)];
const TWO: &[Value<'_>] = &[Value::Integer(2)];
const ONE_X: &[Value<'_>] = &[Value::Integer(1), Value::Text("x")];
const ONE_Y: &[Value<'_>] = &[Value::Integer(1), Value::Text("y")];
const TWO_X: &[Value<'_>] = &[Value::Integer(2), Value::Text("x")];
const ONE_NULL: &[Value<'_>] = &[Value::Integer(1), Value::Null];

/// Runs a test in a thread that has the stack that calls on a store need.
fn with_stack(test: fn() -> Tested) -> Tested {
    let thread = thread::Builder::new().stack_size(4 << 20);
    thread.spawn(test).unwrap().join().unwrap()
}

/// Returns a store with the table t(a, b) of the files, whose key is a, and with some rows.
fn store_with(rows: &[&[Value<'_>]]) -> Result<Store, StoreError> {
    let mut store = Store::new()?;
    store.declare("t", &[Column::key("a"), Column::new("b")])?;
    for row in rows {
        store.insert("t", row)?;
    }
    Ok(store)
}

fn rows_of(store: &mut Store) -> Result<Vec<Vec<OwnedValue>>, StoreError> {
    store.all_rows("t")?.collect()
}

fn code_of<T>(result: Result<T, StoreError>) -> Option<Code> {
    result.err().map(|error| error.code())
}

/// Expects an error of a table, and of a column or a key if there is one.
fn assert_error<T>(
    result: Result<T, StoreError>,
    code: Code,
    table: &str,
    column: Option<&str>,
    key: Option<&[Value<'_>]>,
) {
    let error = result.map(|_| ()).unwrap_err();
    let parts = (error.code(), error.table(), error.column());
    assert_eq!(parts, (code, Some(table), column));
    let key = key.map(|key| key.iter().copied().map(OwnedValue::from).collect());
    assert_eq!(error.key().map(<[_]>::to_vec), key);
    assert_eq!((error.detail(), error.conflict()), (None, None));
}

/// Expects an error that has only a detail.
fn assert_detail<T>(result: Result<T, StoreError>, code: Code, detail: u64) {
    let error = result.map(|_| ()).unwrap_err();
    assert_eq!((error.code(), error.detail()), (code, Some(detail)));
    let parts = (error.table(), error.column(), error.key(), error.conflict());
    assert_eq!(parts, (None, None, None, None));
}

#[test]
fn declares_tables() -> Tested {
    with_stack(|| {
        let mut store = store_with(&[])?;
        let columns = [
            Column::new("x").not_null(),
            Column::key("y"),
            Column::key("z"),
        ];
        store.declare("a table", &columns)?;
        assert_eq!(store.tables()?, ["a table", "t"]);
        assert_eq!(store.schema("a table")?, columns);
        let plain = Column {
            not_null: false,
            ..Column::key("k")
        };
        store.declare("u", &[plain])?;
        assert_eq!(store.schema("u")?, [Column::key("k")]);
        Ok(())
    })
}

#[test]
fn writes_rows() -> Tested {
    with_stack(|| {
        let mut store = store_with(&[ONE_X])?;
        assert_eq!(store.get("t", ONE)?.unwrap(), ONE_X);
        assert_eq!(store.get("t", TWO)?, None);
        store.update("t", ONE, TWO_X)?;
        assert_eq!(rows_of(&mut store)?, [TWO_X]);
        store.put("t", ONE_X)?;
        store.put("t", ONE_NULL)?;
        assert_eq!(rows_of(&mut store)?, [ONE_NULL, TWO_X]);
        assert_eq!(store.count("t")?, 2);
        store.delete("t", TWO)?;
        store.delete("t", ONE)?;
        assert_eq!((store.count("t")?, store.get("t", ONE)?), (0, None));
        Ok(())
    })
}

#[test]
fn keeps_each_value() -> Tested {
    with_stack(|| {
        let long = "é".repeat(100_000);
        let mut store = Store::new()?;
        store.declare("t", &[Column::key("a"), Column::new("b"), Column::key("c")])?;
        for row in [
            [Value::Integer(i64::MIN), Value::Null, Value::Text("")],
            [
                Value::Integer(i64::MAX),
                Value::Blob(b""),
                Value::Text(&long),
            ],
            [
                Value::Blob(&[0, 255]),
                Value::Text(&long),
                Value::Integer(-1),
            ],
        ] {
            store.insert("t", &row)?;
            let read = store.get("t", &[row[0], row[2]])?.unwrap();
            assert_eq!(read, row);
            assert_eq!(read, row.map(OwnedValue::from));
        }
        Ok(())
    })
}

#[test]
fn pages() -> Tested {
    with_stack(|| {
        let mut store = store_with(&[TWO_X, ONE_X])?;
        let minus = &[Value::Integer(-1), Value::Null][..];
        store.insert("t", minus)?;
        let page = store.rows("t", None, 2)?;
        assert_eq!((page.more, page.rows.len()), (true, 2));
        assert_eq!(page.rows, [ONE_X, TWO_X]);
        let page = store.rows("t", Some(TWO), usize::MAX)?;
        assert_eq!((page.more, page.rows.len()), (false, 1));
        assert_eq!(page.rows, [minus]);
        let page = store.rows("t", Some(&[Value::Integer(0)]), 0)?;
        assert_eq!((page.more, page.rows.len()), (true, 0));
        Ok(())
    })
}

#[test]
fn iterates_over_ten_thousand_rows() -> Tested {
    with_stack(|| {
        let mut store = Store::new()?;
        let columns = [Column::new("b"), Column::key("k"), Column::key("a")];
        store.declare("t", &columns)?;
        let row = |n| [Value::Null, Value::Text("k"), Value::Integer(n)];
        let mut transaction = store.transaction()?;
        for n in (0..10_000).rev() {
            transaction.insert("t", &row(n))?;
        }
        let mut seen = 0;
        for found in transaction.all_rows("t")? {
            assert_eq!(found?, row(seen));
            seen += 1;
        }
        assert_eq!((seen, transaction.count("t")?), (10_000, 10_000));
        transaction.commit()?;
        for count in [1025, 1024, 512] {
            for n in count..store.count("t")? as i64 {
                store.delete("t", &[Value::Text("k"), Value::Integer(n)])?;
            }
            assert_eq!(store.all_rows("t")?.count(), count as usize);
        }
        Ok(())
    })
}

#[test]
fn iterator_is_fused() -> Tested {
    with_stack(|| {
        let mut store = store_with(&[])?;
        assert_eq!(code_of(store.all_rows("u")), Some(Code::NoTable));
        let mut rows = store.all_rows("t")?;
        assert!(rows.next().is_none() && rows.next().is_none());
        store.insert("t", ONE_X)?;
        let mut rows = store.all_rows("t")?;
        assert_eq!(rows.next().unwrap()?, ONE_X);
        assert!(rows.next().is_none() && rows.next().is_none());
        Ok(())
    })
}

#[test]
fn saves_and_opens() -> Tested {
    with_stack(|| {
        let mut store = store_with(&[ONE_X, TWO_X])?;
        store.open_session()?;
        let file = store.to_bytes()?;
        assert!(file.starts_with(b"SQLite format 3\0"));
        assert_eq!(store.to_bytes()?, file);
        assert!(store.changeset()?.is_empty());
        store.delete("t", ONE)?;
        let mut other = Store::open(&file)?;
        assert_eq!(rows_of(&mut other)?, [ONE_X, TWO_X]);
        assert_eq!(rows_of(&mut store)?, [TWO_X]);
        assert_eq!(code_of(other.changeset()), Some(Code::NoSession));
        Ok(())
    })
}

#[test]
fn damaged_bytes_are_refused() -> Tested {
    with_stack(|| {
        let file = store_with(&[ONE_X])?.to_bytes()?;
        let fault = Store::open(b"no database").unwrap_err();
        assert_eq!((fault.code(), fault.detail()), (Code::StoreFault, None));
        let cut = &file[..file.len() - 1];
        assert_eq!(code_of(Store::open(cut)), Some(Code::StoreFault));
        let row = b"\x03\x01x";
        let place = file.windows(3).position(|it| it == row).unwrap();
        let mut changed = file.clone();
        changed[place] = 2; // a floating-point value
        assert_eq!(code_of(Store::open(&changed)), Some(Code::DamagedStore));
        for changed in damaged(&file[..100]).step_by(7) {
            let changed = [&changed, &file[100..]].concat();
            if let Ok(mut store) = Store::open(&changed) {
                rows_of(&mut store)?;
            }
        }
        Ok(())
    })
}

#[test]
fn errors_of_tables_have_parts() -> Tested {
    with_stack(|| {
        let mut store = store_with(&[ONE_X])?;
        let columns = [Column::key("a"), Column::new("b").not_null()];
        store.declare("u", &columns)?;
        assert_error(
            store.declare("t", &columns),
            Code::TableExists,
            "t",
            None,
            None,
        );
        assert_error(store.declare("v", &[]), Code::BadSchema, "v", None, None);
        assert_error(store.schema("v"), Code::NoTable, "v", None, None);
        assert_error(store.get("t", ONE_X), Code::RowWidth, "t", None, None);
        assert_error(
            store.insert("t", ONE_Y),
            Code::KeyTaken,
            "t",
            None,
            Some(ONE),
        );
        assert_error(store.delete("t", TWO), Code::NoRow, "t", None, Some(TWO));
        assert_error(
            store.update("t", TWO, ONE_X),
            Code::NoRow,
            "t",
            None,
            Some(TWO),
        );
        assert_error(
            store.get("t", &[Value::Null]),
            Code::NullInKey,
            "t",
            Some("a"),
            None,
        );
        assert_error(
            store.put("u", ONE_NULL),
            Code::NotNull,
            "u",
            Some("b"),
            None,
        );
        assert_eq!(rows_of(&mut store)?, [ONE_X]);
        Ok(())
    })
}

#[test]
fn errors_of_files_have_places() -> Tested {
    with_stack(|| {
        let mut store = store_with(&[ONE_X])?;
        let apply = store.apply(&INSERT[..9], false, Policy::default());
        assert_detail(apply, Code::Truncated, 9);
        assert_detail(store.revert(b"x"), Code::NotTable, 0);
        let first = [header("s", &[1]), b"\x12\x00\x03\x00".to_vec()].concat();
        let narrow = [header("t", &[1]), b"\x12\x00\x03\x00".to_vec()].concat();
        assert_detail(
            store.rehearse(&[first, narrow].concat(), false),
            Code::Wider,
            1,
        );
        assert_eq!(rows_of(&mut store)?, [ONE_X]);
        Ok(())
    })
}

#[test]
fn errors_have_sentences() -> Tested {
    with_stack(|| {
        let mut store = store_with(&[ONE_X])?;
        store.declare("u", &[Column::key("a"), Column::new("b").not_null()])?;
        let cases = [
            (
                store.insert("t", ONE_X).err(),
                "there is a row with this key, table \"t\", key [Integer(1)]",
            ),
            (
                store.insert("u", ONE_NULL).err(),
                "a value is NULL in a column that refuses it, table \"u\", column \"b\"",
            ),
            (
                store.apply(INSERT, false, Policy::default()).err(),
                "an apply had a conflict whose choice is to abort, table \"t\", \
                 key [Integer(1)], conflict Conflict",
            ),
            (
                store.revert(b"x").err(),
                "the file does not begin with a table, at byte 0",
            ),
            (store.undo().err(), "no session is open"),
        ];
        for (error, sentence) in cases {
            assert_eq!(error.unwrap().to_string(), sentence);
        }
        let error = StoreError::from(invert(b"x").unwrap_err());
        assert_eq!((error.code(), error.detail()), (Code::NotTable, Some(0)));
        Ok(())
    })
}

#[test]
fn errors_are_plain_values() {
    fn assert_plain<E: std::error::Error + Clone + PartialEq + Send + Sync + 'static>() {}
    assert_plain::<StoreError>();
}

#[test]
fn transactions() -> Tested {
    with_stack(|| {
        let mut store = store_with(&[])?;
        let mut transaction = store.transaction()?;
        transaction.insert("t", ONE_X)?;
        assert_eq!(transaction.get("t", ONE)?.unwrap(), ONE_X);
        drop(transaction);
        assert_eq!(store.count("t")?, 0);
        let mut transaction = store.transaction()?;
        transaction.insert("t", ONE_X)?;
        assert_eq!(
            code_of(transaction.insert("t", ONE_Y)),
            Some(Code::KeyTaken)
        );
        assert_eq!(
            code_of(transaction.transaction()),
            Some(Code::TransactionOpen)
        );
        assert_eq!(code_of(transaction.to_bytes()), Some(Code::TransactionOpen));
        assert_eq!(
            code_of(transaction.open_session()),
            Some(Code::TransactionOpen)
        );
        transaction.insert("t", TWO_X)?;
        transaction.commit()?;
        assert_eq!(rows_of(&mut store)?, [ONE_X, TWO_X]);
        store.to_bytes()?;
        Ok(())
    })
}

#[test]
fn transaction_is_rolled_back_by_an_early_return() -> Tested {
    with_stack(|| {
        fn twice(store: &mut Store) -> Tested {
            let mut transaction = store.transaction()?;
            transaction.insert("t", ONE_X)?;
            transaction.insert("t", ONE_Y)?;
            transaction.commit()
        }
        let mut store = store_with(&[])?;
        assert_eq!(code_of(twice(&mut store)), Some(Code::KeyTaken));
        assert_eq!(store.count("t")?, 0);
        Ok(())
    })
}

#[test]
fn session_and_undo() -> Tested {
    with_stack(|| {
        let mut store = store_with(&[ONE_X])?;
        assert_eq!(code_of(store.attach("t")), Some(Code::NoSession));
        store.open_session()?;
        assert_eq!(code_of(store.open_session()), Some(Code::SessionOpen));
        store.attach("t")?;
        assert_error(store.attach("t"), Code::AlreadyAttached, "t", None, None);
        assert!(store.is_session_empty()?);
        store.put("t", ONE_Y)?;
        let mut transaction = store.transaction()?;
        transaction.insert("t", TWO_X)?;
        transaction.commit()?;
        assert!(!store.is_session_empty()?);
        let file = store.changeset()?;
        assert!(file.starts_with(UPDATE));
        assert_eq!(changes(&file).filter_map(Result::ok).count(), 2);
        assert_eq!(store.undo()?.written, 2);
        assert_eq!(rows_of(&mut store)?, [ONE_X]);
        assert!(store.changeset()?.is_empty() && !store.is_session_empty()?);
        store.close_session()?;
        assert_eq!(code_of(store.close_session()), Some(Code::NoSession));
        Ok(())
    })
}

#[test]
fn applies_and_reverts() -> Tested {
    with_stack(|| {
        let mut store = store_with(&[])?;
        let report = store.apply(INSERT, false, Policy::default())?;
        assert_eq!((report.written, report.ignored), (1, 0));
        assert!(report.skipped.is_empty() && report.conflicts.is_empty());
        assert_eq!(store.apply(INSERT, true, Policy::default())?.ignored, 1);
        store.apply(UPDATE, false, Policy::default())?;
        assert_eq!(rows_of(&mut store)?, [ONE_Y]);
        store.revert(UPDATE)?;
        assert_eq!(rows_of(&mut store)?, [ONE_X]);
        let error = store.revert(UPDATE).unwrap_err();
        assert_eq!(
            (error.code(), error.conflict()),
            (Code::Abort, Some(ConflictKind::Data))
        );
        assert_eq!(store.apply(DELETE, false, Policy::default())?.written, 1);
        let other = [header("u", &[1]), b"\x12\x00\x03\x00".to_vec()].concat();
        let report = store.apply(&other, false, Policy::default())?;
        assert_eq!((report.written, report.skipped), (0, vec!["u".to_string()]));
        Ok(())
    })
}

#[test]
fn policies() -> Tested {
    with_stack(|| {
        let mut store = store_with(&[ONE_Y])?;
        let omit = Policy {
            conflict: Choice::Omit,
            ..Policy::default()
        };
        let report = store.apply(INSERT, false, omit)?;
        assert_eq!((report.written, report.conflicts.len()), (0, 1));
        let replace = Policy {
            not_found: Choice::Replace,
            conflict: Choice::Replace,
            ..Policy::default()
        };
        let report = store.apply(INSERT, false, replace)?;
        let conflict = &report.conflicts[0];
        assert_eq!(
            (conflict.kind, conflict.choice),
            (ConflictKind::Conflict, Choice::Replace)
        );
        assert_eq!(
            (conflict.table.as_str(), &conflict.key[..]),
            ("t", &[OwnedValue::Integer(1)][..])
        );
        assert_eq!(rows_of(&mut store)?, [ONE_X]);
        store.delete("t", ONE)?;
        let error = store.apply(UPDATE, false, replace).unwrap_err();
        assert_eq!(
            (error.code(), error.conflict()),
            (Code::Misuse, Some(ConflictKind::NotFound))
        );
        assert_eq!(
            (error.table(), error.key()),
            (Some("t"), Some(&[OwnedValue::Integer(1)][..]))
        );
        Ok(())
    })
}

/// Returns the changeset that inserts (1, 'x'), (2, 'x') and (3, 'x').
fn three_rows() -> Vec<u8> {
    let entry = |number| {
        let row = [Some(Value::Integer(number)), Some(Value::Text("x"))];
        [b"\x12\x00".to_vec(), record(&row)].concat()
    };
    let entries: Vec<u8> = (1..4).flat_map(entry).collect();
    [header("t", &[1, 0]), entries].concat()
}

#[test]
fn chooses_for_each_conflict() -> Tested {
    with_stack(|| {
        let two_null = &[Value::Integer(2), Value::Null][..];
        let mut store = store_with(&[ONE_Y, two_null])?;
        let file = three_rows();
        let found = store.rehearse(&file, false)?;
        assert_eq!(found.len(), 2);
        assert_eq!(
            (found[1].change, found[1].kind),
            (1, ConflictKind::Conflict)
        );
        assert_eq!(
            (found[1].table.as_str(), &found[1].key[..]),
            ("t", &[OwnedValue::Integer(2)][..])
        );
        assert_eq!(found[1].current.as_ref().unwrap(), two_null);
        let mut seen: Vec<Conflict> = Vec::new();
        let report = store.apply_with(&file, false, |conflict| {
            seen.push(conflict.clone());
            match conflict.current.as_ref().map(|row| &row[1]) {
                Some(OwnedValue::Null) => Choice::Replace,
                _ => Choice::Omit,
            }
        })?;
        assert_eq!(seen, found);
        let choices: Vec<Choice> = report.conflicts.iter().map(|it| it.choice).collect();
        assert_eq!(
            (report.written, choices),
            (2, vec![Choice::Omit, Choice::Replace])
        );
        let three_x = &[Value::Integer(3), Value::Text("x")][..];
        assert_eq!(rows_of(&mut store)?, [ONE_Y, TWO_X, three_x]);
        Ok(())
    })
}

#[test]
fn choice_aborts_an_apply() -> Tested {
    with_stack(|| {
        let mut store = store_with(&[TWO_X])?;
        let mut transaction = store.transaction()?;
        let error = transaction.apply_with(&three_rows(), false, |_| Choice::Abort);
        assert_eq!(code_of(error), Some(Code::Abort));
        assert_eq!(transaction.count("t")?, 1);
        let report = transaction.apply_with(&three_rows(), true, |_| Choice::Abort)?;
        assert_eq!((report.written, report.ignored), (2, 1));
        transaction.commit()?;
        assert_eq!(store.count("t")?, 3);
        Ok(())
    })
}

#[test]
fn stores_do_not_depend_on_each_other() -> Tested {
    let threads = [1_i64, 2, 3].map(|number| {
        let run = move || -> Result<u64, StoreError> {
            let (mut store, mut other) = (store_with(&[])?, store_with(&[ONE_X])?);
            for n in 0..100 * number {
                store.insert("t", &[Value::Integer(n), Value::Null])?;
            }
            assert_eq!(other.count("t")?, 1);
            store.count("t")
        };
        thread::Builder::new()
            .stack_size(4 << 20)
            .spawn(run)
            .unwrap()
    });
    let counts = threads.map(|thread| thread.join().unwrap());
    assert_eq!(counts, [Ok(100), Ok(200), Ok(300)]);
    Ok(())
}
