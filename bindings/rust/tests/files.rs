//! The calls that make files and texts.

mod common;

use common::{header, record, DELETE, INSERT, THREE_TABLES, UPDATE};
use vollikash::{
    check, concat, concat_many, dump, invert, number_keys, select, sql, Changegroup, Error, Value,
};

#[test]
fn version_is_that_of_the_crate() {
    let number = vollikash::version();
    let parts = [number / 1_000_000, number / 1_000 % 1_000, number % 1_000];
    assert_eq!(
        parts.map(|it| it.to_string()).join("."),
        env!("CARGO_PKG_VERSION")
    );
}

#[test]
fn checks_files() {
    for file in [b"", INSERT, DELETE, UPDATE, THREE_TABLES] {
        assert_eq!(check(file), Ok(()));
    }
}

#[test]
fn no_bytes_are_a_file() -> Result<(), Error> {
    let none: [&[u8]; 0] = [];
    let made = [
        invert(b"")?,
        number_keys(b"")?,
        concat(b"", b"")?,
        select(b"", ["t"])?,
    ];
    assert_eq!(made, [b"", b"", b"", b""]);
    assert_eq!(concat_many(none)?, b"");
    assert_eq!([dump(b"")?, sql(b"")?], ["", ""]);
    Ok(())
}

#[test]
fn inverts() -> Result<(), Error> {
    let undone = b"T\x02\x01\x00t\x00\x17\x00\x01\0\0\0\0\0\0\0\x01\x03\x01y\x00\x03\x01x";
    for (file, inverse) in [(INSERT, DELETE), (DELETE, INSERT), (UPDATE, undone)] {
        assert_eq!(invert(file)?, inverse);
    }
    assert_eq!(invert(&invert(THREE_TABLES)?)?, THREE_TABLES);
    Ok(())
}

#[test]
fn concatenates() -> Result<(), Error> {
    let both = b"T\x02\x01\x00t\x00\x12\x00\x01\0\0\0\0\0\0\0\x01\x03\x01y".as_slice();
    let cases: [(&[u8], &[u8], &[u8]); 5] = [
        (INSERT, b"", INSERT),
        (b"", INSERT, INSERT),
        (INSERT, DELETE, b""),
        (INSERT, UPDATE, both),
        (DELETE, INSERT, b""),
    ];
    for (first, second, wanted) in cases {
        assert_eq!(concat(first, second)?, wanted);
        assert_eq!(concat_many([first, b"", second])?, wanted);
    }
    Ok(())
}

#[test]
fn concatenates_many() -> Result<(), Error> {
    let files = [
        INSERT.to_vec(),
        UPDATE.to_vec(),
        invert(UPDATE)?,
        INSERT.to_vec(),
    ];
    assert_eq!(concat_many(&files)?, INSERT);
    assert_eq!(concat_many(files.iter().take(1))?, INSERT);
    assert_eq!(concat_many(vec![INSERT; 100])?, INSERT);
    Ok(())
}

#[test]
fn adds_files_to_a_group() -> Result<(), Error> {
    let mut group = Changegroup::new();
    assert_eq!(group.to_bytes()?, b"");
    let mut joined = Vec::new();
    for file in [INSERT, b"", UPDATE, DELETE, THREE_TABLES, INSERT] {
        joined = concat(&joined, file)?;
        group.add(file)?;
        assert_eq!(group.to_bytes()?, joined);
        assert!(group.add(&INSERT[1..]).is_err());
        assert_eq!(group.to_bytes()?, joined);
    }
    Ok(())
}

#[test]
fn selects_tables() -> Result<(), Error> {
    let (first, others) = THREE_TABLES.split_at(32);
    let (second, third) = others.split_at(36);
    let cases: [(&[&str], &[u8]); 6] = [
        (&[], b""),
        (&["", "T", "t "], b""),
        (&["none", "t"], first),
        (&["two words"], second),
        (&["z\u{e9}"], third),
        (&["z\u{e9}", "two words"], others),
    ];
    for (tables, wanted) in cases {
        assert_eq!(select(THREE_TABLES, tables)?, wanted);
    }
    assert_eq!(select(THREE_TABLES, vec!["t".to_string()])?, first);
    Ok(())
}

#[test]
fn name_with_a_zero_byte_is_ignored() -> Result<(), Error> {
    assert_eq!(select(INSERT, ["t\0t"])?, b"");
    assert_eq!(select(INSERT, ["t\0", "\0t", "t"])?, INSERT);
    Ok(())
}

#[test]
fn numbers_keys() -> Result<(), Error> {
    let row = record(&[
        Some(Value::Integer(1)),
        Some(Value::Null),
        Some(Value::Text("k")),
    ]);
    let file = [header("t", &[1, 0, 1]), b"\x12\x00".to_vec(), row.clone()].concat();
    let numbered = [header("t", &[1, 0, 2]), b"\x12\x00".to_vec(), row].concat();
    assert_eq!(number_keys(&file)?, numbered);
    assert_eq!(number_keys(INSERT)?, INSERT);
    Ok(())
}

#[test]
fn prints_lines() -> Result<(), Error> {
    let wanted = "\
        table 't' columns 2 flags 1,0\n\
        insert 0 new 1,'x'\n\
        delete 0 old 2,NULL\n\
        table 'two words' columns 3 flags 2,1,0\n\
        update 1 old 'k',X'00ff',-2 new -,-,NULL\n\
        table 'z\u{e9}' columns 1 flags 1\n\
        insert 1 new ''\n";
    assert_eq!(dump(THREE_TABLES)?, wanted);
    Ok(())
}

#[test]
fn prints_sql() -> Result<(), Error> {
    let wanted = "\
        INSERT INTO \"t\" VALUES(1, 'x');\n\
        DELETE FROM \"t\" WHERE c1=2 AND c2 IS NULL;\n\
        UPDATE \"two words\" SET c3=NULL WHERE c1='k' AND c2=X'00ff' AND c3=-2;\n\
        INSERT INTO \"z\u{e9}\" VALUES('');\n";
    assert_eq!(sql(THREE_TABLES)?, wanted);
    Ok(())
}

/// A text that is longer than its first buffer, since each DELETE has the table's name.
#[test]
fn long_text_is_made_whole() -> Result<(), Error> {
    let name = "n".repeat(2000);
    let mut file = header(&name, &[1]);
    for key in 0..100 {
        file.extend([0x09, 0]);
        file.extend(record(&[Some(Value::Integer(key))]));
    }
    let text = sql(&file)?;
    assert!(text.len() > 8 * file.len() + 256);
    let line = |key| format!("DELETE FROM \"{}\" WHERE c1={};\n", name, key);
    assert!(text == (0..100).map(line).collect::<String>());
    Ok(())
}

#[test]
fn threads_call_at_once() {
    let threads: Vec<_> = (0..4)
        .map(|_| std::thread::spawn(|| (0..100).all(|_| invert(INSERT).unwrap() == DELETE)))
        .collect();
    assert!(threads.into_iter().all(|thread| thread.join().unwrap()));
}
