//! Small files, and functions that make others. Each test uses some of them.
#![allow(dead_code)]

use vollikash::Value;

/// INSERT INTO t VALUES(1, 'x'), and its inverse.
pub const INSERT: &[u8] = b"T\x02\x01\x00t\x00\x12\x00\x01\0\0\0\0\0\0\0\x01\x03\x01x";
pub const DELETE: &[u8] = b"T\x02\x01\x00t\x00\x09\x00\x01\0\0\0\0\0\0\0\x01\x03\x01x";

/// UPDATE t SET b = 'y' WHERE a = 1, where b was 'x'.
pub const UPDATE: &[u8] = b"T\x02\x01\x00t\x00\x17\x00\x01\0\0\0\0\0\0\0\x01\x03\x01x\x00\x03\x01y";

/// Three tables with each operation, the last of which is indirect.
pub const THREE_TABLES: &[u8] = b"\
    T\x02\x01\x00t\x00\x12\x00\x01\0\0\0\0\0\0\0\x01\x03\x01x\
    \x09\x00\x01\0\0\0\0\0\0\0\x02\x05\
    T\x03\x02\x01\x00two words\x00\
    \x17\x01\x03\x01k\x04\x02\x00\xff\x01\xff\xff\xff\xff\xff\xff\xff\xfe\x00\x00\x05\
    T\x01\x01z\xc3\xa9\x00\x12\x01\x03\x00";

/// Returns the fields of a record.
pub fn record(values: &[Option<Value<'_>>]) -> Vec<u8> {
    values.iter().flat_map(|value| field(*value)).collect()
}

fn field(value: Option<Value<'_>>) -> Vec<u8> {
    match value {
        None => vec![0],
        Some(Value::Integer(number)) => [&[1], &number.to_be_bytes()[..]].concat(),
        Some(Value::Text(text)) => [&[3], &varint(text.len())[..], text.as_bytes()].concat(),
        Some(Value::Blob(blob)) => [&[4], &varint(blob.len())[..], blob].concat(),
        Some(Value::Null) => vec![5],
        Some(other) => panic!("no field for {:?}", other),
    }
}

/// Returns the header of a table.
pub fn header(name: &str, flags: &[u8]) -> Vec<u8> {
    let count = varint(flags.len());
    [b"T", &count[..], flags, name.as_bytes(), b"\0"].concat()
}

/// Returns the shortest varint of a number with at most 14 bits.
fn varint(number: usize) -> Vec<u8> {
    let low = number as u8 & 0x7f;
    match number >> 7 {
        0 => vec![low],
        high => vec![high as u8 | 0x80, low],
    }
}

/// Returns each file that differs from one in a byte, which is set to a few other values.
pub fn damaged(file: &[u8]) -> impl Iterator<Item = Vec<u8>> + '_ {
    (0..file.len()).flat_map(move |place| {
        let byte = file[place];
        let others = *b"\x00\x01\x02\x05\x06PT\x7f\x80\xff";
        let others = others.into_iter().chain([byte ^ 1, byte ^ 0x80]);
        others.map(move |other| {
            let mut changed = file.to_vec();
            changed[place] = other;
            changed
        })
    })
}
