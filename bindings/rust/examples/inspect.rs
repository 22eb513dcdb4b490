//! Prints the changes of a file: `cargo run --example inspect FILE`.

use std::error::Error;
use std::io::{self, Write};
use std::{env, fs, process};

use vollikash::{changes, Change, Operation, Value};

/// Returns a value as SQL has it, or `.` if the change does not have it.
fn shown(value: Option<Value<'_>>) -> String {
    match value {
        None => ".".to_string(),
        Some(Value::Integer(number)) => number.to_string(),
        Some(Value::Text(text)) => format!("'{}'", text.replace('\'', "''")),
        Some(Value::Blob(blob)) => format!("a blob of {} bytes", blob.len()),
        Some(Value::Null) => "NULL".to_string(),
        Some(other) => format!("{other:?}"),
    }
}

fn print(out: &mut impl Write, change: &Change<'_>) -> io::Result<()> {
    let operation = match change.operation() {
        Operation::Insert => "insert",
        Operation::Update => "update",
        Operation::Delete => "delete",
    };
    let [old, new] = [change.old_values(), change.new_values()]
        .map(|side| side.into_iter().map(shown).collect::<Vec<_>>().join(" "));
    writeln!(out, "{} {operation}: {old} -> {new}", change.table())
}

fn run(path: &str) -> Result<(), Box<dyn Error>> {
    let file = fs::read(path)?;
    vollikash::check(&file)?;
    let mut out = io::BufWriter::new(io::stdout());
    for change in changes(&file) {
        print(&mut out, &change?)?;
    }
    out.flush()?;
    Ok(())
}

fn main() {
    let path = env::args().nth(1).unwrap_or_else(|| {
        eprintln!("usage: inspect FILE");
        process::exit(2);
    });
    if let Err(error) = run(&path) {
        eprintln!("{path}: {error}");
        process::exit(1);
    }
}
