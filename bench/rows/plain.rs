// The limit: rows read into a list of values that is used again, and written, by a plain loop.
// Usage: plain SHAPE IN OUT, as crates/speed with the word rows. It takes no quotes, and stops at a bad row.
use std::fs::File;
use std::io::{BufRead, BufReader, BufWriter, Write};

enum Value {
    Int(i64),
    Text(Vec<u8>),
}

fn read_row(line: &[u8], shape: &[u8], row: &mut Vec<Value>) -> Option<()> {
    let mut fields = line.split(|b| *b == b',');
    for (at, letter) in shape.iter().enumerate() {
        let field = fields.next()?;
        match (&mut row[at], letter) {
            (Value::Text(text), b't') => {
                text.clear();
                text.extend_from_slice(field);
            }
            (value, _) => *value = Value::Int(std::str::from_utf8(field).ok()?.parse().ok()?),
        }
    }
    if fields.next().is_none() { Some(()) } else { None }
}

fn main() {
    let words: Vec<String> = std::env::args().collect();
    let shape = words[1].as_bytes();
    let mut lines = BufReader::new(File::open(&words[2]).unwrap());
    let mut out = BufWriter::with_capacity(65536, File::create(&words[3]).unwrap());
    let mut row: Vec<Value> = shape
        .iter()
        .map(|letter| if *letter == b't' { Value::Text(Vec::new()) } else { Value::Int(0) })
        .collect();
    let mut line = Vec::new();
    let mut copied = 0u64;
    loop {
        line.clear();
        if lines.read_until(b'\n', &mut line).unwrap() == 0 {
            break;
        }
        if line.last() == Some(&b'\n') {
            line.pop();
        }
        if read_row(&line, shape, &mut row).is_none() {
            break;
        }
        for (at, value) in row.iter().enumerate() {
            if at > 0 {
                out.write_all(b",").unwrap();
            }
            match value {
                Value::Int(n) => write!(out, "{n}").unwrap(),
                Value::Text(text) => out.write_all(text).unwrap(),
            }
        }
        out.write_all(b"\n").unwrap();
        copied += 1;
    }
    out.flush().unwrap();
    println!("{copied} rows");
}
