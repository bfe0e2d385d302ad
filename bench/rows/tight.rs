// The same as plain.rs, with integers read and written by hand.
// Usage: tight SHAPE IN OUT, as crates/speed with the word rows. It takes no quotes, and stops at a bad row.
use std::fs::File;
use std::io::{BufRead, BufReader, BufWriter, Write};

enum Value {
    Int(i64),
    Text(Vec<u8>),
}

fn read_row(line: &[u8], shape: &[u8], row: &mut Vec<Value>) -> Option<()> {
    let mut fields = line.split(|b| *b == b',');
    for (at, letter) in shape.iter().enumerate() {
        let field = fields.next()?;
        match (&mut row[at], letter) {
            (Value::Text(text), b't') => {
                text.clear();
                text.extend_from_slice(field);
            }
            (value, _) => *value = Value::Int(number(field)?),
        }
    }
    if fields.next().is_none() { Some(()) } else { None }
}

fn number(field: &[u8]) -> Option<i64> {
    let (minus, digits) = match field {
        [b'-', digits @ ..] => (true, digits),
        _ => (false, field),
    };
    if digits.is_empty() {
        return None;
    }
    let mut n = 0i64;
    for b in digits {
        let digit = b.wrapping_sub(b'0');
        if digit > 9 {
            return None;
        }
        n = n.checked_mul(10)?.checked_sub(i64::from(digit))?;
    }
    if minus { Some(n) } else { n.checked_neg() }
}

fn add_number<W: Write>(out: &mut W, n: i64) {
    let mut digits = [0u8; 20];
    let mut at = 20;
    let mut left = n.unsigned_abs();
    loop {
        at -= 1;
        digits[at] = b'0' + (left % 10) as u8;
        left /= 10;
        if left == 0 {
            break;
        }
    }
    if n < 0 {
        at -= 1;
        digits[at] = b'-';
    }
    out.write_all(&digits[at..]).unwrap();
}

fn main() {
    let words: Vec<String> = std::env::args().collect();
    let shape = words[1].as_bytes();
    let mut lines = BufReader::new(File::open(&words[2]).unwrap());
    let mut out = BufWriter::with_capacity(65536, File::create(&words[3]).unwrap());
    let mut row: Vec<Value> = shape
        .iter()
        .map(|letter| if *letter == b't' { Value::Text(Vec::new()) } else { Value::Int(0) })
        .collect();
    let mut line = Vec::new();
    let mut copied = 0u64;
    loop {
        line.clear();
        if lines.read_until(b'\n', &mut line).unwrap() == 0 {
            break;
        }
        if line.last() == Some(&b'\n') {
            line.pop();
        }
        if read_row(&line, shape, &mut row).is_none() {
            break;
        }
        for (at, value) in row.iter().enumerate() {
            if at > 0 {
                out.write_all(b",").unwrap();
            }
            match value {
                Value::Int(n) => add_number(&mut out, *n),
                Value::Text(text) => out.write_all(text).unwrap(),
            }
        }
        out.write_all(b"\n").unwrap();
        copied += 1;
    }
    out.flush().unwrap();
    println!("{copied} rows");
}
