//! With each trade the first price of its symbol.

use std::collections::HashMap;
use std::fs::File;
use std::io::{BufRead, BufReader, BufWriter, Write};

fn main() -> Result<(), Box<dyn std::error::Error>> {
    let mut input = BufReader::new(File::open("four.csv")?);
    let mut output = BufWriter::new(File::create("out.csv")?);
    let mut firsts: HashMap<String, i64> = HashMap::new();
    let mut line = String::new();
    while input.read_line(&mut line)? > 0 {
        let mut fields = line.trim_end().split(',');
        let _second: i64 = fields.next().ok_or("no second")?.parse()?;
        let symbol = fields.next().ok_or("no symbol")?;
        let price: i64 = fields.next().ok_or("no price")?.parse()?;
        let _quantity: i64 = fields.next().ok_or("no quantity")?.parse()?;
        let first = match firsts.get(symbol) {
            Some(first) => *first,
            None => *firsts.entry(symbol.to_string()).or_insert(price),
        };
        writeln!(output, "{symbol},{first}")?;
        line.clear();
    }
    output.flush()?;
    Ok(())
}
