//! With each 50,000th trade the sum of the last prices of all symbols.

use std::collections::HashMap;
use std::fs::File;
use std::io::{BufRead, BufReader, BufWriter, Write};

fn main() -> Result<(), Box<dyn std::error::Error>> {
    let mut input = BufReader::new(File::open("four.csv")?);
    let mut output = BufWriter::new(File::create("out.csv")?);
    let mut last: HashMap<String, i64> = HashMap::new();
    let mut line = String::new();
    while input.read_line(&mut line)? > 0 {
        let mut fields = line.trim_end().split(',');
        let second: i64 = fields.next().ok_or("no second")?.parse()?;
        let symbol = fields.next().ok_or("no symbol")?;
        let price: i64 = fields.next().ok_or("no price")?.parse()?;
        let _quantity: i64 = fields.next().ok_or("no quantity")?.parse()?;
        match last.get_mut(symbol) {
            Some(last) => *last = price,
            None => {
                last.insert(symbol.to_string(), price);
            }
        }
        if second % 50000 == 49999 {
            let sum: i64 = last.values().sum();
            writeln!(output, "{second},{sum}")?;
        }
        line.clear();
    }
    output.flush()?;
    Ok(())
}
