//! How many trades there are, once the price of each is added to a list, and the price of the last one.

use std::fs::File;
use std::io::{BufRead, BufReader, BufWriter, Write};

fn main() -> Result<(), Box<dyn std::error::Error>> {
    let mut input = BufReader::new(File::open("four.csv")?);
    let mut output = BufWriter::new(File::create("out.csv")?);
    let mut prices: Vec<i64> = Vec::new();
    let mut line = String::new();
    while input.read_line(&mut line)? > 0 {
        let mut fields = line.trim_end().split(',');
        let _second: i64 = fields.next().ok_or("no second")?.parse()?;
        let _symbol = fields.next().ok_or("no symbol")?;
        let price: i64 = fields.next().ok_or("no price")?.parse()?;
        let _quantity: i64 = fields.next().ok_or("no quantity")?.parse()?;
        prices.push(price);
        line.clear();
    }
    writeln!(output, "{},{}", prices.len(), prices.last().ok_or("no trades")?)?;
    output.flush()?;
    Ok(())
}
