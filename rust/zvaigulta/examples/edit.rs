//! Takes the first item of a sheet, puts a copy of it behind the last record and takes the copy out again; with a FILE, of that sheet:
//! `cargo run --release --offline --example edit [-- FILE]`.

use std::error::Error;
use zvaigulta::{Sheet, EXAMPLE};

fn main() -> Result<(), Box<dyn Error>> {
    let bytes = std::env::args_os().nth(1).map_or_else(|| Ok(EXAMPLE.to_vec()), std::fs::read)?;
    let mut sheet = Sheet::from(bytes);
    let before = sheet.judge()?;
    let item = sheet.items().next().ok_or("the sheet has no item")?;
    println!("{before}; the first is a {} at record {}", item.sort.name(), item.number);

    let copy = item.bytes.to_vec();
    let end = before.records + 1;
    println!("with a copy at the end: {}", sheet.insert(end, &copy)?);
    let way = sheet.way_up(end)?;
    println!("the header above it is record {}", way.header.unwrap_or(0));
    println!("without it: {}", sheet.remove(end)?);
    Ok(())
}
