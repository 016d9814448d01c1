//! Reads the corners of a sheet to the millimetre, by the layouts' column names: `cargo run --release --offline --example corners [-- FILE]`.

use std::error::Error;
use zvaigulta::layout::{SHEET_B, SHEET_E};
use zvaigulta::{join, Sheet, Unit, EXAMPLE};

fn main() -> Result<(), Box<dyn Error>> {
    let bytes = std::env::args_os().nth(1).map_or_else(|| Ok(EXAMPLE.to_vec()), std::fs::read)?;
    let sheet = Sheet::from(bytes);
    sheet.judge()?;
    // The last e record has the fractions that count.
    let b = sheet.records().nth(1).ok_or("no record b")?;
    let e = sheet.records().filter(|record| record.layout == Some(&SHEET_E)).last().ok_or("no record e")?;
    let unit = SHEET_B.value("unit", b.bytes).and_then(|code| u64::try_from(code).ok()).ok_or("no unit")?;
    for name in ["lower left X", "lower left Y", "upper right X", "upper right Y"] {
        let whole = SHEET_B.value(name, b.bytes).ok_or("no such column")?;
        let fraction = SHEET_E.value(name, e.bytes).ok_or("no such column")?;
        println!("{name}: {} mm", join(Unit::from(unit), whole, fraction)?);
    }
    Ok(())
}
