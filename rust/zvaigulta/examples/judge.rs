//! Judges a file and, where it is refused, says what is wrong: `cargo run --release --offline --example judge -- FILE`.

use std::error::Error;
use zvaigulta::explain::explain_as;
use zvaigulta::Reading;

fn main() -> Result<(), Box<dyn Error>> {
    let path = std::env::args_os().nth(1).ok_or("give a FILE")?;
    let bytes = std::fs::read(path)?;
    // Records end to end, or each with a line end behind it; with a directory of layers at the end, or without.
    let reading = Reading::of(&bytes);
    match reading.judge(&bytes) {
        Ok(counts) => println!("{counts}"),
        Err(refusal) => {
            println!("{refusal}");
            let told = explain_as(reading, &bytes, refusal);
            for note in told.notes {
                println!("{note}");
            }
            for fault in told.faults {
                println!("record {}, {}: {}", fault.record, fault.column, fault.words);
            }
        }
    }
    Ok(())
}
