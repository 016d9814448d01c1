//! Appends the directory of its layers in edition 2 to a sheet, and goes by it to each layer; with a FILE, of that sheet, which stays as it is:
//! `cargo run --release --offline --example layers [-- FILE]`.

use std::error::Error;
use zvaigulta::layout::HEADER;
use zvaigulta::{judge_either_edition, jump_either_edition, Edition, Reason, Sheet, EXAMPLE, RECORD_BYTES};

fn main() -> Result<(), Box<dyn Error>> {
    let bytes = std::env::args_os().nth(1).map_or_else(|| Ok(EXAMPLE.to_vec()), std::fs::read)?;
    let file = Sheet::from(bytes).with_edition(Edition::Second)?;
    let counts = judge_either_edition(&file, file.len())?;
    println!("{counts}; {} records with its directory", file.len() / RECORD_BYTES);

    for number in 1.. {
        let layer = match jump_either_edition(&file, file.len(), number) {
            Err(refusal) if refusal.reason == Reason::RecordNumber => break,
            answer => answer?,
        };
        let class = HEADER.value("class", &file[(layer.header - 1) * RECORD_BYTES..]).unwrap_or(0);
        println!("layer {number}: records {} to {}, class {class}, items: {}", layer.header, layer.last, layer.total);
    }
    Ok(())
}
