//! `edits make SEED` writes lists for the program `edit_vectors`, `edits answer` reads such lists and writes what the program has to print.

use reference::vectors::edits;
use std::io::{self, Read, Write};

fn main() -> io::Result<()> {
    let words: Vec<String> = std::env::args().skip(1).collect();
    let words: Vec<&str> = words.iter().map(String::as_str).collect();
    match words[..] {
        ["make", seed] => io::stdout().write_all(&edits::make(seed.parse().expect("a seed"))),
        ["answer"] => {
            let mut bytes = Vec::new();
            io::stdin().read_to_end(&mut bytes)?;
            io::stdout().write_all(&edits::answer(&bytes))
        }
        _ => {
            eprintln!("usage: edits make SEED | edits answer");
            std::process::exit(2);
        }
    }
}
