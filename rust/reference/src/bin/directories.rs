//! `directories make SEED` writes cases for the program `directory_vectors`, `directories answer` reads such cases and writes what the program has to
//! print.

use reference::vectors::directories;
use std::io::{self, Read, Write};

fn main() -> io::Result<()> {
    let words: Vec<String> = std::env::args().skip(1).collect();
    let words: Vec<&str> = words.iter().map(String::as_str).collect();
    match words[..] {
        ["make", seed] => io::stdout().write_all(&directories::make(seed.parse().expect("a seed"))),
        ["answer"] => {
            let mut bytes = Vec::new();
            io::stdin().read_to_end(&mut bytes)?;
            io::stdout().write_all(&directories::answer(&bytes))
        }
        _ => {
            eprintln!("usage: directories make SEED | directories answer");
            std::process::exit(2);
        }
    }
}
