//! Makes commands of the batch protocol from a seed: `generate leaves SEED COUNT` on columns and corners, `generate lines SEED COUNT` on files with
//! line ends, `generate directories SEED COUNT` on sheets with a directory of the first edition, `generate editions SEED COUNT` with one of either.

use reference::vectors::leaves;
use reference::{directory_calls, line_calls};
use std::io::{self, Write};

fn main() -> io::Result<()> {
    let words: Vec<String> = std::env::args().skip(1).collect();
    let words: Vec<&str> = words.iter().map(String::as_str).collect();
    match words[..] {
        ["leaves", seed, count] => {
            io::stdout().write_all(&leaves::make(seed.parse().expect("a seed"), count.parse().expect("a count")))
        }
        ["lines", seed, count] => {
            io::stdout().write_all(&line_calls::commands(seed.parse().expect("a seed"), count.parse().expect("a count")))
        }
        ["directories", seed, count] => {
            io::stdout().write_all(&directory_calls::commands(seed.parse().expect("a seed"), count.parse().expect("a count")))
        }
        ["editions", seed, count] => io::stdout()
            .write_all(&directory_calls::commands_of_both(seed.parse().expect("a seed"), count.parse().expect("a count"))),
        _ => {
            eprintln!("usage: generate leaves|lines|directories|editions SEED COUNT");
            std::process::exit(2);
        }
    }
}
