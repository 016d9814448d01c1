//! `differential [CASES [SEED [WORDS]]]`: every area with so many cases (a million if not said), from a seed, and every byte of small files and of
//! columns, every line end, every pointer and every edition of a directory; with words, only what has them in its name, as `differential 1000000 7
//! "line end"`. Ends with status 1 and the case at the first difference.

use differential::{
    every_byte_of_a_column, every_byte_of_a_directory, every_byte_of_a_sheet, every_byte_of_an_index, every_byte_of_lines,
    every_byte_of_the_second_edition, every_edition, every_line_end, every_pointer, every_pointer_of_the_second_edition,
    every_short_column, Answers, AREAS,
};
use reference::random::Random;
use std::process::exit;
use std::time::Instant;

/// Tries every byte of what a seed gives.
type Run = fn(u64) -> Result<Answers, String>;

const EVERY_BYTE: [(&str, Run); 11] = [
    ("every short column", |_| every_short_column()),
    ("every byte of a column", every_byte_of_a_column),
    ("every byte of a sheet", every_byte_of_a_sheet),
    ("every byte of an index", every_byte_of_an_index),
    ("every byte with line ends", every_byte_of_lines),
    ("every line end", every_line_end),
    ("every byte of a directory", every_byte_of_a_directory),
    ("every pointer of a directory", every_pointer),
    ("every byte of edition 2", every_byte_of_the_second_edition),
    ("every pointer of edition 2", every_pointer_of_the_second_edition),
    ("every edition column", every_edition),
];

fn report(name: &str, start: Instant, found: Result<Answers, String>) {
    match found {
        Ok(answers) => {
            let cases: usize = answers.0.values().sum();
            println!(
                "{name:<28} {cases:>10} cases, no difference, {:>6.1} s; answers {:?}",
                start.elapsed().as_secs_f64(),
                answers.0
            );
        }
        Err(difference) => {
            println!("{name}: {difference}");
            exit(1);
        }
    }
}

fn number(word: Option<String>, default: u64) -> u64 {
    let Some(word) = word else {
        return default;
    };
    word.parse().unwrap_or_else(|_| {
        eprintln!("not a number: {word}\nusage: differential [CASES [SEED [WORDS]]]");
        exit(2)
    })
}

/// So many cases of each area whose name has these words; answers how many areas.
fn random_cases(cases: usize, seed: u64, words: &str) -> usize {
    let named: Vec<_> = AREAS.iter().filter(|area| area.name.contains(words)).collect();
    for area in &named {
        let start = Instant::now();
        let mut answers = Answers::default();
        let done = (area.run)(&mut Random(seed), cases, &mut answers);
        report(area.name, start, done.map(|()| answers));
    }
    named.len()
}

/// What is tried byte by byte, where its name has these words; answers how many of them.
fn every_byte(seed: u64, words: &str) -> usize {
    let named: Vec<_> = EVERY_BYTE.iter().filter(|(name, _)| name.contains(words)).collect();
    for (name, run) in &named {
        let start = Instant::now();
        report(name, start, run(seed));
    }
    named.len()
}

fn main() {
    let mut words = std::env::args().skip(1);
    let cases = number(words.next(), 1_000_000);
    let seed = number(words.next(), 1);
    let words = words.next().unwrap_or_default();
    if random_cases(cases as usize, seed, &words) + every_byte(seed, &words) == 0 {
        eprintln!("nothing has these words in its name: {words}");
        exit(2);
    }
}
