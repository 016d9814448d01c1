//! `dmtool`: judges, explains, shows and edits digital mapping files by the proved library. docs/TOOL.md shows each subcommand.

#![deny(unsafe_code)]

mod arguments;
mod asked;
mod batch;
mod beside;
mod closed;
mod convert;
mod directory;
mod edit;
mod explain;
mod failure;
mod files;
mod held;
mod help;
mod judge;
mod jump;
mod lock;
mod normal;
mod owner;
mod progress;
mod replace;
mod show;
mod system;
mod up;
mod words;

use arguments::{Arguments, Taken};
use closed::Standard;
use failure::{complain, output_failed, Done, Failure};
use std::ffi::OsString;
use std::io::{self, BufWriter, Write};
use std::process::ExitCode;

/// Runs a subcommand on its words.
fn run(name: &str, words: &[OsString], out: &mut impl Write) -> Done {
    let Some(text) = help::of(name) else {
        return Err(Failure::Usage(format!("there is no subcommand '{name}'")));
    };
    let taken = Taken {
        output: ["insert", "remove", "normal", "convert", "directory"].contains(&name),
        form: name != "batch",
        directory: ["judge", "explain", "show", "insert", "remove", "up", "normal", "directory"].contains(&name),
        convert: name == "convert",
        action: name == "directory",
    };
    let arguments = Arguments::parse(words, taken)?;
    if arguments.help {
        return help::print(text, out);
    }
    match name {
        "judge" => judge::run(&arguments, out),
        "explain" => explain::run(&arguments, out),
        "show" => show::run(&arguments, out),
        "insert" => edit::insert(&arguments, out),
        "remove" => edit::remove(&arguments, out),
        "up" => up::run(&arguments, out),
        "normal" => normal::run(&arguments, out),
        "convert" => convert::run(&arguments, out),
        "directory" => directory::run(&arguments, out),
        "jump" => jump::run(&arguments, out),
        _ => closed::refuse(Standard::Input).and_then(|()| batch::run(&arguments, &mut io::stdin().lock(), out)),
    }
}

/// Runs the tool on its words: the subcommand, or what is asked of the tool itself.
fn start(words: &[OsString], out: &mut impl Write) -> Done {
    let Some((first, rest)) = words.split_first() else {
        return Err(Failure::Usage("a subcommand is missing".to_string()));
    };
    match first.to_string_lossy().as_ref() {
        "--help" | "-h" | "help" => {
            let text = rest.first().and_then(|name| help::of(&name.to_string_lossy()));
            help::print(text.unwrap_or(help::OVERVIEW), out)
        }
        "--version" | "-V" => help::print(concat!("dmtool ", env!("CARGO_PKG_VERSION"), "\n"), out),
        name => run(name, rest, out),
    }
}

fn main() -> ExitCode {
    let words: Vec<OsString> = std::env::args_os().skip(1).collect();
    let mut out = BufWriter::with_capacity(1 << 16, io::stdout().lock());
    let done = closed::refuse(Standard::Output).and_then(|()| start(&words, &mut out));
    let done = done.and_then(|status| out.flush().map(|()| status).map_err(output_failed));
    // What is still in the buffer after a failure is not written: the answer would be half an answer.
    let (_out, _unwritten) = out.into_parts();
    match done {
        Ok(status) => ExitCode::from(status),
        Err(failure) => {
            if let Some(text) = failure.text() {
                complain(&text);
            }
            ExitCode::from(failure.status())
        }
    }
}
