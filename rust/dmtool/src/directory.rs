//! `directory FILE`: the layers of a sheet as its directory lists them; a directory appended, taken off or checked.

use crate::arguments::{Action, Arguments};
use crate::asked::{file_of, Asked};
use crate::edit::{records_of, target};
use crate::explain;
use crate::failure::{output_failed, Done, FINE};
use crate::files::{self, as_read};
use crate::judge;
use crate::replace::Job;
use std::io::{self, Write};
use zvaigulta::layout::HEADER;
use zvaigulta::outline::{layers, Layer};
use zvaigulta::text::number_of;
use zvaigulta::{
    judge_either_edition, judge_sheet, sheet_before_directory, Edition, FileKind, Form, Reading, Sheet, RECORD_BYTES,
};

/// Shows the directory of a file, or does to it what an option says.
pub fn run(arguments: &Arguments, out: &mut impl Write) -> Done {
    match arguments.action {
        None => show(arguments, out),
        Some(Action::Check) => judge::run(arguments, out),
        Some(Action::Append) => append(arguments, out),
        Some(Action::Remove) => remove(arguments, out),
    }
}

/// Prints the judgement, and a line for each layer.
fn show(arguments: &Arguments, out: &mut impl Write) -> Done {
    let usage =
        "directory FILE [--append | --remove | --check] [--edition 1|2] [--lines | --plain] [--directory | --no-directory]";
    let [path] = arguments.exactly(usage)?;
    let bytes = files::read(path)?;
    files::whole(path, &bytes)?;
    let asked = Asked::of(arguments, path, &bytes);
    let counts = asked.reading.judge(&bytes).map_err(|refusal| explain::directory(&asked, refusal))?;
    let plain = asked.plain()?;
    let sheet = plain.get(..counts.records * RECORD_BYTES).unwrap_or(&plain);
    let line = as_read(asked.reading, &bytes, counts);
    let edition = asked.edition().or(arguments.edition).unwrap_or_default();
    let listing = Listing { edition, sheet, layers: layers(sheet) };
    let printed = writeln!(out, "{}: {line}", files::name(path)).and_then(|()| match FileKind::of(&plain) {
        FileKind::Index => writeln!(out, "an index has no layers, and so no directory"),
        FileKind::Sheet => listing.print(&asked, out),
    });
    printed.map(|()| FINE).map_err(output_failed)
}

/// The layers of a sheet as a directory of an edition lists them.
struct Listing<'a> {
    edition: Edition,
    sheet: &'a [u8],
    layers: Vec<Layer<'a>>,
}

impl Listing<'_> {
    /// What is to be known of the directory as a whole, and the layers.
    fn print(&self, asked: &Asked, out: &mut impl Write) -> io::Result<()> {
        if !asked.reading.directory {
            let option = if self.edition == Edition::First { "" } else { " --edition 2" };
            let command = files::with_name(&format!("'dmtool directory FILE --append{option}'"), asked.path);
            let span = span(self.edition, self.sheet, self.layers.len());
            writeln!(out, "it has no directory; {command} appends this one, {span}:")?;
        }
        if self.layers.is_empty() {
            return writeln!(out, "the sheet has no layer, and a directory of it lists none");
        }
        self.table(out)
    }

    /// A line for each layer: its number, the record of its header, what the edition lists beside that, its records, and what its header says of it.
    fn table(&self, out: &mut impl Write) -> io::Result<()> {
        let titles: &[&str] = match self.edition {
            Edition::First => &["layer", "header", "records", "items"],
            Edition::Second => &["layer", "header", "total", "last", "records"],
        };
        let titles = titles.iter().copied().chain(NAMING).map(str::to_string).collect();
        let rows: Vec<Vec<String>> = [titles].into_iter().chain(self.layers.iter().zip(1..).map(|l| self.row(l))).collect();
        let widest = |nth: usize| rows.iter().filter_map(|row| row.get(nth)).map(String::len).max().unwrap_or(0);
        let widths: Vec<usize> = (0..rows[0].len()).map(widest).collect();
        rows.iter().try_for_each(|row| {
            let cells: Vec<String> = row.iter().zip(&widths).map(|(cell, width)| format!("{cell:>width$}")).collect();
            writeln!(out, "{}", cells.join("  "))
        })
    }

    fn row(&self, (layer, number): (&Layer, usize)) -> Vec<String> {
        let header = layer.header.number;
        let counted = match self.edition {
            Edition::First => vec![number, header, layer.records, layer.items],
            Edition::Second => vec![number, header, layer.items, layer.last(), layer.records],
        };
        let named = NAMING.map(|name| column(layer.header.bytes, name));
        counted.iter().map(usize::to_string).chain(named).collect()
    }
}

/// The records of a directory of so many layers behind a sheet: `records 10 to 11`.
fn span(edition: Edition, sheet: &[u8], layers: usize) -> String {
    let (first, rows) = (sheet.len() / RECORD_BYTES + 1, edition.rows(layers));
    match rows {
        0 => format!("record {first}"),
        _ => format!("records {first} to {}", first + rows),
    }
}

/// The columns of a layer's header that name it.
const NAMING: [&str; 4] = ["class", "area code", "information", "number"];

/// A number of a layer's header.
fn column(header: &[u8], name: &str) -> String {
    HEADER.value(name, header).map_or("?".to_string(), |value| value.to_string())
}

/// What names a layer by its header, in words: `class 2100, area code 0, information 0, number 0`.
pub fn naming(header: &[u8]) -> String {
    NAMING.map(|name| format!("{name} {}", column(header, name))).join(", ")
}

/// Appends a directory to a sheet that has none. One of another edition than is asked for, if it is right, gives way to that.
fn append(arguments: &Arguments, out: &mut impl Write) -> Done {
    let usage = "directory FILE --append [--edition 1|2] [-o OTHER [--force]] [--no-lock] [--lines | --plain] [--directory | --no-directory]";
    let [path] = arguments.exactly(usage)?;
    let job = Job::open(arguments, path, target(arguments, path)?)?;
    files::whole(path, &job.bytes)?;
    let asked = Asked::of(arguments, path, &job.bytes);
    let sheet = asked.sheet()?;
    let (there, edition) = (asked.edition(), arguments.edition.or(asked.edition()).unwrap_or_default());
    if there == Some(edition) {
        let done = format!("it has a {} already, and it is right", files::directory_of(asked.layers(), there));
        return unchanged(job, &done, out);
    }
    let (form, plain) = (asked.reading.form, Sheet::from(sheet.to_vec()));
    let result = file_of(form, Some(edition), plain).map_err(|refusal| explain::appending(&asked, refusal))?;
    let layers = Reading { form, directory: true }.layers(&result).unwrap_or(0);
    let new = format!("a {}, {}", files::directory_of(Some(layers), Some(edition)), span(edition, &sheet, layers));
    let done = match there {
        None => format!("appended {new}"),
        Some(old) => format!("took off its directory of {old}, which was right, and appended {new}"),
    };
    job.deliver_and_say(&result, &as_read(form.into(), &result, done), out)
}

/// Takes the directory off a file, where it is sure what that is.
fn remove(arguments: &Arguments, out: &mut impl Write) -> Done {
    let [path] = arguments.exactly("directory FILE --remove [-o OTHER [--force]] [--no-lock] [--lines | --plain]")?;
    let job = Job::open(arguments, path, target(arguments, path)?)?;
    files::whole(path, &job.bytes)?;
    let asked = Asked::of(arguments, path, &job.bytes);
    let plain = asked.plain_or_cut()?;
    let sheet = sheet_before_directory(&plain).filter(|sheet| sheet.len() < plain.len());
    let sheet = match (sheet, asked.reading.judge(asked.bytes)) {
        (Some(sheet), _) => sheet,
        (None, Ok(_)) => return unchanged(job, "it has no directory", out),
        (None, Err(refusal)) => return Err(explain::directory(&asked, refusal)),
    };
    let result = asked.reading.form.file(sheet).map_err(|refusal| explain::file(&asked, refusal))?.into_owned();
    let done = as_read(asked.reading.form.into(), sheet, removed(&plain, sheet, asked.bytes.len() - result.len()));
    job.deliver_and_say(&result, &done, out)
}

/// What is taken off a file, so many bytes of it, in words.
fn removed(plain: &[u8], sheet: &[u8], off: usize) -> String {
    let wrong = judge_either_edition(plain, plain.len()).err().map_or(String::new(), |refusal| {
        let at = refusal.record.map_or(String::new(), |record| format!(" at record {record}"));
        format!(", which was refused {}{at}", refusal.number())
    });
    let taken = match plain.len() - sheet.len() {
        bytes if bytes.is_multiple_of(RECORD_BYTES) => records_of(bytes),
        _ => number_of(off as u64, "byte"),
    };
    let now = judge_sheet(sheet, sheet.len()).map_or_else(|refusal| refusal.to_string(), |counts| counts.to_string());
    // A text may read like the end of a directory.
    let read = if Reading::in_form(Form::Plain, sheet).directory { ", read with --no-directory" } else { "" };
    format!("removed its directory, {taken}{wrong}; now {now}{read}")
}

/// Says that there is nothing to do; a result that goes elsewhere is a copy.
fn unchanged(job: Job, done: &str, out: &mut impl Write) -> Done {
    let copy = job.bytes.clone();
    job.deliver_and_say(&copy, done, out)
}
