//! `convert FILE --to lines|plain`: the same records in the other form.

use crate::arguments::Arguments;
use crate::asked::Asked;
use crate::edit::target;
use crate::explain;
use crate::failure::{Done, Failure};
use crate::files;
use crate::replace::Job;
use std::borrow::Cow;
use std::io::Write;
use zvaigulta::text::number_of;
use zvaigulta::{to_lines, Form, Mended, Reading, Refusal, MOST_RECORDS, RECORD_BYTES};

/// Writes the file's records in the form behind `--to`, over the file or where `-o` leads.
pub fn run(arguments: &Arguments, out: &mut impl Write) -> Done {
    let usage = "convert FILE --to lines|plain [--mend] [-o OTHER [--force]] [--no-lock] [--lines | --plain]";
    let [path] = arguments.exactly(usage)?;
    let form = arguments.to.ok_or_else(|| Failure::Usage("convert needs --to lines or --to plain".to_string()))?;
    let to = target(arguments, path)?;
    let job = Job::open(arguments, path, to)?;
    let asked = Asked::of(arguments, path, &job.bytes);
    let mend = arguments.mend && files::is_whole(&job.bytes);
    let mended = if mend { Mended::of(&job.bytes) } else { None };
    let done = said(&asked, form, mended.as_ref());
    let plain = mended.map_or_else(|| asked.plain(), |mended| Ok(mended.plain.into()))?;
    // Also where the result is to be plain: a length that is refused by 1 is no file of either form.
    let lines = with_line_ends(&plain).map_err(|refusal| explain::file(&asked, refusal))?;
    let result = match form {
        Form::Lines => lines.into_owned(),
        Form::Plain => {
            drop(lines);
            plain.into_owned()
        }
    };
    job.deliver_and_say(&result, &done, out)
}

/// Records with line ends. More than 200,000 are taken only where a directory stands behind them: the library's own writer refuses the others.
fn with_line_ends(plain: &[u8]) -> Result<Cow<'_, [u8]>, Refusal> {
    if plain.len() > MOST_RECORDS * RECORD_BYTES && !Reading::in_form(Form::Plain, plain).directory {
        to_lines(plain, plain.len(), &mut [])?;
    }
    Form::Lines.file(plain)
}

/// What is done, in words.
fn said(asked: &Asked, form: Form, mended: Option<&Mended>) -> String {
    let records = |bytes: usize| number_of((bytes / RECORD_BYTES) as u64, "record");
    let stated = number_of((asked.bytes.len() / asked.reading.form.record_bytes()) as u64, "record");
    match mended {
        Some(mended) => {
            let places = number_of(mended.places as u64, "place");
            format!("mended its line ends at {places}, {}, now {}", records(mended.plain.len()), named(form))
        }
        None if asked.reading.form == form => format!("{stated}, {} already", named(form)),
        None => format!("converted {stated}, now {}", named(form)),
    }
}

/// A form as a file has it.
fn named(form: Form) -> &'static str {
    match form {
        Form::Lines => "with line ends",
        Form::Plain => "plain",
    }
}
