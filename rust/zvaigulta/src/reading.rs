//! How a file is read: the form of its records, and whether a directory of layers, of either edition, stands behind the sheet.

use crate::outline::Outline;
use crate::{directory, judge_either_edition, Counts, Edition, FileKind, Form, Refusal};

/// How a file is read.
///
/// ```
/// use zvaigulta::{Edition, Form, Reading, Sheet, EXAMPLE};
///
/// for edition in Edition::ALL {
///     let file = Sheet::from(EXAMPLE.to_vec()).with_edition(edition)?;
///     let reading = Reading::of(&file);
///     assert_eq!((reading.form, reading.directory), (Form::Plain, true));
///     assert_eq!(reading.judge(&file)?.to_string(), "accepted 9 records 1 items");
///     assert_eq!((reading.layers(&file), reading.edition(&file)), (Some(1), Some(edition)));
/// }
/// assert!(!Reading::of(EXAMPLE).directory);
/// # Ok::<(), zvaigulta::Refusal>(())
/// ```
#[derive(Clone, Copy, Debug, PartialEq, Eq, Hash)]
pub struct Reading {
    /// The form of its records.
    pub form: Form,
    /// Whether a directory of layers stands behind its sheet.
    pub directory: bool,
}

impl Reading {
    /// As a file, or a block, seems to be: in the form that [`Form::of`] tells; with a directory as [`Reading::in_form`] tells.
    pub fn of(bytes: &[u8]) -> Reading {
        Reading::in_form(Form::of(bytes), bytes)
    }

    /// The same in a form that is known: with a directory where the last record of a sheet starts `ZE` or `YE`, unless that record is due as data of the
    /// last item and not of a directory's form (pointer and layer count in written form, of `YE` a number or spaces behind them, the rest spaces): then it
    /// is text. An index has no directory.
    pub fn in_form(form: Form, bytes: &[u8]) -> Reading {
        Reading { form, directory: directory::is_behind(form, bytes) }
    }

    /// Judges a whole file, an index if it starts `I `. With a directory the answer is that of [`judge_either_edition`] for the plain
    /// twin.
    ///
    /// # Errors
    /// 1 and 18 of the form; then those of the plain twin, 1 to 10; with a directory also 19 and 27.
    pub fn judge(self, bytes: &[u8]) -> Result<Counts, Refusal> {
        match self.directory {
            false => FileKind::of(bytes).judge_in(self.form, bytes, bytes.len()),
            true => {
                let plain = self.form.plain(bytes)?;
                judge_either_edition(&plain, plain.len())
            }
        }
    }

    /// How many layers the directory of an accepted file lists; none where it is read without one.
    pub fn layers(self, bytes: &[u8]) -> Option<usize> {
        let end = directory::last_record(self.form, bytes).filter(|_| self.directory)?;
        let layout = Edition::of_end(end).unwrap_or_default().end_layout();
        layout.value("layers", end).and_then(|layers| usize::try_from(layers).ok())
    }

    /// The edition in which the directory of a file is judged: the second where the last record starts `YE`, else the first; none where the file is read
    /// without one.
    pub fn edition(self, bytes: &[u8]) -> Option<Edition> {
        let end = || directory::last_record(self.form, bytes).and_then(Edition::of_end);
        self.directory.then(|| end().unwrap_or_default())
    }

    /// The records of a file without their line ends, each with what it is; those of its directory too, where it is read with one.
    pub fn outline(self, records: &[u8]) -> Outline<'_> {
        match self.directory {
            false => Outline::of(records),
            true => Outline::with_directory(records),
        }
    }
}

impl From<Form> for Reading {
    /// Without a directory.
    fn from(form: Form) -> Reading {
        Reading { form, directory: false }
    }
}
