//! A file as it was read: how, its records, its sheet without the directory behind it, and the file that an edited sheet makes.

use crate::arguments::Arguments;
use crate::explain;
use crate::failure::Failure;
use std::borrow::Cow;
use std::ffi::OsStr;
use zvaigulta::{judge_either_edition, Edition, Form, Reading, Refusal, Sheet, RECORD_BYTES};

/// A file that was read, and how.
pub struct Asked<'a> {
    pub path: &'a OsStr,
    pub reading: Reading,
    pub bytes: &'a [u8],
}

impl<'a> Asked<'a> {
    /// Read as the options say, else as it is recognised.
    pub fn of(arguments: &Arguments, path: &'a OsStr, bytes: &'a [u8]) -> Asked<'a> {
        Asked { path, reading: arguments.reading_of(bytes), bytes }
    }

    /// Its records without their line ends, where they all have one.
    pub fn plain(&self) -> Result<Cow<'a, [u8]>, Failure> {
        self.reading.form.plain(self.bytes).map_err(|refusal| explain::file(self, refusal))
    }

    /// The same with what is left of a last record that is cut off.
    pub fn plain_or_cut(&self) -> Result<Cow<'a, [u8]>, Failure> {
        let (form, left) = (self.reading.form, self.bytes.len() % self.reading.form.record_bytes());
        let whole = self.bytes.get(..self.bytes.len() - left).unwrap_or(self.bytes);
        match form.plain(whole) {
            Ok(_) if (1..RECORD_BYTES).contains(&left) => Ok(form.records(self.bytes)),
            _ => self.plain(),
        }
    }

    /// Its records without those of its directory, where that is right. What is edited is the sheet before a directory, and nothing of it is lost where
    /// the directory is made anew.
    pub fn sheet(&self) -> Result<Cow<'a, [u8]>, Failure> {
        let plain = self.plain()?;
        if !self.reading.directory {
            return Ok(plain);
        }
        let counts = judge_either_edition(&plain, plain.len()).map_err(|refusal| explain::directory(self, refusal))?;
        let length = counts.records * RECORD_BYTES;
        Ok(match plain {
            Cow::Borrowed(file) => Cow::Borrowed(file.get(..length).unwrap_or(file)),
            Cow::Owned(mut file) => {
                file.truncate(length);
                Cow::Owned(file)
            }
        })
    }

    /// How many layers its directory lists, if it was read with one.
    pub fn layers(&self) -> Option<usize> {
        self.reading.layers(self.bytes)
    }

    /// The edition of its directory, if it was read with one.
    pub fn edition(&self) -> Option<Edition> {
        self.reading.edition(self.bytes)
    }
}

/// The file of a sheet in a form: with the directory that it has then, of an edition, where it is to have one.
pub fn file_of(form: Form, edition: Option<Edition>, sheet: Sheet) -> Result<Vec<u8>, Refusal> {
    let plain = match edition {
        Some(edition) => sheet.with_edition(edition)?,
        None => sheet.into_bytes(),
    };
    match form.file(&plain)? {
        Cow::Owned(file) => Ok(file),
        Cow::Borrowed(_) => Ok(plain),
    }
}
