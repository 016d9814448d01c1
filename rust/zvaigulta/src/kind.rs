//! Which of the two files a buffer holds.

use crate::{judge_index, judge_index_lines, judge_sheet, judge_sheet_lines, normal_index, normal_sheet, Counts, Form, Refusal};
use std::fmt;

/// A sheet file or an index file.
///
/// ```
/// use zvaigulta::{FileKind, EXAMPLE};
///
/// let kind = FileKind::of(EXAMPLE);
/// assert_eq!(kind, FileKind::Sheet);
/// assert_eq!(kind.judge(EXAMPLE, EXAMPLE.len())?.items, 1);
/// assert_eq!(FileKind::of(b"I  9"), FileKind::Index);
/// # Ok::<(), zvaigulta::Refusal>(())
/// ```
#[derive(Clone, Copy, Debug, PartialEq, Eq, Hash)]
pub enum FileKind {
    /// A sheet.
    Sheet,
    /// An index.
    Index,
}

impl FileKind {
    /// As the program of document 01 takes its input: an index if it starts `I `, else a sheet.
    pub fn of(bytes: &[u8]) -> FileKind {
        if bytes.starts_with(b"I ") {
            FileKind::Index
        } else {
            FileKind::Sheet
        }
    }

    /// [`judge_sheet`] or [`judge_index`].
    ///
    /// # Errors
    /// Theirs.
    pub fn judge(self, buffer: &[u8], used: usize) -> Result<Counts, Refusal> {
        match self {
            FileKind::Sheet => judge_sheet(buffer, used),
            FileKind::Index => judge_index(buffer, used),
        }
    }

    /// The same in a form: also [`judge_sheet_lines`] or [`judge_index_lines`].
    ///
    /// # Errors
    /// Theirs.
    ///
    /// ```
    /// use zvaigulta::{FileKind, Form};
    ///
    /// let index = b"I  9City survey office              0 0   0002008Regulation                    10   \r\n";
    /// let (kind, form) = (FileKind::of(index), Form::of(index));
    /// assert_eq!(kind.judge_in(form, index, index.len())?.records, 1);
    /// # Ok::<(), zvaigulta::Refusal>(())
    /// ```
    pub fn judge_in(self, form: Form, buffer: &[u8], used: usize) -> Result<Counts, Refusal> {
        match (form, self) {
            (Form::Plain, kind) => kind.judge(buffer, used),
            (Form::Lines, FileKind::Sheet) => judge_sheet_lines(buffer, used),
            (Form::Lines, FileKind::Index) => judge_index_lines(buffer, used),
        }
    }

    /// [`normal_sheet`] or [`normal_index`].
    ///
    /// # Errors
    /// Theirs.
    pub fn normal(self, buffer: &[u8], used: usize, second: &mut [u8]) -> Result<usize, Refusal> {
        match self {
            FileKind::Sheet => normal_sheet(buffer, used, second),
            FileKind::Index => normal_index(buffer, used, second),
        }
    }
}

/// `sheet` or `index`.
impl fmt::Display for FileKind {
    fn fmt(&self, f: &mut fmt::Formatter<'_>) -> fmt::Result {
        f.write_str(match self {
            FileKind::Sheet => "sheet",
            FileKind::Index => "index",
        })
    }
}
