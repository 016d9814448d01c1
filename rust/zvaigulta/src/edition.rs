//! The editions of a directory of layers, and what each has of its own.

use crate::layout::{Layout, DIRECTORY, DIRECTORY_END, SECOND_DIRECTORY, SECOND_DIRECTORY_END};
use crate::{append_directory, append_second_edition, Refusal, MOST_RECORDS};
use std::fmt;

/// The least records of a sheet part: a, b, c, d and e.
const LEAST_PART: usize = 5;

/// The edition of a directory of layers.
///
/// ```
/// use zvaigulta::Edition;
///
/// assert_eq!((Edition::First.number(), Edition::First.layers_to_a_record()), (1, 11));
/// assert_eq!((Edition::Second.to_string(), Edition::Second.layers_to_a_record()), ("edition 2".to_string(), 3));
/// ```
#[derive(Clone, Copy, Debug, Default, PartialEq, Eq, Hash)]
pub enum Edition {
    /// Edition 1, records `Z ` and `ZE`: the header of each layer.
    #[default]
    First,
    /// Edition 2, records `Y ` and `YE`: header, item total and last record of each layer.
    Second,
}

impl Edition {
    /// Both, in order.
    pub const ALL: [Edition; 2] = [Edition::First, Edition::Second];

    /// Its number.
    pub const fn number(self) -> usize {
        match self {
            Edition::First => 1,
            Edition::Second => 2,
        }
    }

    /// So many layers are listed in one record.
    pub const fn layers_to_a_record(self) -> usize {
        match self {
            Edition::First => 11,
            Edition::Second => 3,
        }
    }

    /// The most records of a directory: of a sheet of 200,000 records that has a sheet part and layer headers alone.
    pub const fn most_records(self) -> usize {
        self.rows(MOST_RECORDS - LEAST_PART) + 1
    }

    /// How many records list so many layers; one more closes the directory.
    ///
    /// ```
    /// use zvaigulta::Edition;
    ///
    /// assert_eq!([0, 3, 4, 6, 7].map(|layers| Edition::Second.rows(layers)), [0, 1, 2, 2, 3]);
    /// ```
    pub const fn rows(self, layers: usize) -> usize {
        layers.div_ceil(self.layers_to_a_record())
    }

    /// Appends a directory of this edition to a sheet, the first `used` bytes of the buffer; answers the new used length.
    ///
    /// # Errors
    /// Those of [`append_directory`] and [`append_second_edition`], 1 to 10 and 15.
    pub fn append(self, buffer: &mut [u8], used: usize) -> Result<usize, Refusal> {
        match self {
            Edition::First => append_directory(buffer, used),
            Edition::Second => append_second_edition(buffer, used),
        }
    }

    /// How many numbers are listed of a layer.
    pub(crate) fn numbers_of_a_layer(self) -> usize {
        match self {
            Edition::First => 1,
            Edition::Second => 3,
        }
    }

    /// The letters of a record that lists layers.
    pub(crate) fn letters(self) -> &'static [u8] {
        match self {
            Edition::First => b"Z ",
            Edition::Second => b"Y ",
        }
    }

    /// The letters of the last record.
    pub(crate) fn end_letters(self) -> &'static [u8] {
        match self {
            Edition::First => b"ZE",
            Edition::Second => b"YE",
        }
    }

    /// The layout of a record that lists layers.
    pub(crate) fn layout(self) -> &'static Layout {
        match self {
            Edition::First => &DIRECTORY,
            Edition::Second => &SECOND_DIRECTORY,
        }
    }

    /// The layout of the last record.
    pub(crate) fn end_layout(self) -> &'static Layout {
        match self {
            Edition::First => &DIRECTORY_END,
            Edition::Second => &SECOND_DIRECTORY_END,
        }
    }

    /// By the letters of a record that lists layers.
    pub(crate) fn of_row(record: &[u8]) -> Option<Edition> {
        Edition::ALL.into_iter().find(|edition| record.starts_with(edition.letters()))
    }

    /// By the letters of a last record.
    pub(crate) fn of_end(record: &[u8]) -> Option<Edition> {
        Edition::ALL.into_iter().find(|edition| record.starts_with(edition.end_letters()))
    }
}

/// In words: `edition 2`.
impl fmt::Display for Edition {
    fn fmt(&self, f: &mut fmt::Formatter<'_>) -> fmt::Result {
        write!(f, "edition {}", self.number())
    }
}
