//! Every public call of the proved library against the reference: answers, and every byte of every lent buffer afterwards.
//!
//! An [`Area`] draws so many cases from a seed and stops at the first difference, which names the case as a line of the batch protocol, so that it
//! can be repeated by `dmtool batch` and by the reference's `oracle`. The tests run some tens of thousands of cases, `differential CASES` millions.

mod bytes;
mod columns;
mod directories;
mod edits;
mod files;
mod lines;
mod numbers;

pub use bytes::{
    every_byte_of_a_directory, every_byte_of_a_sheet, every_byte_of_an_index, every_byte_of_lines,
    every_byte_of_the_second_edition, every_edition, every_line_end, every_pointer, every_pointer_of_the_second_edition,
};
pub use columns::{every_byte_of_a_column, every_short_column};
pub use directories::{Calls, NEW_CALLS, OLD_CALLS};

use reference::random::Random;
use reference::Refusal;
use std::collections::BTreeMap;
use std::fmt::Debug;

/// How often each answer came: 0 for accepted, else the refusal's number.
#[derive(Debug, Default)]
pub struct Answers(pub BTreeMap<u8, usize>);

impl Answers {
    /// Whether each of these numbers came.
    pub fn have(&self, numbers: &[u8]) -> bool {
        numbers.iter().all(|n| self.0.contains_key(n))
    }

    /// Counts an answer that both gave, or says how they differ. `line` makes the batch protocol's line of the case.
    fn same<T: PartialEq + Debug>(
        &mut self,
        line: impl FnOnce() -> String,
        proved: Result<T, zvaigulta::Refusal>,
        reference: Result<T, Refusal>,
    ) -> Result<(), String> {
        // A number that the reference cannot have becomes 255, which equals none of its own.
        let proved =
            proved.map_err(|e| Refusal { number: u8::try_from(e.number()).unwrap_or(u8::MAX), record: e.record.unwrap_or(0) });
        if proved != reference {
            return Err(format!("proved {proved:?}, reference {reference:?}: {}", line()));
        }
        *self.0.entry(reference.map_or_else(|e| e.number, |_| 0)).or_default() += 1;
        Ok(())
    }
}

/// A call or a family of calls, and how its cases are drawn.
pub struct Area {
    pub name: &'static str,
    /// Draws so many cases.
    pub run: fn(&mut Random, usize, &mut Answers) -> Result<(), String>,
    /// The answers that must be among them.
    pub answers: &'static [u8],
}

/// All areas: every public call is in one.
pub const AREAS: [Area; 21] = [
    Area { name: "reading columns", run: numbers::reading, answers: &[0, 5, 16] },
    Area { name: "writing columns", run: numbers::writing, answers: &[0, 16] },
    Area { name: "joining corners", run: numbers::joining, answers: &[0, 9, 16] },
    Area { name: "splitting corners", run: numbers::splitting, answers: &[0, 16] },
    Area { name: "judging sheets", run: files::sheets, answers: &[0, 1, 2, 3, 4, 5, 6, 7, 8, 9, 10] },
    Area { name: "judging indexes", run: files::indexes, answers: &[0, 1, 2, 3, 5, 6, 10] },
    Area { name: "normal forms", run: files::normal_forms, answers: &[0, 1, 3, 5, 10, 15] },
    Area { name: "ways up", run: files::ways_up, answers: &[0, 1, 5, 10, 17] },
    Area { name: "the program's line", run: files::reports, answers: &[0, 15] },
    Area { name: "sheets with line ends", run: lines::sheets, answers: &[0, 1, 2, 3, 4, 5, 6, 7, 8, 9, 10, 18] },
    Area { name: "indexes with line ends", run: lines::indexes, answers: &[0, 1, 2, 3, 5, 6, 10, 18] },
    Area { name: "writing line ends", run: lines::to_lines, answers: &[0, 1, 15] },
    Area { name: "taking line ends off", run: lines::from_lines, answers: &[0, 1, 15, 18] },
    Area { name: "judging with directory", run: directories::judging, answers: &[0, 1, 2, 3, 4, 5, 6, 7, 8, 9, 10, 19] },
    Area { name: "appending a directory", run: directories::appending, answers: &[0, 1, 2, 3, 4, 5, 6, 7, 8, 9, 10, 15] },
    Area { name: "jumping by a directory", run: directories::jumping, answers: &[0, 1, 2, 3, 4, 5, 6, 7, 8, 9, 10, 17, 19] },
    Area { name: "old calls, second edition", run: directories::old_calls_on_the_second, answers: &[1, 4, 19] },
    Area {
        name: "judging either edition",
        run: directories::judging_either,
        answers: &[0, 1, 2, 3, 4, 5, 6, 7, 8, 9, 10, 19, 27],
    },
    Area {
        name: "appending the second edition",
        run: directories::appending_the_second,
        answers: &[0, 1, 2, 3, 4, 5, 6, 7, 8, 9, 10, 15],
    },
    Area {
        name: "jumping in either edition",
        run: directories::jumping_in_either,
        answers: &[0, 1, 2, 3, 4, 5, 6, 7, 8, 9, 10, 17, 19, 27],
    },
    Area { name: "lists of edits", run: edits::lists, answers: &[0, 1, 10, 11, 12, 13, 14, 15] },
];
