//! Japan's digital mapping files, judged, read and edited by a library that is proved against the build scope ("document 01").
//!
//! A file is bytes in a buffer: records of 84 bytes end to end, a sheet or an index. Every call answers every input, any bytes and
//! any number, and never panics; a refused call changes no buffer and says why by a [`Refusal`]. `used` is the length of the file in its
//! buffer, which may be longer; records number from 1.
//!
//! Files with line ends, carriage return and line feed behind each record, are judged by [`judge_sheet_lines`] and [`judge_index_lines`];
//! [`from_lines`] makes the plain file of one, which every other call takes, and [`to_lines`] goes back. [`Form`] tells which of the two
//! forms a file has.
//!
//! A sheet may have a directory of its layers behind its last record, of one of two editions: [`append_directory`] and [`append_second_edition`] write
//! it, [`judge_either_edition`] judges a sheet with it, and [`jump_either_edition`] finds a layer by it; [`judge_directory`] and [`jump`] read the first
//! [`Edition`] alone. Every other call takes the sheet without its directory, which [`Sheet::without_directory`] takes off.
//!
//! ```
//! // The example of document 01: five sheet records, one layer, one line of seven points.
//! let sheet = zvaigulta::EXAMPLE;
//! let counts = zvaigulta::judge_sheet(sheet, sheet.len())?;
//! assert_eq!((counts.records, counts.items), (9, 1));
//!
//! // The header's total is 2 where one element stands below it.
//! let mut damaged = sheet.to_vec();
//! zvaigulta::write_column(&mut damaged[5 * 84 + 18..5 * 84 + 23], 2)?;
//! let refusal = zvaigulta::judge_sheet(&damaged, damaged.len()).unwrap_err();
//! assert_eq!(refusal.to_string(), "refused 10 at record 6: a count differs from what the file holds");
//! # Ok::<(), zvaigulta::Refusal>(())
//! ```
//!
//! The archive of the library is linked from `crates/c_interface/out`; `rt lib` in `crates/c_interface` makes it.

#![deny(missing_docs)]
#![deny(unsafe_code)]

mod calls;
mod directory;
mod edition;
pub mod explain;
mod form;
mod kind;
pub mod layout;
mod line_ends;
pub mod outline;
mod raw;
mod reading;
mod refusal;
mod sheet;
pub mod text;
mod unit;

pub use calls::{
    append_directory, append_second_edition, from_lines, insert, join, judge_directory, judge_either_edition, judge_index,
    judge_index_lines, judge_sheet, judge_sheet_lines, jump, jump_either_edition, normal_index, normal_sheet, read_column,
    remove, report, split, to_lines, way_up, write_column, Corner, Counts, LayerEntry, WayUp,
};
pub use directory::{sheet_before_directory, LAYERS_TO_A_RECORD, MOST_DIRECTORY_RECORDS};
pub use edition::Edition;
pub use form::{Form, LINE_END};
pub use kind::FileKind;
pub use line_ends::Mended;
pub use reading::Reading;
pub use refusal::{Reason, Refusal};
pub use sheet::{Item, Sheet};
pub use unit::Unit;

/// Bytes of a record.
pub const RECORD_BYTES: usize = 84;

/// Bytes of a record with its line end.
pub const LINE_RECORD_BYTES: usize = RECORD_BYTES + LINE_END.len();

/// The most records that a file may have.
pub const MOST_RECORDS: usize = 200_000;

/// A small sheet that is accepted, the example of document 01: five sheet records, one layer, one line of seven points.
pub const EXAMPLE: &[u8; 9 * RECORD_BYTES] = b"\
M 09LD1234Example sheet         500Town plan                      010               \
\x20 -1234   5678   -934   5978        1      4  1   -934   5678  -1234   5978         \
\x20                                                                                   \
2408240700Plotter                       Approval 1                    100           \
Survey office                            -56  50   0   0   0  50 -56   0            \
H 2100 0   0   0 1    1    0    0    1    0    0    0    0    0    002408         0 \
E22101 0   0   1 2 02210 00   7   2      0      0        0       2408              1\
\x20     0      0   1000      0   2000   -500   3000      0   4000      0   5000      0\
\x20  6000      0unused text is not judged                                             ";
