//! The columns of a directory's records against what they should hold, in its edition.

use super::{letters, signs};
use crate::directory::{is_written, written};
use crate::explain::{fault, own, Fault};
use crate::layout::{Column, Layout, HEADER};
use crate::outline::{directory_record, natural, DirectoryRecord, Layer};
use crate::text::{number_of, quoted};
use crate::{read_column, Edition};

/// What the last record of a directory should state.
pub struct Counts {
    /// The edition of the directory.
    pub edition: Edition,
    /// The number of the directory's first record.
    pub pointer: usize,
    /// The layers that it lists.
    pub layers: usize,
}

impl Counts {
    /// The number of the directory's last record.
    pub fn end(&self) -> usize {
        self.pointer + self.edition.rows(self.layers)
    }

    fn layers(&self) -> String {
        number_of(self.layers as u64, "layer")
    }
}

/// The layers that a record should list.
pub struct Listed<'a> {
    /// The edition of the directory.
    pub edition: Edition,
    pub own: &'a [Layer<'a>],
    /// The number of the first of them.
    pub first: usize,
    /// What a record of the sheet is, in words.
    pub what: &'a dyn Fn(i64) -> String,
}

/// The columns of an edition's records that list layers.
fn listing(edition: Edition) -> &'static [Column] {
    let numbers = edition.layers_to_a_record() * edition.numbers_of_a_layer();
    edition.layout().columns.get(1..1 + numbers).unwrap_or(&[])
}

/// The numbers of a record that lists layers, those of a layer together, as far as they can be made out.
pub fn entries(edition: Edition, row: &[u8]) -> Vec<Vec<Option<i64>>> {
    let values = |columns: &[Column]| columns.iter().map(|column| signs::readable(column.bytes(row))).collect();
    listing(edition).chunks(edition.numbers_of_a_layer()).map(values).collect()
}

/// How many headers of a record that lists layers cannot be made out: digits stand there, but no number. Text is no header.
pub fn unreadable(edition: Edition, row: &[u8]) -> usize {
    let headers = listing(edition).iter().step_by(edition.numbers_of_a_layer()).map(|column| column.bytes(row));
    headers.filter(|header| header.iter().any(u8::is_ascii_digit) && signs::readable(header).is_none()).count()
}

/// What is wrong with a number column, if anything: a number is due, and what that is, or any number.
fn wrong(column: &[u8], due: Option<(usize, &str)>) -> Option<String> {
    let must = due.map_or(String::new(), |(number, what)| format!(", must be {number}: {what}"));
    match read_column(column) {
        Ok(value) if due.is_some_and(|(number, _)| value != number as i64) => Some(format!("is {value}{must}")),
        Ok(_) if is_written(column) => None,
        Ok(value) => {
            let right = quoted(&written(value, column.len()).unwrap_or_default());
            Some(format!("is {value}, but with leading zeros: must be {right}"))
        }
        Err(_) if column.iter().all(|byte| *byte == b' ') => Some(format!("is empty{must}")),
        Err(_) => Some(format!("malformed: {}{must}", own::form(column))),
    }
}

/// What stands behind the numbers.
fn used_rest(number: usize, layout: &Layout, bytes: &[u8]) -> Option<Fault> {
    let column = layout.column("rest")?;
    let used = column.bytes(bytes).iter().position(|byte| *byte != b' ')?;
    Some(fault(number, column.name, format!("byte {} is used, must be a space", column.start + used + 1)))
}

/// A record that should list some layers; the last of the file or not.
pub fn row(number: usize, bytes: &[u8], last: bool, listed: &Listed) -> Vec<Fault> {
    let (edition, due) = (listed.edition, quoted(listed.edition.letters()));
    let words = match (Edition::of_row(bytes) == Some(edition), last) {
        (false, _) => Some(format!("is {}, must be {due}", letters(bytes))),
        (true, true) => {
            let end = quoted(edition.end_letters());
            Some(format!("is {due}: the record {end} that ends a directory is missing behind it"))
        }
        (true, false) => None,
    };
    let mut faults: Vec<Fault> = words.map(|words| fault(number, "type", words)).into_iter().collect();
    if directory_record(bytes, last, edition) != Some(DirectoryRecord::Row(edition)) {
        return faults;
    }
    for (nth, column) in listing(edition).iter().enumerate() {
        let words = listed.wrong(nth, column.bytes(bytes));
        faults.extend(words.map(|words| fault(number, column.name, words)));
    }
    faults.extend(used_rest(number, edition.layout(), bytes));
    faults
}

impl Listed<'_> {
    /// What is wrong with the n-th number, from 0; of another record number than is due also what that record is.
    fn wrong(&self, nth: usize, column: &[u8]) -> Option<String> {
        let (place, which) = (nth / self.edition.numbers_of_a_layer(), nth % self.edition.numbers_of_a_layer());
        let Some(layer) = self.own.get(place) else {
            return self.spaces_due(column);
        };
        let class = natural(&HEADER, "class", layer.header.bytes);
        let (due, what) = match which {
            0 => (layer.header.number, "the header"),
            1 => (layer.items, "the items, at any level,"),
            _ => (layer.last(), "the last record"),
        };
        let words = wrong(column, Some((due, &format!("{what} of layer {}, class {class}", self.first + place))))?;
        let other = read_column(column).ok().filter(|value| which != 1 && *value != due as i64);
        Some(other.map_or_else(|| words.clone(), |value| format!("{words}; {}", (self.what)(value))))
    }

    /// A number behind those of the last layer.
    fn spaces_due(&self, column: &[u8]) -> Option<String> {
        let layers = number_of((self.first + self.own.len() - 1) as u64, "layer");
        let is = match read_column(column) {
            _ if column.iter().all(|byte| *byte == b' ') => return None,
            Ok(value) => format!("is {value}"),
            Err(_) => "is used".to_string(),
        };
        Some(format!("{is}, must be spaces: the sheet has {layers}"))
    }

    /// The layers in words: `layers 4 to 6`.
    fn named(&self) -> String {
        match self.own.len() {
            1 => format!("layer {}", self.first),
            n => format!("layers {} to {}", self.first, self.first + n - 1),
        }
    }
}

/// The last record.
pub fn end(number: usize, bytes: &[u8], due: &Counts) -> Vec<Fault> {
    let (before, layers) = (format!("the sheet ends at record {}", due.pointer - 1), format!("the sheet has {}", due.layers()));
    end_with(number, bytes, due.edition, [Some((due.pointer, &before)), Some((due.layers, &layers))])
}

/// The same where the sheet is not known: what is wrong with the record by itself, and a pointer that is not behind the records before the directory.
pub fn end_alone(number: usize, bytes: &[u8], edition: Edition, before: usize) -> Vec<Fault> {
    let mut faults = end_with(number, bytes, edition, [None, None]);
    let is_end = directory_record(bytes, true, edition) == Some(DirectoryRecord::End(edition));
    let known = faults.iter().any(|fault| fault.column == "pointer") || !is_end;
    let pointer = edition.end_layout().value("pointer", bytes).filter(|pointer| !known && *pointer != before as i64 + 1);
    faults.extend(pointer.map(|pointer| {
        let stand = number_of(before as u64, "record");
        let made = match usize::try_from(pointer).ok().filter(|pointer| *pointer > 0) {
            Some(pointer) => format!(", as behind a sheet of {}", number_of(pointer as u64 - 1, "record")),
            None => String::new(),
        };
        fault(number, "pointer", format!("is {pointer}{made}; {stand} stand before the directory"))
    }));
    faults
}

/// The last record by what is due in its columns for pointer and layer count; an edition column states its edition.
fn end_with(number: usize, bytes: &[u8], edition: Edition, [pointer, layers]: [Option<(usize, &str)>; 2]) -> Vec<Fault> {
    let letters_due = quoted(edition.end_letters());
    let type_words = (Edition::of_end(bytes) != Some(edition)).then(|| format!("is {}, must be {letters_due}", letters(bytes)));
    let mut faults: Vec<Fault> = type_words.map(|words| fault(number, "type", words)).into_iter().collect();
    if directory_record(bytes, true, edition) != Some(DirectoryRecord::End(edition)) {
        return faults;
    }
    let stated = format!("a record {letters_due} ends a directory of {edition}");
    let due = [pointer, layers, Some((edition.number(), &stated))];
    let numbers = edition.end_layout().columns.iter().skip(1).filter(|column| column.name != "rest");
    for (column, due) in numbers.zip(due) {
        let words = wrong(column.bytes(bytes), due);
        faults.extend(words.map(|words| fault(number, column.name, words)));
    }
    faults.extend(used_rest(number, edition.end_layout(), bytes));
    faults
}

/// The last record, where one that lists these layers is due.
pub fn row_missing(number: usize, bytes: &[u8], listed: &Listed, due: &Counts) -> Vec<Fault> {
    let (row, which) = (quoted(due.edition.letters()), listed.named());
    let what = if due.edition.numbers_of_a_layer() == 1 { "headers" } else { "numbers" };
    let words = format!("is {}, where a record {row} with the {what} of {which} is due: it is missing", letters(bytes));
    let others = end(number, bytes, due).into_iter().filter(|fault| fault.column != "type");
    [fault(number, "type", words)].into_iter().chain(others).collect()
}

/// A record that is too many, where the last is due or behind that.
pub fn too_many(number: usize, bytes: &[u8], due: &Counts) -> Fault {
    let (end, row, last) = (due.end(), quoted(due.edition.letters()), quoted(due.edition.end_letters()));
    let rows = number_of((end - due.pointer) as u64, "record");
    let words = match number == end {
        true => format!("where {last} is due: a directory of {} has {rows} {row}", due.layers()),
        false => format!("and too many: a directory of {} ends at record {end}", due.layers()),
    };
    fault(number, "type", format!("is {}, {words}", letters(bytes)))
}
