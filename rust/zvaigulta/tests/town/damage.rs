//! A damaged file: what the judge answers, what the explanation says, and the columns that it marks.

use zvaigulta::explain::{explain_as, line_as};
use zvaigulta::Reading;

/// A damage: its name, the damaged file, the refusal with its record (0 for none), words of the explanation (behind `not: ` words
/// that must not stand there), columns marked.
pub type Damage = (&'static str, fn() -> Vec<u8>, (u64, usize), &'static [&'static str], &'static [(usize, &'static str)]);

/// A damage is refused, read in a way, as the table says; its explanation has the words and marks the columns, and names no record 0. Each column that
/// it marks is one of its record.
pub fn is_explained(reading: Reading, (name, file, (number, record), words, marked): &Damage) {
    let file = file();
    let refusal = reading.judge(&file).expect_err(name);
    assert_eq!((refusal.number(), refusal.record.unwrap_or(0)), (*number, *record), "{name}");
    let explained = explain_as(reading, &file, refusal);
    let line = line_as(reading, &file, refusal).replace("refused", "");
    let faults = explained.faults.iter().map(|fault| &fault.words);
    let said: Vec<&str> = faults.chain(&explained.notes).chain([&line]).map(String::as_str).collect();
    for part in *words {
        let (part, due) = part.strip_prefix("not: ").map_or((*part, true), |part| (part, false));
        assert_eq!(said.iter().any(|said| said.contains(part)), due, "{name}: {part}: {explained:#?}");
    }
    let twice = |note: &String| explained.notes.iter().filter(|other| *other == note).count() > 1;
    assert!(!explained.notes.iter().any(twice), "{name}: {explained:#?}");
    let is = |(record, column): (usize, &str)| explained.faults.iter().any(|f| (f.record, f.column) == (record, column));
    assert!(marked.iter().all(|at| is(*at)), "{name}: {explained:#?}");
    assert!(*number == 1 || marked.iter().any(|(at, _)| at == record), "{name}: a column of the refused record is asked for");
    assert!(!words.is_empty() && said.iter().all(|said| !said.contains("record 0")), "{name}: {explained:#?}");
    let records = reading.form.records(&file);
    for fault in explained.faults.iter().filter(|fault| fault.column != "line end") {
        let named = reading.outline(&records).nth(fault.record - 1).expect("a record of the file");
        let known = named.layout.map_or(fault.column == "type", |layout| layout.column(fault.column).is_some());
        assert!(known, "{name}: {fault:?}");
    }
}
