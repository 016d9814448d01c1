//! The public layouts against the proved judge: on files that hold all nineteen, each column is what its table says.

use zvaigulta::layout::*;
use zvaigulta::{write_column, FileKind, Reason, RECORD_BYTES};

/// A record of a layout: a type, some numbers, and 0 or the least allowed number in the other integer columns.
fn record(layout: &Layout, kind: &str, numbers: &[(&str, i64)]) -> Vec<u8> {
    let mut bytes = vec![b' '; RECORD_BYTES];
    bytes[..kind.len()].copy_from_slice(kind.as_bytes());
    for column in layout.columns {
        let given = numbers.iter().find(|(name, _)| *name == column.name).map(|(_, n)| *n);
        let value = match column.content {
            Content::Integer(Allowed::AtLeast(n) | Allowed::Between(n @ 1, _)) => given.or(Some(n)),
            Content::Integer(Allowed::OneOf(list)) => given.or(list.first().copied()),
            Content::Integer(_) => given.or(Some(0)),
            _ => given,
        };
        if let Some(n) = value {
            write_column(&mut bytes[column.start..column.start + column.width], n).expect("it fits");
        }
    }
    bytes
}

type Records = Vec<(&'static Layout, Vec<u8>)>;

/// A sheet with every layout of a sheet; all points of its data are used.
fn sheet() -> Records {
    let element = |kind, data, count, records| {
        let numbers = [("level", 2), ("data kind", data), ("data count", count), ("records", records)];
        record(&ELEMENT, kind, &numbers)
    };
    let counts = [("total", 6), ("area", 1), ("line", 1), ("note", 1), ("attribute", 1), ("grid and net", 2), ("level", 1)];
    vec![
        (&SHEET_A, record(&SHEET_A, "M ", &[("level", 500), ("version", 1)])),
        (&SHEET_B, record(&SHEET_B, "", &[("element count", 6), ("record count", 15), ("unit", 1)])),
        (&SHEET_C, record(&SHEET_C, "", &[])),
        (&SHEET_D, record(&SHEET_D, "", &[("courses", 3), ("f records", 1)])),
        (&SHEET_E, record(&SHEET_E, "", &[])),
        (&SHEET_F, record(&SHEET_F, "", &[])),
        (&HEADER, record(&HEADER, "H ", &counts)),
        (&ELEMENT, element("E1", 3, 4, 1)),
        (&DATA_3D, record(&DATA_3D, "", &[])),
        (&ELEMENT, element("E2", 2, 6, 1)),
        (&DATA_2D, record(&DATA_2D, "", &[])),
        (&ELEMENT, element("E7", 4, 64, 1)),
        (&DATA_NOTE, record(&DATA_NOTE, "", &[])),
        (&ELEMENT, element("E8", 5, 1, 1)),
        (&DATA_ATTRIBUTE, record(&DATA_ATTRIBUTE, "", &[])),
        (&GRID_HEADER, record(&GRID_HEADER, "G ", &[("level", 2), ("rows", 3), ("columns", 4), ("records", 1)])),
        (&DATA_GRID, record(&DATA_GRID, "", &[])),
        (&NET_HEADER, record(&NET_HEADER, "T ", &[("level", 2), ("triangles", 4), ("records", 3)])),
        (&DATA_NET, record(&DATA_NET, "", &[])),
        (&DATA_NET, record(&DATA_NET, "", &[])),
        (&DATA_NET, record(&DATA_NET, "", &[])),
    ]
}

fn index() -> Records {
    vec![
        (&INDEX_A, record(&INDEX_A, "I ", &[("sheets", 10), ("b records", 1), ("c records", 1), ("system", 9), ("version", 1)])),
        (&INDEX_B, record(&INDEX_B, "", &[])),
        (&INDEX_C, record(&INDEX_C, "", &[])),
    ]
}

fn bytes(records: &Records) -> Vec<u8> {
    records.iter().flat_map(|(_, bytes)| bytes.clone()).collect()
}

/// What the judge says with other bytes in one column: the reason, where the refusal is at that record.
fn judged_with(records: &Records, at: usize, column: &Column, text: &[u8]) -> Option<Reason> {
    let mut file = bytes(records);
    let start = at * RECORD_BYTES + column.start;
    file[start..start + column.width].copy_from_slice(text);
    let kind = if records.len() == 3 { FileKind::Index } else { FileKind::Sheet };
    kind.judge(&file, file.len()).err().filter(|refusal| refusal.record == Some(at + 1)).map(|refusal| refusal.reason)
}

#[test]
fn nineteen_layouts_of_84_bytes() {
    assert_eq!(ALL.len(), 19);
    for layout in ALL {
        assert_eq!(layout.columns.iter().map(|c| c.width).sum::<usize>(), RECORD_BYTES, "{}", layout.name);
        let mut start = 0;
        for column in layout.columns {
            assert_eq!(column.start, start, "{} {}", layout.name, column.name);
            start += column.width;
            let twice = layout.columns.iter().filter(|c| !c.name.is_empty() && c.name == column.name).count();
            assert_eq!(twice, usize::from(!column.name.is_empty()), "{} {}", layout.name, column.name);
        }
    }
}

#[test]
fn the_files_hold_every_layout_and_are_accepted() {
    let all: Vec<&str> = index().iter().chain(&sheet()).map(|(layout, _)| layout.name).collect();
    assert!(ALL.iter().all(|layout| all.contains(&layout.name)), "{all:?}");
    let file = bytes(&sheet());
    assert_eq!(FileKind::Sheet.judge(&file, file.len()).expect("accepted").records, 21);
    let file = bytes(&index());
    assert_eq!(FileKind::Index.judge(&file, file.len()).expect("accepted").records, 3);
}

#[test]
fn a_malformed_column_is_5_exactly_where_an_integer_stands() {
    for records in [sheet(), index()] {
        for (at, (layout, _)) in records.iter().enumerate() {
            for column in layout.columns.iter().filter(|c| c.name != "type") {
                let said = judged_with(&records, at, column, &vec![b'x'; column.width]);
                let integer = matches!(column.content, Content::Integer(_) | Content::IntegerOrSpaces);
                assert_eq!(said == Some(Reason::Malformed), integer, "{} {}: {said:?}", layout.name, column.name);
                let said = judged_with(&records, at, column, &vec![b' '; column.width]);
                let integer = matches!(column.content, Content::Integer(_));
                assert_eq!(said == Some(Reason::Malformed), integer, "{} {}: {said:?}", layout.name, column.name);
            }
        }
    }
}

/// A column whose 6 hangs on another column too.
fn is_joined(layout: &Layout, column: &Column) -> bool {
    ["unit", "courses", "f records", "b records", "sheets", "writing direction"].contains(&column.name)
        || (layout.name == "note data" && column.name == "direction")
}

#[test]
fn a_number_is_6_exactly_where_its_table_does_not_allow_it() {
    for records in [sheet(), index()] {
        for (at, (layout, _)) in records.iter().enumerate() {
            for column in layout.columns.iter().filter(|column| !is_joined(layout, column)) {
                let Content::Integer(allowed) = column.content else { continue };
                for n in [-10, -9, -1, 0, 1, 2, 3, 4, 5, 6, 7, 8, 9, 10, 19, 20, 499, 500, 501, 1000, 2500, 5000, 10000, 99999] {
                    let mut text = vec![b' '; column.width];
                    if write_column(&mut text, n).is_ok() {
                        let said = judged_with(&records, at, column, &text);
                        let outside = said == Some(Reason::OutsideRange);
                        assert_eq!(outside, !allowed.holds(n), "{} {} {n}: {said:?}", layout.name, column.name);
                    }
                }
            }
        }
    }
}
