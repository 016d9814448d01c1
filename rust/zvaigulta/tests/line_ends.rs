//! Which form a file is read in, and what is mended of its line ends.

mod town;

use reference::random::Random;
use reference::sheets;
use town::{ended, index, sheet, with};
use zvaigulta::explain::{explain_in, line_in};
use zvaigulta::{from_lines, to_lines, FileKind, Form, Mended, Reason, LINE_RECORD_BYTES, RECORD_BYTES};

/// A sheet, an index or a block.
fn plain(r: &mut Random, n: usize) -> Vec<u8> {
    match n % 4 {
        0 => sheets::index(r),
        1 => {
            let (sort, level) = (1 + r.below(9), 2 + r.below(8));
            sheets::item(r, sort, level).concat()
        }
        _ => sheets::sheet(r, n % 5),
    }
}

fn lines(plain: &[u8]) -> Vec<u8> {
    ended(plain, b"\r\n")
}

/// Text with carriage returns and line feeds in columns that are not judged: still a plain file, and a file with line ends.
fn with_text(r: &mut Random, file: &mut [u8], stride: usize) {
    let before = FileKind::of(file).judge_in(if stride == RECORD_BYTES { Form::Plain } else { Form::Lines }, file, file.len());
    for _ in 0..r.below(40) {
        let at = r.below(file.len() / stride) * stride + r.below(RECORD_BYTES - 1);
        let old = [file[at], file[at + 1]];
        file[at..at + 2].copy_from_slice(b"\r\n");
        let form = if stride == RECORD_BYTES { Form::Plain } else { Form::Lines };
        if FileKind::of(file).judge_in(form, file, file.len()) != before {
            file[at..at + 2].copy_from_slice(&old);
        }
    }
}

/// What is accepted as a plain file is read as one, whatever stands in its texts; a sound block too. With line ends they are read as such.
#[test]
fn whole_files_are_known_for_what_they_are() {
    let mut r = Random(84);
    for n in 0..4_000 {
        let mut file = plain(&mut r, n);
        let mut with = lines(&file);
        if n % 4 != 1 && r.once_in(2) {
            with_text(&mut r, &mut file, RECORD_BYTES);
            with_text(&mut r, &mut with, LINE_RECORD_BYTES);
        }
        assert_eq!(Form::of(&file), Form::Plain, "case {n}");
        assert_eq!(Form::of(&with), Form::Lines, "case {n}");
        assert_eq!((Mended::of(&file), Mended::of(&with)), (None, None), "case {n}");
        assert_eq!(Form::Lines.plain(&with).expect("lines").len(), file.len(), "case {n}");
    }
}

/// A plain sheet whose attribute data is text in lines, with a carriage return and line feed wherever a file with line ends has them.
fn sheet_of_text(data: usize) -> Vec<u8> {
    let mut sheet = sheet();
    let text: Vec<u8> = (0..data * RECORD_BYTES).map(|n| b"\r\nx"[(n % 86).checked_sub(84).unwrap_or(2)]).collect();
    let at = 16 * RECORD_BYTES;
    sheet.splice(at..at + 2 * RECORD_BYTES, text);
    with(sheet, 16, 27, &format!("{data:>4}{data:>4}"))
}

/// A plain sheet of which nothing but a count differs is read as plain, whatever stands in its texts; an index with line ends, whose records may be
/// any bytes, with them.
#[test]
fn counts_that_differ() {
    let file = sheet_of_text(200);
    let refusal = zvaigulta::judge_sheet(&file, file.len()).expect_err("a count differs");
    assert_eq!((refusal.reason, Form::of(&file), Mended::of(&file)), (Reason::Count, Form::Plain, None));
    let index = sheets::index_of(&mut Random(1), 410, 0);
    assert_eq!((index.len(), lines(&index).len() % RECORD_BYTES), (42 * RECORD_BYTES, 0));
    assert_eq!(Form::of(&lines(&index)), Form::Lines);
}

/// Records enough for lengths that are multiples of 84 and of 86.
#[test]
fn lengths_that_both_forms_have() {
    for records in [42, 43, 84, 86, 42 * 43] {
        let plain = sheets::sheet_of_points(records);
        let file = lines(&plain);
        assert_eq!((Form::of(&plain), Form::of(&file)), (Form::Plain, Form::Lines), "{records}");
        let mut broken = file.clone();
        broken[84..86].copy_from_slice(b"  ");
        assert_eq!(Form::of(&broken), Form::Lines, "{records}");
        let refusal = FileKind::Sheet.judge_in(Form::Lines, &broken, broken.len()).expect_err("a broken end");
        assert_eq!((refusal.reason, refusal.record), (Reason::LineEnd, Some(1)), "{records}");
        let mut other = plain.clone();
        other[84..86].copy_from_slice(b"\r\n");
        assert_eq!(Form::of(&other), Form::Plain, "{records}: one line end is no file with line ends");
    }
}

/// Up to half of the ends broken: still lines, and refused 18 at the first of them; mended, where each record is as it was.
#[test]
fn broken_ends_are_found() {
    let mut r = Random(18);
    for n in 0..3_000 {
        let plain = plain(&mut r, n);
        let mut file = lines(&plain);
        let records = plain.len() / RECORD_BYTES;
        let broken: Vec<usize> = (0..records / 2).map(|_| r.below(records)).collect();
        let Some(first) = broken.iter().min() else { continue };
        for record in &broken {
            let end = *r.pick(&[*b"  ", *b"\n\r", *b"\0\0", *b"xx", *b"\n\n"]);
            file[record * 86 + 84..record * 86 + 86].copy_from_slice(&end);
        }
        assert_eq!(Form::of(&file), Form::Lines, "case {n}");
        let refusal = FileKind::of(&file).judge_in(Form::Lines, &file, file.len()).expect_err("a broken end");
        assert_eq!((refusal.reason, refusal.record), (Reason::LineEnd, Some(first + 1)), "case {n}");
        assert_eq!(refusal, from_lines(&file, file.len(), &mut vec![0; plain.len()]).expect_err("a broken end"));
        let explained = explain_in(Form::Lines, &file, refusal);
        let marked = explained.faults.iter().map(|fault| (fault.record, fault.column)).collect::<Vec<_>>();
        assert_eq!(marked, [(first + 1, "line end")], "case {n}");
        assert!(!explained.notes.is_empty() && explained.notes.iter().all(|note| !note.contains("record 0")), "{explained:?}");
        assert!(Mended::of(&file).is_none_or(|mended| mended.plain == plain), "case {n}");
    }
}

/// One byte lost or too many inside a record: lines all the same, refused 1, and the record named.
#[test]
fn a_byte_lost_or_too_many_is_found() {
    for record in 1..=28 {
        for (out, new, words) in
            [(1, &b""[..], "has 83 bytes before its line end: 1 byte is lost"), (0, b"x", "has 85 bytes before its line end")]
        {
            let mut file = lines(&sheet());
            let at = (record - 1) * 86 + 50;
            file.splice(at..at + out, new.iter().copied());
            assert_eq!(Form::of(&file), Form::Lines, "{record}");
            let refusal = FileKind::Sheet.judge_in(Form::Lines, &file, file.len()).expect_err("a wrong length");
            assert_eq!(refusal.reason, Reason::Length);
            let explained = explain_in(Form::Lines, &file, refusal);
            let first = &explained.notes[0];
            assert!(first.starts_with(&format!("record {record}, ")) && first.contains(words), "{record}: {explained:?}");
            assert_eq!(Mended::of(&file), None, "{record}");
        }
    }
}

/// Line ends of every kind, all alike or mixed, are mended to the file that they came from.
#[test]
fn line_ends_of_other_kinds_are_mended() {
    let mut r = Random(13);
    let kinds: [&[u8]; 5] = [b"\n", b"\r", b"\n\r", b"\r\r\n", b"\r\n"];
    for n in 0..2_000 {
        let plain = if n % 7 == 0 { index() } else { plain(&mut r, n) };
        let alike = *r.pick(&kinds[..4]);
        let mixed = r.once_in(3);
        let file: Vec<u8> = plain
            .chunks(RECORD_BYTES)
            .flat_map(|record| [record, if mixed { *r.pick(&kinds) } else { alike }].concat())
            .collect();
        let mended = Mended::of(&file);
        // With line feed behind one record and carriage return behind the next it cannot be told where a record ends.
        let found = mended.as_ref().is_some_and(|mended| mended.plain == plain);
        assert!(found || mixed, "case {n}: {}", String::from_utf8_lossy(&file));
        assert!(mended.is_none_or(|mended| mended.plain == plain), "case {n}");
    }
}

/// Line ends of every kind.
const ENDS: [&[u8]; 5] = [b"\n", b"\r", b"\n\r", b"\r\r\n", b"\r\n"];

/// One line end behind the last of plain records is taken away, also where that gives the length of records with line ends.
#[test]
fn one_end_behind_plain_records() {
    let mut r = Random(5);
    let block = sheet()[7 * RECORD_BYTES..10 * RECORD_BYTES].to_vec();
    for plain in [sheet(), index(), block, sheets::sheet_of_points(44), sheets::sheet_of_points(87), sheets::sheet(&mut r, 3)] {
        for (end, fill) in ENDS.iter().flat_map(|end| [(end, &b""[..]), (end, b"\x1a"), (end, &[0; 40])]) {
            let file = [&plain, *end, fill].concat();
            assert_eq!(Form::of(&file), Form::Plain, "{end:?} {fill:?}");
            let mended = Mended::of(&file).expect("an end to take away");
            assert!(mended.plain == plain && mended.places == 1 + usize::from(!fill.is_empty()), "{end:?} {fill:?}");
        }
    }
    let one = [&index()[..35], b" 0 0   0", &index()[43..RECORD_BYTES], b"\r\n"].concat();
    assert_eq!((Form::of(&one), Mended::of(&one)), (Form::Lines, None));
}

/// Every byte of a file lost, doubled or another put before it, with an end of every kind behind each record or behind the last alone: never mended.
#[test]
fn no_byte_lost_is_mended() {
    for (end, last) in ENDS.iter().flat_map(|end| [(*end, *end), (b"", end)]) {
        for plain in [sheet(), index(), sheets::sheet(&mut Random(31), 2), sheet()[15 * RECORD_BYTES..18 * RECORD_BYTES].to_vec()]
        {
            let file = [&ended(&plain, end)[..], if end.is_empty() { last } else { b"" }].concat();
            for at in 0..plain.len() {
                let at = at / RECORD_BYTES * (RECORD_BYTES + end.len()) + at % RECORD_BYTES;
                let byte = [file[at]];
                for (out, new) in [(1, &b""[..]), (0, &byte), (0, b"1"), (0, b" ")] {
                    let damaged = [&file[..at], new, &file[at + out..]].concat();
                    assert_eq!(Mended::of(&damaged), None, "{end:?} {last:?} byte {at}: {out} out, {new:?} in");
                }
            }
        }
    }
}

/// Some bytes taken out of a line, or put into it, before its end.
fn other_length(r: &mut Random, line: &mut Vec<u8>) {
    let by = 1 + r.below(4);
    let at = r.below(RECORD_BYTES - by + 1);
    let (out, new) = if r.once_in(2) { (by, Vec::new()) } else { (0, vec![*r.pick(b" 0x"); by]) };
    line.splice(at..at + out, new);
}

/// Bytes lost or too many in one or two records of a file with line ends of any kind: never mended, and with carriage return and line feed each is
/// named.
#[test]
fn bytes_lost_are_never_mended() {
    let mut r = Random(21);
    for n in 0..6_000 {
        let file = if n % 2 == 0 { sheet() } else { plain(&mut r, n) };
        let end = *r.pick(&[&b"\n"[..], b"\r", b"\n\r", b"\r\r\n", b"\r\n"]);
        let mut lines: Vec<Vec<u8>> = file.chunks(RECORD_BYTES).map(|record| [record, end].concat()).collect();
        let (one, two) = (r.below(lines.len()), r.below(lines.len()));
        other_length(&mut r, &mut lines[one]);
        if two != one && r.once_in(2) {
            other_length(&mut r, &mut lines[two]);
        }
        let lines = lines.concat();
        assert_eq!(Mended::of(&lines), None, "case {n}: records {} and {}, {end:?}", one + 1, two + 1);
        if end == b"\r\n" && file.len() == sheet().len() {
            let refusal = FileKind::Sheet.judge_in(Form::Lines, &lines, lines.len()).expect_err("a wrong length");
            let notes = explain_in(Form::Lines, &lines, refusal).notes;
            let named = [format!("record {}, ", one + 1), format!("the same at record {}", one + 1)];
            assert!(notes.iter().any(|note| named.iter().any(|named| note.contains(named))), "case {n}: {notes:?}");
        }
    }
}

/// Ends of every kind, broken, missing and double by turns: mended to the records that they stood behind, or not at all.
#[test]
fn what_is_mended_are_the_records() {
    let mut r = Random(22);
    let mut mended = 0;
    for n in 0..4_000 {
        let plain = plain(&mut r, n);
        let ends: [&[u8]; 10] = [b"\r\n", b"\r\n", b"\r\n", b"\n", b"\r", b"\n\r", b"\r\r\n", b"", b"  ", b"\r\n\r\n"];
        let file: Vec<u8> = plain.chunks(RECORD_BYTES).flat_map(|record| [record, *r.pick(&ends)].concat()).collect();
        let Some(found) = Mended::of(&file) else { continue };
        assert!(found.plain == plain, "case {n}: {}", String::from_utf8_lossy(&file));
        mended += 1;
    }
    assert!(mended > 1_000, "{mended}");
}

/// Any bytes, in either form, with any refusal: an answer without a panic; what is mended goes over and back.
#[test]
fn any_bytes_are_answered() {
    let mut r = Random(77);
    for n in 0..12_000 {
        let mut file = lines(&plain(&mut r, n));
        for _ in 0..r.below(30) {
            let (at, byte) = (r.below(file.len() + 1), *r.pick(b"\r\n \0\x1aEH1"));
            match r.below(3) {
                0 => file.insert(at, byte),
                1 => drop(file.drain(at..(at + r.below(3)).min(file.len()))),
                _ => file.iter_mut().skip(at).take(1).for_each(|old| *old = byte),
            }
        }
        let form = if r.once_in(4) { *r.pick(&[Form::Plain, Form::Lines]) } else { Form::of(&file) };
        if let Err(refusal) = FileKind::of(&file).judge_in(form, &file, file.len()) {
            let explained = explain_in(form, &file, refusal);
            let said = !explained.notes.is_empty() || !explained.faults.is_empty();
            assert!(said && explained.notes.iter().all(|note| !note.contains("record 0")), "case {n}: {refusal}: {explained:?}");
            assert!(!line_in(form, &file, refusal).is_empty());
        }
        if let Some(mended) = Mended::of(&file) {
            let mut over = vec![0; mended.plain.len() / RECORD_BYTES * LINE_RECORD_BYTES];
            to_lines(&mended.plain, mended.plain.len(), &mut over).expect("whole records");
            let again = Form::Lines.plain(&over).expect("line ends");
            assert!(*again == *mended.plain, "case {n}");
        }
        let _ = form.records(&file);
    }
}

/// A file of 200,000 records whose ends are wrong in each way is read and explained in a moment, not in minutes.
#[test]
fn large_files_with_wrong_ends() {
    let plain = sheets::sheet_of_points(200_000);
    let cases: [(Vec<u8>, Form); 6] = [
        (plain.clone(), Form::Plain),
        (ended(&plain, b"\n"), Form::Plain),
        (ended(&plain, b"  "), Form::Plain),
        ([lines(&plain[..84 * 100_001]), ended(&plain[84 * 100_001..], b"  ")].concat(), Form::Lines),
        ([lines(&plain[..84 * 150_000]), plain[84 * 150_000..].to_vec()].concat(), Form::Lines),
        (lines(&plain)[..86 * 200_000 - 1].to_vec(), Form::Lines),
    ];
    for (n, (file, form)) in cases.iter().enumerate() {
        assert_eq!(Form::of(file), *form, "case {n}");
        for form in [Form::Plain, Form::Lines] {
            let Err(refusal) = FileKind::Sheet.judge_in(form, file, file.len()) else { continue };
            assert!(!explain_in(form, file, refusal).notes.is_empty(), "case {n}");
        }
        let _ = Mended::of(file);
    }
}
