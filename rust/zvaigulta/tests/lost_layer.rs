//! A directory that was left behind a sheet which lost a layer: whatever became of the directory, no command is named that would hide the loss before the
//! original is asked for.

mod town;

use town::{filed_in, layered, sheet, shifted, with, without};
use zvaigulta::explain::explain_as;
use zvaigulta::{remove, Edition, Form, Reading, LINE_END, RECORD_BYTES};

/// The sheet that is left, of four layers, and the directory of the five that there were.
fn left(edition: Edition) -> (Vec<u8>, Vec<u8>) {
    let whole = filed_in(edition, &layered(5));
    (layered(4), whole[layered(5).len()..].to_vec())
}

/// The files in which the directory may be found.
fn files(edition: Edition) -> Vec<(String, Vec<u8>)> {
    let (sheet, directory) = left(edition);
    let records = sheet.len() / RECORD_BYTES + directory.len() / RECORD_BYTES;
    let behind = |directory: &[u8]| [&sheet, directory].concat();
    let (right, blank) = (filed_in(edition, &sheet), [b' '; RECORD_BYTES]);
    let named = |name: &str, file: Vec<u8>| (format!("{edition}, {name}"), file);
    let cut = (2..directory.len()).map(|bytes| named(&format!("cut behind byte {bytes}"), behind(&directory[..bytes])));
    let pointers = (0..12)
        .map(|pointer| named(&format!("pointer {pointer}"), with(behind(&directory), records, 2, &format!("{pointer:7}"))));
    let others = [
        named("as it was", behind(&directory)),
        named("behind the right one", [&right[..], &directory].concat()),
        named("before the right one", [&behind(&directory)[..], &right[sheet.len()..]].concat()),
        named("behind the right one, without its end", [&right[..], &directory[..directory.len() - RECORD_BYTES]].concat()),
        named("behind the right one, cut off", [&right[..], &directory[..directory.len() - 10]].concat()),
        named("behind the right one and a blank record, cut off", [&right[..], &blank, &directory[..100]].concat()),
        named("a byte behind it", behind(&[&directory[..], b"x"].concat())),
        named("a malformed count", with(behind(&directory), records, 9, "5      ")),
        named("a byte lost", shifted(behind(&directory), records - 1, 40, 1, b"")),
    ];
    cut.chain(pointers).chain(others).collect()
}

/// What is said of a file.
fn notes(name: &str, file: &[u8]) -> String {
    let reading = Reading::of(file);
    explain_as(reading, file, reading.judge(file).expect_err(name)).notes.join("\n")
}

/// Before a command, or that the file is accepted, the original is asked for.
fn asks_first(name: &str, notes: &str) {
    let told = notes.find("original").unwrap_or(usize::MAX);
    let first = notes.find("--append").into_iter().chain(notes.find("the file is accepted")).min();
    assert!(first.is_none_or(|first| told < first), "{name}: {notes}");
}

#[test]
fn the_original_is_asked_for_first() {
    for (name, file) in Edition::ALL.into_iter().flat_map(files) {
        asks_first(&name, &notes(&name, &file));
    }
}

/// A file with line ends behind all its records; not behind a last one that is cut off.
fn lines(file: &[u8]) -> Vec<u8> {
    let records = file.chunks_exact(RECORD_BYTES);
    let cut = records.remainder();
    [&records.flat_map(|record| [record, LINE_END].concat()).collect::<Vec<u8>>()[..], cut].concat()
}

/// The same with line ends, in which a directory that is cut off is known for one as well.
#[test]
fn with_line_ends_too() {
    for (name, file) in Edition::ALL.into_iter().flat_map(files) {
        let (plain, file) = (notes(&name, &file), lines(&file));
        let notes = notes(&name, &file);
        assert_eq!(Reading::of(&file).form, Form::Lines, "{name}");
        asks_first(&name, &notes);
        assert!(notes.contains("directory") && notes.ends_with(&plain), "{name}: {notes}\nwithout line ends: {plain}");
    }
}

/// Behind a sheet of 200,000 records too, which is not to be divided.
#[test]
fn behind_the_largest_sheet() {
    for edition in Edition::ALL {
        let file = filed_in(edition, &layered(199_994));
        for left in [file.len() - RECORD_BYTES, file.len() - 40] {
            for file in [file[..left].to_vec(), lines(&file[..left])] {
                let name = format!("{edition}, {:?}, {left} bytes", Form::of(&file));
                let notes = notes(&name, &file);
                assert!(notes.contains("--append") && !notes.contains("divide"), "{name}: {notes}");
                asks_first(&name, &notes);
            }
        }
    }
}

/// The sheet of two layers that lost an item of the second one. The directory of the whole sheet behind the right one lists the same headers: in the
/// first edition its pointer alone tells.
#[test]
fn an_item_of_the_last_layer_is_lost() {
    for (edition, place) in Edition::ALL.into_iter().flat_map(|edition| [20, 22, 23, 26].map(|place| (edition, place))) {
        let (mut left, whole) = (sheet(), filed_in(edition, &sheet()));
        let used = remove(&mut left, sheet().len(), place).expect("a removal");
        let file = [&filed_in(edition, &left[..used])[..], &whole[sheet().len()..]].concat();
        let name = format!("{edition}, record {place}");
        let notes = notes(&name, &file);
        assert!(notes.contains("the first of them is right") && notes.contains("--append"), "{name}: {notes}");
        asks_first(&name, &notes);
    }
}

/// The last text of a sheet is lost, and its counts stayed: the first record of the directory is taken as that text, and the sheet accepted.
#[test]
fn a_directory_in_the_place_of_a_text() {
    for edition in Edition::ALL {
        let sheet = with(without(sheet(), 19, 28), 2, 31, "     4     12");
        let file = without(filed_in(edition, &sheet), 18, 18);
        let notes = notes("a text", &file);
        let reads = "record 18, attribute data of record 16, reads as a record of a directory: it may stand in the place of a lost record";
        assert!(notes.contains(reads) && notes.contains("--append"), "{edition}: {notes}");
        asks_first("a text", &notes);
        // The end of the directory is lost too, and the file read as one that has a directory.
        let (file, with_directory) = (without(file, 19, 19), Reading { form: Form::Plain, directory: true });
        let notes = explain_as(with_directory, &file, with_directory.judge(&file).expect_err("no end")).notes.join("\n");
        let lost = "if it is of a directory, records of the sheet are lost before it";
        assert!(notes.contains(lost) && !notes.contains("--append"), "{edition}: {notes}");
        // Both texts are lost, and the end of the directory stands in the place of the second; another directory is behind it.
        let (end, directory) = (filed_in(edition, &sheet), &filed_in(edition, &sheet)[sheet.len()..]);
        let file = with([&without(end, 17, 18)[..], directory].concat(), 20, 2, "0000019");
        let notes = self::notes("two texts", &file);
        assert!(notes.contains("record 18, attribute data of record 16, reads as a record of a directory"), "{edition}: {notes}");
        asks_first("two texts", &notes);
    }
}

/// A directory whose numbers cannot be read where they would tell of the lost layer.
#[test]
fn a_header_that_cannot_be_read() {
    let (sheet, directory) = left(Edition::First);
    let first = sheet.len() / RECORD_BYTES + 1;
    let file = with([sheet, directory].concat(), first, 2 + 4 * 7, "     1x");
    let notes = notes("unreadable", &with(file, first + 1, 2, "      x      x"));
    assert!(notes.contains("lists 4 layers (and 1 more whose header cannot be read), the sheet has 4 layers"), "{notes}");
    asks_first("unreadable", &notes);
}

/// A command names the edition that the directory was of, also where next to nothing is left of it.
#[test]
fn the_edition_is_kept() {
    let (sheet, directory) = left(Edition::Second);
    for bytes in 2..directory.len() {
        let notes = notes("cut off", &[&sheet, &directory[..bytes]].concat());
        assert_eq!(notes.matches("--append").count(), notes.matches("--append --edition 2").count(), "{bytes}: {notes}");
    }
}
