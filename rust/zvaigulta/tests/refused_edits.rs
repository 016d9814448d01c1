//! Refused insertions, removals and ways up: every refusal from 11 to 15, and 17, says what to ask for instead, and that is true.

mod town;

use reference::calls::{self, Edit};
use reference::random::Random;
use reference::sheets;
use std::collections::BTreeMap;
use town::{ended, index, sheet, with};
use zvaigulta::explain::{insertion, removal, way_up};
use zvaigulta::{insert, remove, write_column, Reason, Refusal, RECORD_BYTES};

/// An insertion in a buffer that has room.
fn try_insert(sheet: &[u8], place: usize, block: &[u8]) -> Result<usize, Refusal> {
    let mut buffer = sheet.to_vec();
    buffer.resize(sheet.len() + block.len(), b' ');
    insert(&mut buffer, sheet.len(), place, block)
}

fn try_remove(sheet: &[u8], place: usize) -> Result<usize, Refusal> {
    remove(&mut sheet.to_vec(), sheet.len(), place)
}

/// Records of the small sheet as a block.
fn records(from: usize, to: usize) -> Vec<u8> {
    sheet()[(from - 1) * RECORD_BYTES..to * RECORD_BYTES].to_vec()
}

/// A refused insertion into the small sheet: the place, the block, the refusal, and its words.
type Insertion = (usize, fn() -> Vec<u8>, u64, &'static str);

const INSERTIONS: &[Insertion] = &[
    (0, || records(8, 10), 11, "records number from 1, and 0 is none"),
    (3, || records(8, 10), 11, "record 3 is in the sheet part, which ends at record 6; the first place for an item is 8"),
    (
        18,
        || records(8, 10),
        11,
        "record 18 is data of the attribute E8 at record 16: give 16 for a place before it, 19 for one behind it",
    ),
    (28, || records(8, 10), 11, "record 28 is data of the net at record 26: give 26 for a place before it, 29 for one behind it"),
    (30, || records(8, 10), 11, "the sheet has 28 records: there is no place 30; the last place, behind the last record, is 29"),
    (8, Vec::new, 12, "the block is empty"),
    (8, || records(8, 10)[..200].to_vec(), 12, "the block has 2 records and 32 bytes more"),
    (8, || ended(&records(8, 10), b"\r\n"), 12, "in the block every record ends in carriage return and line feed (CR LF)"),
    (
        8,
        || ended(&records(22, 22), b"\n"),
        12,
        "(or --to plain); then it is a sound block, a point E5 with 0 data records, level 2",
    ),
    (
        8,
        || ended(&with(records(8, 10), 1, 16, " 1"), b"\r\n"),
        12,
        "read with line ends it would be refused as a block: record 1 of the block, level: is 1, the level of an item is 2 to 9",
    ),
    (8, || [records(8, 10), vec![0x1a]].concat(), 12, "(the byte 1A); without that it is a sound block, a line E2 with 2"),
    (
        8,
        || [&b"\xef\xbb\xbf"[..], &records(8, 10)].concat(),
        12,
        "the block starts with a byte order mark (EF BB BF): take it out; without that it is a sound block",
    ),
    (8, sheet, 12, "the block is a sheet; it must be one element, grid or net with its data"),
    (8, index, 12, "the block is an index; it must be one element"),
    (8, || records(13, 15), 12, "the block starts with a header; it must be one element"),
    (8, || records(9, 10), 12, "the block starts with \"  \"; it must be one element"),
    (8, || records(8, 9), 12, "record 1 of the block, records: states 2 data records, and has 1"),
    (
        8,
        || records(8, 12),
        12,
        "the block's item, a line E2 with 2 data records, level 2, ends at its record 3, and 2 records are left over",
    ),
    (8, || records(8, 13), 12, "ends at its record 3, and 3 records are left over"),
    (8, || with(records(8, 10), 1, 27, "  13"), 12, "record 1 of the block, data count: is 13: needs 3 data records"),
    (8, || with(records(8, 10), 2, 13, "O"), 12, "record 2 of the block, Y 1: malformed: \"O\" is no digit"),
    (8, || with(records(8, 10), 1, 16, " 1"), 12, "record 1 of the block, level: is 1, the level of an item is 2 to 9"),
    (8, || with(records(8, 10), 1, 16, "10"), 12, "record 1 of the block, level: is 10, the level of an item is 2 to 9"),
    (8, || with(records(8, 10), 1, 20, "8"), 12, "record 1 of the block, data kind: is 8, must be 0 to 6"),
    (8, || with(records(11, 12), 2, 0, "1"), 12, "record 2 of the block, writing direction: is 1"),
    (8, || records(14, 15), 13, "the block has level 3, before record 8 only level 2 is possible"),
    (14, || records(8, 10), 13, "the block has level 2, before record 14 only level 3 is possible"),
    (19, || with(records(8, 10), 1, 16, " 5"), 13, "the block has level 5, before record 19 levels 2 to 3 are possible"),
    (29, || records(14, 15), 13, "the block has level 3, at the end only level 2 is possible"),
    (
        7,
        || records(8, 10),
        13,
        "before record 7 no item is possible, as no layer header stands before it: give a place behind a layer header",
    ),
];

#[test]
fn a_refused_insertion_says_what_to_do() {
    for (place, block, number, words) in INSERTIONS {
        let block = block();
        let refusal = try_insert(&sheet(), *place, &block).expect_err(words);
        assert_eq!(refusal.number(), *number, "{words}");
        let said = insertion(&sheet(), *place, &block, refusal).join("\n");
        assert!(said.contains(words), "{words}: {said}");
    }
}

#[test]
fn a_refused_removal_or_way_up_says_what_to_do() {
    let removals = [
        (0, "records number from 1"),
        (6, "record 6 is in the sheet part, which ends at record 6; the last item starts at record 26"),
        (7, "record 7 is a layer header, level 1, with 3 below it: only an item is removed, never a header"),
        (13, "record 13 is a group header, level 2, with 2 below it: only an item is removed, never a header"),
        (18, "record 18 is data of the attribute E8 at record 16: give 16 to remove that item"),
        (29, "the sheet has 28 records: there is no item at record 29; the last item starts at record 26"),
    ];
    for (place, words) in removals {
        let said = removal(&sheet(), place, try_remove(&sheet(), place).expect_err(words)).join("\n");
        assert!(said.contains(words), "{words}: {said}");
    }
    for (number, words) in [(6, "record 6 is in the sheet part"), (29, "the sheet has 28 records"), (0, "records number from 1")]
    {
        let refusal = zvaigulta::way_up(&sheet(), sheet().len(), number).expect_err(words);
        let said = way_up(&sheet(), number, refusal).join("\n");
        assert!(said.contains(words), "{words}: {said}");
    }
}

/// An index, and a sheet that is refused itself.
#[test]
fn an_edit_of_an_index_or_a_refused_sheet_says_so() {
    let block = records(8, 10);
    for (file, words) in [(index(), "this is an index"), (with(sheet(), 7, 18, "    9"), "the sheet itself is refused")] {
        let refusal = try_insert(&file, 2, &block).expect_err(words);
        assert!(insertion(&file, 2, &block, refusal).join("\n").contains(words), "{words}");
        assert!(removal(&file, 2, try_remove(&file, 2).expect_err(words)).join("\n").contains(words), "{words}");
        let refusal = zvaigulta::way_up(&file, file.len(), 2).expect_err(words);
        assert!(way_up(&file, 2, refusal).join("\n").contains(words), "{words}");
    }
}

/// The numbers in a text.
fn numbers(text: &str) -> Vec<usize> {
    text.split(|c: char| !c.is_ascii_digit()).filter_map(|digits| digits.parse().ok()).collect()
}

/// A block with another level in its own record.
fn at_level(block: &[u8], level: i64) -> Vec<u8> {
    let mut block = block.to_vec();
    write_column(&mut block[16..18], level).expect("one digit fits");
    block
}

/// That what the words of a refused insertion offer instead is not refused for the same reason, and what they exclude is.
fn insertion_is_true(sheet: &[u8], place: usize, block: &[u8], refusal: Refusal) {
    let said = insertion(sheet, place, block, refusal).join("\n");
    assert!(!said.is_empty() && said != refusal.reason.to_string() && !said.contains("record 0"), "{refusal}: {said}");
    let reason = |place: usize, block: &[u8]| try_insert(sheet, place, block).err().map(|refusal| refusal.reason);
    match (refusal.reason, said.split_once("give ")) {
        (Reason::Place, Some((_, offered))) => {
            numbers(offered).iter().for_each(|place| assert_ne!(reason(*place, block), Some(Reason::Place), "{said}"));
        }
        (Reason::BlockLevel, _) => {
            let possible =
                said.split_once(" possible").and_then(|(before, _)| before.rsplit_once("level")).map(|(_, n)| numbers(n));
            let possible = possible.filter(|_| !said.contains("no item is possible")).unwrap_or_default();
            for level in 2..=9 {
                let allowed = matches!(possible[..], [least, ..] if least <= level && level <= possible[possible.len() - 1]);
                let refused = reason(place, &at_level(block, level as i64)) == Some(Reason::BlockLevel);
                assert_eq!(allowed, !refused, "level {level}: {said}");
            }
        }
        (Reason::Limit, _) => assert!(said.contains("already") || said.contains("together more than"), "{said}"),
        _ => {}
    }
}

/// The same of a refused removal.
fn removal_is_true(sheet: &[u8], place: usize, refusal: Refusal) {
    let said = removal(sheet, place, refusal).join("\n");
    assert!(!said.is_empty() && !said.contains("at record 0"), "{refusal}: {said}");
    let offered = said.split_once("give ").or_else(|| said.split_once("starts at record ")).map(|(_, offered)| numbers(offered));
    assert!(offered.into_iter().flatten().all(|place| try_remove(sheet, place).is_ok()), "{said}");
}

#[test]
fn every_refused_edit_has_words_and_they_are_true() {
    let mut r = Random(31);
    let mut seen = BTreeMap::new();
    for n in 0..20_000 {
        let sheet = if n % 10 == 0 { calls::full_header(&mut r, 1 + n % 8) } else { sheets::sheet(&mut r, n % 5) };
        let refusal = match calls::draw(&mut r, &sheet, sheet.len()) {
            Edit::Insert(place, block) => {
                let place = usize::try_from(place).expect("64 bits");
                try_insert(&sheet, place, &block).inspect_err(|refusal| insertion_is_true(&sheet, place, &block, *refusal))
            }
            Edit::Remove(place) => {
                let place = usize::try_from(place).expect("64 bits");
                try_remove(&sheet, place).inspect_err(|refusal| removal_is_true(&sheet, place, *refusal))
            }
        };
        *seen.entry(refusal.map_or_else(|refusal| refusal.number(), |_| 0)).or_insert(0) += 1;
    }
    assert!([0, 11, 12, 13, 14].iter().all(|number| seen.get(number).is_some_and(|count| *count > 100)), "{seen:?}");
}

/// 15, and the limits of 14 in large sheets.
#[test]
fn a_short_buffer_and_full_sheets_say_what_is_full() {
    let (small, line) = (sheet(), records(8, 10));
    let refusal = insert(&mut small.clone(), small.len(), 8, &line).expect_err("no room");
    assert_eq!(
        (refusal.number(), insertion(&small, 8, &line, refusal).join("\n").as_str()),
        (15, "the buffer must have 2604 bytes, the sheet's and the block's")
    );
    let point = records(22, 22);
    let full = sheets::sheet_of_points(200_000);
    let refusal = try_insert(&full, 200_001, &point).expect_err("too long");
    let said = insertion(&full, 200_001, &point, refusal).join("\n");
    assert_eq!(
        (refusal.number(), said.as_str()),
        (14, "the sheet has 200000 records and the block 1 record: together more than 200000")
    );
    let mut body = vec![sheets::layer(&[(5, 99_999)])];
    body.extend(std::iter::repeat_n(point.clone(), 99_999));
    let full = sheets::sheet_of(&mut Random(3), body, 99_999);
    let end = full.len() / RECORD_BYTES + 1;
    let refusal = try_insert(&full, end, &point).expect_err("full");
    let said = insertion(&full, end, &point, refusal).join("\n");
    let words = format!("the layer header at record {} has a total of 99999 already, the most that it can state", end - 100_000);
    assert_eq!((refusal.number(), said), (14, words));
}
