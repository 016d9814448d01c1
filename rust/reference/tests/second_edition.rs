//! Order 13 by its own sentences, on small files, each answer stated here by hand; and the commands of the batch protocol.

mod small;

use reference::directory::{self, Layer, NEW, SECOND};
use reference::judge;
use reference::protocol::{hex, reply};
use reference::sheets::{EXAMPLE_ITEM, EXAMPLE_LAYER};
use reference::RECORD;
use small::{empty_layer, example, layers, part, put_behind, record, refused, with};

/// Numbers of an accepted call, or of its refusal.
type Said = Result<(usize, usize), (u8, usize)>;

/// Judging by the new call.
fn judged(file: &str) -> Said {
    NEW.sheet(file.as_bytes(), file.len()).map(|c| (c.records, c.items)).map_err(|r| (r.number, r.record))
}

/// Judging by the old call, which a jump by the old call refuses alike.
fn judged_by_the_old(file: &str) -> Said {
    let jumped = directory::jump(file.as_bytes(), file.len(), 1);
    let judged = directory::sheet(file.as_bytes(), file.len());
    assert!(judged.is_ok() || refused(judged) == refused(jumped));
    judged.map(|c| (c.records, c.items)).map_err(|r| (r.number, r.record))
}

/// What the new call appends to a sheet.
fn appended(sheet: &str) -> String {
    put_behind(sheet, |buffer, used| SECOND.append(buffer, used))
}

/// A header of a level with so many groups, lines and attributes under it.
fn header(level: usize, groups: usize, lines: usize, attributes: usize) -> String {
    let mut header = EXAMPLE_LAYER.to_string();
    let total = groups + lines + attributes;
    let counts = [total, groups, 0, lines, 0, 0, 0, 0, 0, attributes].map(|n| format!("{n:>5}")).concat();
    header.replace_range(16..68, &format!("{level:>2}{counts}"));
    header
}

/// The example's line, at a level: three records.
fn line(level: usize) -> String {
    let mut item = EXAMPLE_ITEM.concat();
    item.replace_range(16..18, &format!("{level:>2}"));
    item
}

/// An attribute at level 2 with two data records, of which the first reads like a layer's header and the second like a last record.
fn attribute() -> String {
    let mut item = EXAMPLE_ITEM[0].to_string();
    item.replace_range(0..2, "E8");
    item.replace_range(20..21, "5");
    item.replace_range(27..35, "   2   2");
    item + &header(1, 0, 0, 0) + &record("YE     24      4      2")
}

/// Twenty-five records. Layer 1, from 6, has a line (7 to 9), a group (10) and in it a group (11) with two lines (12 to 17). Layer 2 is empty (18).
/// Layer 3, from 19, has empty groups (20, 21). Layer 4, from 22, has an attribute (23 to 25).
fn deep() -> String {
    let first = header(1, 1, 1, 0) + &line(2) + &header(2, 1, 0, 0) + &header(3, 0, 2, 0) + &line(4) + &line(4);
    let others = empty_layer() + &header(1, 1, 0, 0) + &header(2, 1, 0, 0) + &header(3, 0, 0, 0);
    part(4, 20) + &first + &others + &header(1, 0, 0, 1) + &attribute()
}

#[test]
fn the_directory_that_is_appended() {
    assert_eq!(appended(&example()), record("Y       6      1      9") + &record("YE     10      1      2"));
    assert_eq!(appended(&layers(0)), record("YE      6      0      2"));
    assert_eq!(appended(&layers(1)), record("Y       6      0      6") + &record("YE      7      1      2"));
    let two = "Y       6      0      6      7      0      7";
    assert_eq!(appended(&layers(2)), record(two) + &record("YE      8      2      2"));
    let three = two.to_string() + "      8      0      8";
    assert_eq!(three.len(), 65);
    assert_eq!(appended(&layers(3)), record(&three) + &record("YE      9      3      2"));
    assert_eq!(appended(&layers(4)), record(&three) + &record("Y       9      0      9") + &record("YE     10      4      2"));
    let second = record("Y       9      0      9     10      0     10     11      0     11");
    assert_eq!(appended(&layers(6)), record(&three) + &second + &record("YE     12      6      2"));
    let third = record("Y      12      0     12") + &record("YE     13      7      2");
    assert_eq!(appended(&layers(7)), record(&three) + &second + &third);
}

#[test]
fn totals_at_any_depth_and_last_records() {
    let row = record("Y       6      3     17     18      0     18     19      0     21");
    assert_eq!(appended(&deep()), row + &record("Y      22      1     25") + &record("YE     26      4      2"));
    // a line in a group (8 to 10) before the next layer, and one at the sheet's end (12 to 14): the last record is one of its data
    let lines = part(2, 9) + &header(1, 1, 0, 0) + &header(2, 0, 1, 0) + &line(3) + &header(1, 0, 1, 0) + &line(2);
    assert_eq!(appended(&lines), record("Y       6      1     10     11      1     14") + &record("YE     15      2      2"));
}

#[test]
fn ours_passes_and_answers_the_sheets_records_and_items() {
    assert_eq!(judged(&(example() + &appended(&example()))), Ok((9, 1)));
    assert_eq!(judged(&(deep() + &appended(&deep()))), Ok((25, 4)));
    for count in [0, 1, 2, 3, 4, 6, 7] {
        let file = layers(count) + &appended(&layers(count));
        assert_eq!(judged(&file), Ok((5 + count, 0)), "{count}");
        // plain judging: 4 at the first record of the directory; with the used length of the sheet it is accepted
        assert_eq!(refused(judge::sheet(file.as_bytes(), file.len())), Some((4, 6 + count)));
        assert!(judge::sheet(file.as_bytes(), (5 + count) * RECORD).is_ok());
    }
}

#[test]
fn the_new_calls_read_the_first_edition_too() {
    for sheet in [example(), deep(), layers(0), layers(11), layers(12)] {
        let file = sheet.clone() + &put_behind(&sheet, directory::append);
        assert_eq!(judged(&file), judged_by_the_old(&file));
        assert!(judged(&file).is_ok());
    }
    let file = with(&example(), &["Z       7", "ZE     10      1"]);
    assert_eq!((judged(&file), judged_by_the_old(&file)), (Err((19, 10)), Err((19, 10))));
    let file = with(&example(), &["Z       6", "ZE    010      1"]);
    assert_eq!((judged(&file), judged_by_the_old(&file)), (Err((19, 11)), Err((19, 11))));
    // the first edition has no edition column: what stands there is not spaces
    let file = with(&example(), &["Z       6", "ZE     10      1      1"]);
    assert_eq!((judged(&file), judged_by_the_old(&file)), (Err((19, 11)), Err((19, 11))));
}

#[test]
fn the_old_calls_refuse_it_with_19_at_the_last_record() {
    for sheet in [example(), deep(), layers(0), layers(7)] {
        let file = sheet.clone() + &appended(&sheet);
        assert_eq!(judged_by_the_old(&file), Err((19, file.len() / RECORD)));
    }
    // whatever its edition column says, and whatever stands before it
    for edition in ["      1", "      3", "       ", "      2"] {
        let end = format!("YE     10      1{edition}");
        assert_eq!(judged_by_the_old(&with(&example(), &["Z       6", &end])), Err((19, 11)), "{edition}");
        assert_eq!(judged_by_the_old(&with("", &[&end])), Err((19, 1)), "{edition}");
    }
    // 1 comes first
    let file = (example() + &appended(&example())).into_bytes();
    assert_eq!(refused(directory::sheet(&file, 923)), Some((1, 0)));
}

#[test]
fn twenty_seven_with_the_last_record_directly_after_1() {
    let last = |text: &str| judged(&with(&example(), &["Y       6      1      9", text]));
    assert_eq!(last("YE     10      1      2"), Ok((9, 1)));
    let others = ["      0", "      1", "      3", "     12", "     20", "     22", "9999999", "-999999"];
    let forms = ["     02", "0000002", "     -2", "     +2", "     -0", "2      ", "     2 ", "       ", "      x", "2     2"];
    for edition in others.iter().chain(&forms) {
        assert_eq!(last(&format!("YE     10      1{edition}")), Err((27, 11)), "{edition}");
        // before the pointer, the count and the rest are looked at
        assert_eq!(last(&format!("YE      0      1{edition}")), Err((27, 11)), "{edition}");
        assert_eq!(last(&format!("YE            01{edition}")), Err((27, 11)), "{edition}");
        assert_eq!(last(&format!("YE     10      1{edition}x")), Err((27, 11)), "{edition}");
    }
    // before the sheet and the records of the directory are
    assert_eq!(judged(&with(&example(), &["Z       7", "YE     10      1"])), Err((27, 11)));
    assert_eq!(judged(&with("", &["YE"])), Err((27, 1)));
    assert_eq!(judged(&with("", &["x", "YE      1      0      3"])), Err((27, 2)));
    // only where it starts "YE", and behind 1
    assert_eq!(last("Y      10      1      3"), Err((19, 11)));
    assert_eq!(last("yE     10      1      3"), Err((19, 11)));
    assert_eq!(last("ZE     10      1      3"), Err((19, 11)));
    let file = with(&example(), &["YE     10      1      3"]).into_bytes();
    for used in [0, 1, 839, 841, 924, usize::MAX] {
        assert_eq!(refused(NEW.sheet(&file, used)), Some((1, 0)), "{used}");
        assert_eq!(refused(NEW.jump(&file, used, 0)), Some((1, 0)), "{used}");
    }
    // for a jump it comes before 17
    assert_eq!(refused(NEW.jump(&file, 840, 0)), Some((27, 10)));
}

#[test]
fn nineteen_with_the_last_record() {
    let last = |text: &str| judged(&with(&example(), &["Y       6      1      9", text]));
    let letters = ["ye     10      1      2", "Y      10      1      2", " YE    10      1      2", "XE     10      1      2"];
    let pointers = ["YE0000010      1      2", "YE   10        1      2", "YE             1      2", "YE    +10      1      2"];
    let counts = ["YE     10     01      2", "YE     10             2", "YE     10     -0      2", "YE     10 1           2"];
    let rests = ["YE     10      1      2x", "YE     10      1      2      2", &format!("YE     10      1      2{:60}x", "")];
    let outside = ["YE      0      1      2", "YE     -1      1      2", "YE     12      1      2", "YE9999999      1      2"];
    for text in letters.iter().chain(&pointers).chain(&counts).chain(&rests).chain(&outside) {
        assert_eq!(last(text), Err((19, 11)), "{text}");
    }
    assert_eq!(judged(&with("", &["YE      2      0      2"])), Err((19, 1)));
    // no letters of a last record at all: a sheet without a directory, a row of the second edition
    assert_eq!(judged(&example()), Err((19, 9)));
    assert_eq!(judged(&with(&example(), &["Y       6      1      9"])), Err((19, 10)));
}

#[test]
fn the_sheet_before_the_pointer() {
    let row = "Y       6      1      9";
    let end = |pointer: usize| judged(&with(&example(), &[row, &format!("YE{pointer:>7}      1      2")]));
    assert_eq!(end(1), Err((1, 0)));
    (2..=5).for_each(|pointer| assert_eq!(end(pointer), Err((3, 1)), "{pointer}"));
    assert_eq!([end(6), end(7), end(8), end(9)], [Err((10, 2)), Err((10, 2)), Err((3, 7)), Err((3, 7))]);
    assert_eq!([end(10), end(11), end(12)], [Ok((9, 1)), Err((4, 10)), Err((19, 11))]);
    assert_eq!(judged(&with("", &["YE      1      0      2"])), Err((1, 0)));
    assert_eq!(judged(&with("", &["I ", "YE      2      0      2"])), Err((2, 1)));
    // a count that is negative, or a row that is wrong, comes behind the sheet's own
    let wrong = example().replace("M 09", "m 09");
    assert_eq!(judged(&with(&wrong, &["Y       7      1      9", "YE     10     -1      2"])), Err((2, 1)));
}

#[test]
fn nineteen_with_the_first_record_that_differs() {
    let one = |text: &str| judged(&with(&example(), &[text, "YE     10      1      2"]));
    assert_eq!(one("Y       6      1      9"), Ok((9, 1)));
    // header, total and last: one off, in another form, or one of them missing
    let headers = ["Y       5      1      9", "Y       7      1      9", "Y      06      1      9", "Y              1      9"];
    let totals = ["Y       6      0      9", "Y       6      2      9", "Y       6     01      9", "Y       6             9"];
    let lasts = ["Y       6      1      8", "Y       6      1     10", "Y       6      1     09", "Y       6      1"];
    let others = [
        "Y       6",
        "Y ",
        "Y       6      1      9      7",
        "Y       6      1      9      7      0      7",
        "Y       6      1      9x",
        "y       6      1      9",
        "YE      6      1      9",
        "Z       6      1      9",
        "Z       6",
        "Y      6      1      9 ",
        "Y                            6      1      9",
    ];
    for text in headers.iter().chain(&totals).chain(&lasts).chain(&others) {
        assert_eq!(one(text), Err((19, 10)), "{text}");
    }
    assert_eq!(one(&format!("Y       6      1      9{:60}x", "")), Err((19, 10)));
    for end in ["YE     10     -1      2", "YE     10      0      2", "YE     10      2      2", "YE     109999999      2"] {
        assert_eq!(judged(&with(&example(), &["Y       6      1      9", end])), Err((19, 11)), "{end}");
        assert_eq!(judged(&with(&example(), &["Y       6      1      8", end])), Err((19, 10)), "{end}");
    }
}

#[test]
fn totals_and_lasts_of_deep_layers_are_held_to_the_sheet() {
    let file = |row: &str| judged(&with(&deep(), &[row, "Y      22      1     25", "YE     26      4      2"]));
    assert_eq!(file("Y       6      3     17     18      0     18     19      0     21"), Ok((25, 4)));
    let wrong = [
        // what stands one level below the header alone, with groups or without them; groups counted as items
        "Y       6      2     17     18      0     18     19      0     21",
        "Y       6      1     17     18      0     18     19      0     21",
        "Y       6      5     17     18      0     18     19      0     21",
        "Y       6      3     17     18      0     18     19      2     21",
        // the last item's header, the next layer's, the last header
        "Y       6      3     15     18      0     18     19      0     21",
        "Y       6      3     18     18      0     18     19      0     21",
        "Y       6      3     17     18      0     19     19      0     21",
        "Y       6      3     17     18      0     17     19      0     21",
        "Y       6      3     17     18      0     18     19      0     19",
        // the first three layers in another order, and a data record as a layer
        "Y      18      0     18      6      3     17     19      0     21",
    ];
    wrong.iter().for_each(|row| assert_eq!(file(row), Err((19, 26)), "{row}"));
    let rows = "Y       6      3     17     18      0     18     19      0     21";
    let as_layer = ["Y      22      0     23     24      0     25", "Y      22      1     23", "Y      22      1     24"];
    for row in as_layer {
        assert_eq!(judged(&with(&deep(), &[rows, row, "YE     26      4      2"])), Err((19, 27)), "{row}");
    }
}

#[test]
fn records_missing_doubled_and_too_many() {
    let (row, end) = ("Y       6      1      9", "YE     10      1      2");
    let after = |texts: &[&str]| judged(&with(&example(), texts));
    assert_eq!(after(&[end]), Err((19, 10)));
    assert_eq!(after(&[row, row, end]), Err((19, 11)));
    assert_eq!(after(&[row, "Y ", end]), Err((19, 11)));
    assert_eq!(after(&[row, end, end]), Err((19, 12)));
    assert_eq!(judged(&with(&layers(0), &["Y ", "YE      6      0      2"])), Err((19, 6)));
    assert_eq!(judged(&with(&layers(0), &["YE      6      0      2", "YE      6      0      2"])), Err((19, 7)));
    let three = "Y       6      0      6      7      0      7      8      0      8";
    let file = |texts: &[&str]| judged(&with(&layers(4), texts));
    let (fourth, end) = ("Y       9      0      9", "YE     10      4      2");
    assert_eq!(file(&[three, fourth, end]), Ok((9, 0)));
    assert_eq!(file(&[fourth, three, end]), Err((19, 10)));
    assert_eq!(file(&[&three[..44], "Y       8      0      8      9      0      9", end]), Err((19, 10)));
    assert_eq!(file(&[&format!("{three}      9"), fourth, end]), Err((19, 10)));
    assert_eq!(file(&[three, end]), Err((19, 11)));
    assert_eq!(file(&[three, "Y       9      0      9     10      0     10", "YE     10      5      2"]), Err((19, 11)));
    assert_eq!(file(&[three, fourth, fourth, end]), Err((19, 12)));
}

#[test]
fn one_edition_on_the_other() {
    let (row, end, old_row, old_end) = ("Y       6      1      9", "YE     10      1      2", "Z       6", "ZE     10      1");
    let both = |texts: &[&str]| {
        let file = with(&example(), texts);
        (judged(&file), judged_by_the_old(&file))
    };
    // the records of one edition, the last record of the other
    assert_eq!(both(&[row, old_end]), (Err((19, 10)), Err((19, 10))));
    assert_eq!(both(&[old_row, end]), (Err((19, 10)), Err((19, 11))));
    assert_eq!(both(&["Z       6      1      9", end]), (Err((19, 10)), Err((19, 11))));
    // a "YE" with the columns of the first edition
    assert_eq!(both(&[row, "YE     10      1"]), (Err((27, 11)), Err((19, 11))));
    // both editions behind one sheet, each pointing to its own first record, or both to the first of all
    assert_eq!(both(&[row, end, old_row, "ZE     12      1"]), (Err((4, 10)), Err((4, 10))));
    assert_eq!(both(&[old_row, old_end, row, "YE     12      1      2"]), (Err((4, 10)), Err((19, 13))));
    assert_eq!(both(&[row, end, row, "YE     12      1      2"]), (Err((4, 10)), Err((19, 13))));
    assert_eq!(both(&[row, end, old_end]), (Err((19, 10)), Err((19, 10))));
    assert_eq!(both(&[old_row, old_end, end]), (Err((19, 10)), Err((19, 12))));
    assert_eq!(both(&[row, old_end, end]), (Err((19, 11)), Err((19, 12))));
}

#[test]
fn appending_refuses_by_the_sheets_own_then_15() {
    let sheet = example();
    let with_room = |room: usize| [sheet.as_bytes(), &vec![b'.'; room]].concat();
    for (room, answer) in [(0, Err(15)), (84, Err(15)), (167, Err(15)), (168, Ok(924)), (169, Ok(924)), (252, Ok(924))] {
        let mut buffer = with_room(room);
        assert_eq!(SECOND.append(&mut buffer, 756).map_err(|r| r.number), answer, "{room}");
        assert!(answer.is_ok() || buffer == with_room(room));
    }
    let mut buffer = with_room(84);
    for (used, answer) in [(0, (1, 0)), (841, (1, 0)), (924, (1, 0)), (840, (4, 10)), (672, (3, 7)), (504, (10, 2))] {
        assert_eq!(refused(SECOND.append(&mut buffer, used)), Some(answer), "{used}");
    }
    assert!(buffer == with_room(84));
    // four layers take three records, for which the first edition takes two
    let mut four = [layers(4).as_bytes(), &[b'.'; 2 * RECORD]].concat();
    assert_eq!(refused(SECOND.append(&mut four, 756)), Some((15, 0)));
    assert_eq!(directory::append(&mut four, 756), Ok(924));
    // what has a directory of either edition is no sheet
    for behind in [appended(&sheet), put_behind(&sheet, directory::append)] {
        let mut twice = (sheet.clone() + &behind + &record("") + &record("")).into_bytes();
        assert_eq!(refused(SECOND.append(&mut twice, 924)), Some((4, 10)));
        assert_eq!(refused(directory::append(&mut twice, 924)), Some((4, 10)));
    }
}

#[test]
fn jumping_finds_header_total_and_last() {
    let second = (deep() + &appended(&deep())).into_bytes();
    let first = (deep() + &put_behind(&deep(), directory::append)).into_bytes();
    let right = [(6, 3, 17), (18, 0, 18), (19, 0, 21), (22, 1, 25)];
    for (layer, (header, total, last)) in (1..).zip(right) {
        assert_eq!(NEW.jump(&second, second.len(), layer), Ok(Layer { header, total, last }));
        // "both 0 for edition 1"
        assert_eq!(NEW.jump(&first, first.len(), layer), Ok(Layer { header, total: 0, last: 0 }));
        assert_eq!(directory::jump(&first, first.len(), layer), Ok(header));
        assert_eq!(refused(directory::jump(&second, second.len(), layer)), Some((19, 28)));
    }
    for outside in [0, 5, 12, u64::MAX, 1 << 32, (1 << 32) + 1] {
        assert_eq!(refused(NEW.jump(&second, second.len(), outside)), Some((17, 0)), "{outside}");
        assert_eq!(refused(NEW.jump(&first, first.len(), outside)), Some((17, 0)), "{outside}");
    }
    let none = (layers(0) + &appended(&layers(0))).into_bytes();
    assert_eq!(refused(NEW.jump(&none, none.len(), 1)), Some((17, 0)));
    // 17 comes last
    assert_eq!(refused(NEW.jump(layers(3).as_bytes(), 8 * RECORD, 0)), Some((19, 8)));
    // the last data record of a sheet without a directory is taken for its last record: the attribute lacks its data
    assert_eq!(refused(NEW.jump(deep().as_bytes(), deep().len(), 0)), Some((3, 23)));
}

/// 199,995 layers behind a sheet part of five records: 66,665 records list them, and the file has more than 200,000.
#[test]
fn two_hundred_thousand_records_of_layers() {
    let mut file = [layers(199_995).as_bytes(), &[b' '; 66_666 * RECORD]].concat();
    assert_eq!(SECOND.append(&mut file, 200_000 * RECORD), Ok(266_666 * RECORD));
    assert!(file.ends_with(record("YE 200001 199995      2").as_bytes()));
    let last_row = record("Y  199998      0 199998 199999      0 199999 200000      0 200000");
    assert_eq!(&file[266_664 * RECORD..266_665 * RECORD], last_row.as_bytes());
    assert_eq!(judged(std::str::from_utf8(&file).expect("text")), Ok((200_000, 0)));
    assert_eq!(NEW.jump(&file, file.len(), 199_995), Ok(Layer { header: 200_000, total: 0, last: 200_000 }));
    assert_eq!(refused(directory::sheet(&file, file.len())), Some((19, 266_666)));
    assert_eq!(refused(judge::sheet(&file, file.len())), Some((1, 0)));
    // one layer more: the sheet before the pointer is too long
    let longer = with(&layers(199_996), &["Y  200001      0 200001", "YE 200002 199996      2"]);
    assert_eq!(judged(&longer), Err((1, 0)));
    assert_eq!(refused(SECOND.append(&mut longer.into_bytes(), 200_001 * RECORD)), Some((1, 0)));
}

/// Two groups of 99,000 points each: together more than a header can state.
#[test]
fn a_total_that_no_header_states() {
    let point = "E52101 0   0   1 3 00210 00   0   0      0      0        0       2408              1".repeat(99_000);
    let mut group = header(2, 0, 0, 0);
    group.replace_range(18..23, "99000");
    group.replace_range(48..53, "99000");
    let sheet = part(198_000, 198_003) + &header(1, 2, 0, 0) + &group + &point + &group + &point;
    assert_eq!(appended(&sheet), record("Y       6 198000 198008") + &record("YE 198009      1      2"));
    let file = (sheet.clone() + &appended(&sheet)).into_bytes();
    assert_eq!(NEW.jump(&file, file.len(), 1), Ok(Layer { header: 6, total: 198_000, last: 198_008 }));
    // cut to sixteen bits, or to five columns
    for row in ["Y       6   1392   1400", "Y       6  98000 198008", "Y       6      2 198008"] {
        assert_eq!(judged(&with(&sheet, &[row, "YE 198009      1      2"])), Err((19, 198_009)), "{row}");
    }
}

#[test]
fn the_commands_of_the_batch_protocol() {
    let sheet = hex(example().as_bytes());
    let second = hex((example() + &appended(&example())).as_bytes());
    let first = hex((example() + &put_behind(&example(), directory::append)).as_bytes());
    assert_eq!(reply(&format!("directory2 924 {second}")), "ok 9 1");
    assert_eq!(reply(&format!("directory2 924 {first}")), "ok 9 1");
    assert_eq!(reply(&format!("directory 924 {second}")), "no 19 11");
    assert_eq!(reply(&format!("directory2 756 {sheet}")), "no 19 9");
    assert_eq!(reply(&format!("directory2 84 {}", hex(record("YE").as_bytes()))), "no 27 1");
    assert_eq!(reply(&format!("append2 756 {sheet}")), "no 15 0");
    assert_eq!(reply(&format!("append2 756 {sheet}{}", "2e".repeat(170))), format!("ok 924 {second}2e2e"));
    assert_eq!(reply(&format!("append2 924 {first}")), "no 4 10");
    assert_eq!(reply(&format!("jump2 924 {second} 1")), "ok 6 1 9");
    assert_eq!(reply(&format!("jump2 924 {first} 1")), "ok 6 0 0");
    assert_eq!(reply(&format!("jump 924 {second} 1")), "no 19 11");
    assert_eq!(reply(&format!("jump2 924 {second} 18446744073709551615")), "no 17 0");
    assert_eq!(reply("jump2 0 - 0"), "no 1 0");
    assert_eq!(reply(&format!("jump2 924 {second}")), "error a word is missing");
    assert_eq!(reply("directory2 0"), "error a word is missing");
    assert_eq!(reply("append2 0 - -"), "error one word too many: -");
}
