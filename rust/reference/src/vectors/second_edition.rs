//! Calls of order 13 for the program `directory_vectors`, whose bytes are stated here: the new calls on both editions, the old ones on the second.

use super::directories::{append, empty_layers, example, jump, listed_in, whole, with, Call, Case};
use crate::directory::{FIRST, SECOND};
use crate::layout::Layouts;
use crate::line_calls::Lent;
use crate::sheets::{header_of, layer, EXAMPLE_ITEM, EXAMPLE_PART};
use crate::RECORD;

/// The new call in place of the old one.
fn by_new(case: Case) -> Case {
    let call = match case.call {
        Call::Directory => Call::Either,
        Call::Append => Call::Second,
        Call::Jump => Call::Layer,
        new => new,
    };
    Case { call, ..case }
}

/// The example's line at a level, or an attribute in its place, whose two data records read like a layer's header and like a last record.
fn item(level: i64, attribute: bool) -> Vec<u8> {
    let mut item = EXAMPLE_ITEM.concat().into_bytes();
    let element = &Layouts::shared().element;
    element.put("level", &mut item[..RECORD], level);
    if attribute {
        item[..2].copy_from_slice(b"E8");
        [("data kind", 5), ("data count", 2)].iter().for_each(|(name, n)| element.put(name, &mut item[..RECORD], *n));
        item[RECORD..2 * RECORD].copy_from_slice(&layer(&[]));
        item[2 * RECORD..].copy_from_slice(&SECOND.closing(24, 4));
    }
    item
}

/// Twenty-five records. Layer 1, from 6, has a line, a group and in it a group with two lines; layer 2, 18, is empty; layer 3, from 19, has empty groups;
/// layer 4, from 22, has an attribute.
fn deep() -> Vec<u8> {
    let (line, in_group) = (item(2, false), item(4, false));
    let first = [layer(&[(0, 1), (2, 1)]), line, header_of(2, &[(0, 1)]), header_of(3, &[(2, 2)]), in_group.clone(), in_group];
    let others = [layer(&[]), layer(&[(0, 1)]), header_of(2, &[(0, 1)]), header_of(3, &[]), layer(&[(8, 1)]), item(2, true)];
    let mut sheet = [EXAMPLE_PART.concat().into_bytes(), first.concat(), others.concat()].concat();
    for (name, n) in [("elements", 4), ("records", 20)] {
        Layouts::shared().sheet_b.put(name, &mut sheet[RECORD..2 * RECORD], n);
    }
    sheet
}

/// The example and the deep sheet in both editions: appended, judged, and jumped to each layer, and by the old calls.
fn documented() -> Vec<Case> {
    let (file, of_first, deep_file) = (listed_in(&SECOND, &example()), listed_in(&FIRST, &deep()), listed_in(&SECOND, &deep()));
    let mut cases = vec![append(example(), 3 * RECORD), append(deep(), 4 * RECORD), whole(deep_file.clone()), whole(deep())];
    cases.extend([1, 2].map(|layer| jump(file.clone(), layer)));
    cases.extend([0, 1, 2, 3, 4, 5].map(|layer| jump(deep_file.clone(), layer)));
    cases.extend([whole(of_first.clone()), jump(of_first.clone(), 1), jump(of_first, 4)]);
    let old = [whole(deep_file.clone()), jump(deep_file, 1)];
    cases.into_iter().chain([append(file, 3 * RECORD)]).map(by_new).chain(old).collect()
}

/// Layers that fill the directory's records, one more and one less: appended with just the room, for four layers a byte less, and judged.
fn counts() -> Vec<Case> {
    let of = |count: usize| {
        let (sheet, file) = (empty_layers(count), listed_in(&SECOND, &empty_layers(count)));
        [append(sheet.clone(), file.len() - sheet.len()), whole(file)].map(by_new)
    };
    let short = by_new(append(empty_layers(4), 3 * RECORD - 1));
    [0, 2, 3, 4, 7].into_iter().flat_map(of).chain([short]).collect()
}

/// The edition column of one layer's file, a file of eight records; with another fault in the last record, in a row, or in the sheet; by the old call.
fn editions() -> Vec<Case> {
    let file = |end: &str| with(&empty_layers(1), &["Y       6      0      6", end]);
    let columns = ["      0", "      1", "      3", "     02", "     -2", "       ", "2      ", "     +2", "     22", "      2"];
    let ends = columns.map(|edition| format!("YE      7      1{edition}"));
    let mut cases: Vec<Case> = ends.iter().map(|end| whole(file(end))).collect();
    let both = ["YE      0      1      3", "YE      7     01      1", "YE      7      1      3x"];
    cases.extend(both.map(|end| whole(file(end))));
    let no_row = with(&empty_layers(1), &["Z       7", "YE      7      1"]);
    cases.extend([whole(no_row.clone()), jump(no_row.clone(), 0), whole(with(b"", &["YE      1      0      1"]))]);
    cases.into_iter().map(by_new).chain([whole(no_row.clone()), jump(no_row, 1)]).collect()
}

/// The last record of one layer's file with its edition, and another fault.
fn ends() -> Vec<Case> {
    let letters = ["Ye      7      1      2", "ZE      7      1      2"];
    let columns = ["YE    007      1      2", "YE             1      2", "YE      7     01      2", "YE      7             2"];
    let rests = ["YE      7      1      2x"];
    let outside = ["YE      0      1      2", "YE      9      1      2", "YE      1      1      2", "YE      8      1      2"];
    let counts = ["YE      7     -1      2", "YE      7      0      2", "YE      7      2      2"];
    let texts = letters.iter().chain(&columns).chain(&rests).chain(&outside).chain(&counts);
    texts.map(|end| by_new(whole(with(&empty_layers(1), &["Y       6      0      6", end])))).collect()
}

/// The example with another first record of its directory: header, total and last, each one off or in another form, and other faults.
fn rows() -> Vec<Case> {
    let numbers = [
        "Y       5      1      9",
        "Y       7      1      9",
        "Y       6      0      9",
        "Y       6      2      9",
        "Y       6      1      8",
        "Y       6      1     10",
        "Y       6     01      9",
        "Y       6             9",
        "Y       6      1",
    ];
    let others = ["Y       6      1      9      7      0      7", "Y       6      1      9x", "Z       6"];
    let end = "YE     10      1      2";
    numbers.iter().chain(&others).map(|row| by_new(whole(with(&example(), &[row, end])))).collect()
}

/// Rows missing, doubled, too many or not full, and one edition on the other or with the other's last record.
fn lists() -> Vec<Case> {
    let (row, end, old_row, old_end) = ("Y       6      1      9", "YE     10      1      2", "Z       6", "ZE     10      1");
    let lists: [&[&str]; 9] = [
        &[end],
        &[row, row, end],
        &[row, end, end],
        &[row, old_end],
        &[old_row, end],
        &[old_row, old_end, end],
        &[row, end, old_row, "ZE     12      1"],
        &[old_row, old_end, row, "YE     12      1      2"],
        &[row, end, row, "YE     12      1      2"],
    ];
    let three = "Y       6      0      6      7      0      7      8      0      8";
    let (fourth, last) = ("Y       9      0      9", "YE     10      4      2");
    let of_four: [&[&str]; 3] =
        [&[fourth, three, last], &[&three[..44], "Y       8      0      8      9      0      9", last], &[three, last]];
    let files = lists.iter().map(|list| with(&example(), list)).chain(of_four.iter().map(|list| with(&empty_layers(4), list)));
    files.map(|file| by_new(whole(file))).collect()
}

/// Used lengths of one layer's file in a buffer with a record behind it, and layers at the ends of what a line states.
fn lengths() -> Vec<Case> {
    let file = listed_in(&SECOND, &empty_layers(1));
    let buffer = [file.clone(), vec![b'x'; RECORD]].concat();
    let of = |used: usize| whole(buffer.clone()).with_used(used);
    let used = [0, 671, 756].map(of);
    used.into_iter().chain([(1 << 32) + 1].map(|layer| jump(file.clone(), layer))).map(by_new).collect()
}

impl Case {
    fn with_used(self, used: usize) -> Case {
        Case { lent: Lent { used, ..self.lent }, ..self }
    }
}

/// All of them.
pub(super) fn fixed() -> Vec<Case> {
    [documented(), counts(), editions(), ends(), rows(), lists(), lengths()].concat()
}
