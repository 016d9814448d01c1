//! What random sheets with a directory do not reach: 200,000 records of layers, faults deep in large directories, record numbers above 65,536, the
//! ends of the numbers; and edits, which work on the file without its directory.

use differential::{Calls, NEW_CALLS, OLD_CALLS};
use reference::calls::{draw, Edit};
use reference::directory::{record, Layer};
use reference::random::Random;
use reference::{sheets, RECORD};
use zvaigulta::{insert, judge_sheet, remove, Refusal};

const MOST: usize = 200_000;

fn refused<T>(answer: Result<T, Refusal>) -> Option<(u64, usize)> {
    answer.err().map(|refusal| (refusal.number(), refusal.record.unwrap_or(0)))
}

/// The sheet with the reference's directory behind it, of the calls' edition.
fn with_directory(calls: &Calls, sheet: &[u8]) -> Vec<u8> {
    let mut file = sheet.to_vec();
    file.resize(2 * sheet.len() + RECORD, b' ');
    let used = calls.edition.append(&mut file, sheet.len()).expect("an accepted sheet");
    file.truncate(used);
    file
}

/// Both calls that read a directory refuse a file so.
fn both_refuse(calls: &Calls, file: &[u8], expected: (u64, usize)) {
    assert_eq!(refused((calls.judge)(file, file.len())), Some(expected));
    assert_eq!(refused((calls.jump)(file, file.len(), 1)), Some(expected));
}

/// What a jump finds of a layer of so many records with so many items.
fn found(calls: &Calls, header: usize, records: usize, total: usize) -> Layer {
    calls.edition.finds(&Layer { header, total, last: header + records - 1 })
}

/// 200,000 records, nearly all of them layers: the directory takes the file past 200,000 records, which plain judging refuses.
fn two_hundred_thousand_records_of_layers_by(calls: &Calls) {
    let sheet = sheets::sheet_of_layers(MOST);
    let used = sheet.len();
    let file = with_directory(calls, &sheet);
    let part = sheet.chunks(RECORD).position(|record| record.starts_with(b"H ")).expect("a layer");
    let layers = MOST - part;
    assert_eq!((used, file.len()), (MOST * RECORD, (MOST + layers.div_ceil(calls.edition.layers) + 1) * RECORD));
    let mut buffer = [&sheet[..], &vec![b'.'; file.len() - used + 3]].concat();
    assert_eq!(refused((calls.append)(&mut buffer[..file.len() - 1], used)), Some((15, 0)));
    assert!(buffer[used..].iter().all(|b| *b == b'.') && buffer.starts_with(&sheet));
    assert_eq!((calls.append)(&mut buffer, used), Ok(file.len()));
    assert!(buffer == [&file[..], b"..."].concat());
    assert_eq!((calls.judge)(&buffer, file.len()).map(|c| (c.records, c.items)), Ok((MOST, 0)));
    assert_eq!(refused(judge_sheet(&buffer, file.len())), Some((1, 0)));
    for layer in [1, 2, 10, 11, 12, 22, 23, 65_536, 65_537, layers / 2, layers - 1, layers] {
        assert_eq!((calls.jump)(&buffer, file.len(), layer), Ok(found(calls, part + layer, 1, 0)), "{layer}");
    }
    for layer in [0, layers + 1, MOST, MOST + 1, (1 << 32) + 1, usize::MAX] {
        assert_eq!(refused((calls.jump)(&buffer, file.len(), layer)), Some((17, 0)), "{layer}");
    }
}

#[test]
fn two_hundred_thousand_records_of_layers() {
    two_hundred_thousand_records_of_layers_by(&OLD_CALLS);
}

#[test]
fn two_hundred_thousand_records_of_layers_in_the_second_edition() {
    two_hundred_thousand_records_of_layers_by(&NEW_CALLS);
}

/// One layer more: the sheet before the pointer is too long, whatever its directory is.
fn one_record_more_than_a_sheet_has_by(calls: &Calls) {
    let sheet = sheets::sheet_of_layers(MOST + 1);
    let end = calls.edition.closing(MOST as i64 + 2, 7);
    let mut file = [&sheet[..], &record(calls.edition.list, &[6]), &end].concat();
    both_refuse(calls, &file, (1, 0));
    let twin = file.clone();
    assert_eq!(refused((calls.append)(&mut file, sheet.len())), Some((1, 0)));
    assert!(file == twin);
    // a pointer one less leaves 200,000 records, of which record 2 states one more
    let last = file.len() - RECORD;
    file[last..].copy_from_slice(&calls.edition.closing(MOST as i64 + 1, 7));
    both_refuse(calls, &file, (10, 2));
    // the last record is looked at first
    file[last..].copy_from_slice(&calls.edition.closing(MOST as i64 + 4, 7));
    both_refuse(calls, &file, (19, MOST + 3));
}

#[test]
fn one_record_more_than_a_sheet_has() {
    one_record_more_than_a_sheet_has_by(&OLD_CALLS);
    one_record_more_than_a_sheet_has_by(&NEW_CALLS);
}

/// A fault at any record of a directory of hundreds, and in the sheet before it, as the reference answers it.
fn faults_deep_in_large_directories_by(calls: &Calls) {
    let mut r = Random(55);
    let sheet = sheets::sheet_with_layers(&mut r, 3_000, 1);
    let file = with_directory(calls, &sheet);
    let (records, rows) = (file.len() / RECORD, (file.len() - sheet.len()) / RECORD - 1);
    assert_eq!(rows, 3_000usize.div_ceil(calls.edition.layers));
    let mut wrong = Vec::new();
    for n in 0..150 {
        let damaged = sheets::damaged(&mut r, &file[sheet.len()..]);
        let twin = if n % 5 == 4 { sheets::damaged(&mut r, &file) } else { [&sheet[..], &damaged].concat() };
        let right = calls.reader.sheet(&twin, twin.len());
        let answer = (calls.judge)(&twin, twin.len());
        assert_eq!(answer.map(|c| (c.records, c.items)).ok(), right.map(|c| (c.records, c.items)).ok(), "case {n}");
        assert_eq!(refused(answer), right.err().map(|e| (e.number.into(), e.record)), "case {n}");
        wrong.extend(right.err().filter(|e| e.number == 19 && e.record < records).map(|e| e.record));
    }
    let (first, last) = (wrong.iter().min().expect("some"), wrong.iter().max().expect("some"));
    assert!(wrong.len() > 50 && last - first > rows * 3 / 4, "{wrong:?}");
}

#[test]
fn faults_deep_in_large_directories() {
    faults_deep_in_large_directories_by(&OLD_CALLS);
}

#[test]
fn faults_deep_in_the_second_edition() {
    faults_deep_in_large_directories_by(&NEW_CALLS);
}

/// Layers behind 70,000 records of a grid: their numbers pass 65,536.
fn behind_the_technicians_grid_by(calls: &Calls) {
    let mut body = vec![sheets::layer(&[(9, 1)])];
    body.extend(sheets::large_grid(1_000, 840));
    body.extend(vec![sheets::layer(&[]); 11]);
    let sheet = sheets::sheet_of(&mut Random(3), body, 1);
    let rows = 12usize.div_ceil(calls.edition.layers);
    let mut file = sheet.clone();
    file.resize(sheet.len() + (rows + 1) * RECORD, b' ');
    assert_eq!((calls.append)(&mut file, sheet.len()), Ok(file.len()));
    assert!(file == with_directory(calls, &sheet));
    let records = sheet.len() / RECORD;
    assert_eq!((calls.judge)(&file, file.len()).map(|c| (c.records, c.items)), Ok((records, 1)));
    assert_eq!((calls.jump)(&file, file.len(), 1), Ok(found(calls, records - 70_012, 70_002, 1)));
    for layer in 2..=12 {
        assert_eq!((calls.jump)(&file, file.len(), layer), Ok(found(calls, records - 12 + layer, 1, 0)));
    }
    // a header, a last record, or a pointer, that would be right if it were cut to sixteen bits
    let second = sheet.len() + 2 + 7 * calls.edition.numbers;
    let last_of_first = (calls.edition.numbers > 1).then_some((second - 7, records - 11));
    for (at, number) in [(second, records - 10)].into_iter().chain(last_of_first) {
        let mut twin = file.clone();
        assert_eq!(twin[at..at + 7], record("", &[number as i64])[..7]);
        twin[at..at + 7].copy_from_slice(&record("", &[number as i64 % 65_536])[..7]);
        both_refuse(calls, &twin, (19, records + 1));
    }
    let last = file.len() - RECORD;
    file[last..].copy_from_slice(&calls.edition.closing((records + 1) as i64 + 65_536, 12));
    both_refuse(calls, &file, (19, records + rows + 1));
}

#[test]
fn behind_the_technicians_grid() {
    behind_the_technicians_grid_by(&OLD_CALLS);
    behind_the_technicians_grid_by(&NEW_CALLS);
}

/// Used lengths and layers at the ends of 64 bits, and those that would be right if they were cut to 32: answered, and nothing is changed.
fn sixty_four_bit_ends_by(calls: &Calls) {
    let sheet = sheets::sheet_with_layers(&mut Random(9), 3, 2);
    let file = with_directory(calls, &sheet);
    let used = file.len();
    for length in
        [usize::MAX, usize::MAX - 83, usize::MAX / RECORD * RECORD, 1 << 63, (1 << 32) + used, used + 1, used + RECORD, 0]
    {
        let mut twin = file.clone();
        assert_eq!(refused((calls.judge)(&file, length)), Some((1, 0)));
        assert_eq!(refused((calls.jump)(&file, length, 1)), Some((1, 0)));
        assert_eq!(refused((calls.append)(&mut twin, length)), Some((1, 0)));
        assert!(twin == file);
    }
    for layer in
        [usize::MAX, usize::MAX - 1, 1 << 63, (1 << 32) + 1, (1 << 32) + 3, usize::MAX / 7, usize::MAX / 11 * 11 + 1, 4, 0]
    {
        assert_eq!(refused((calls.jump)(&file, used, layer)), Some((17, 0)), "{layer}");
    }
    assert_eq!((calls.jump)(&file, used, 3), calls.reader.jump(&file, used, 3).map_err(|_| unreachable!()));
    for empty in [0, 1, usize::MAX] {
        assert_eq!(refused((calls.judge)(&[], empty)), Some((1, 0)));
        assert_eq!(refused((calls.jump)(&[], empty, empty)), Some((1, 0)));
        assert_eq!(refused((calls.append)(&mut [], empty)), Some((1, 0)));
    }
}

#[test]
fn sixty_four_bit_ends() {
    sixty_four_bit_ends_by(&OLD_CALLS);
    sixty_four_bit_ends_by(&NEW_CALLS);
}

/// An edit refuses a sheet with a directory with 4; without it the edit is made, and the directory is appended anew.
fn edits_work_on_the_file_without_it_by(calls: &Calls) {
    let mut r = Random(56);
    let mut moved = 0;
    for n in 0..400 {
        let layers = 1 + r.below(14);
        let sheet = sheets::sheet_with_layers(&mut r, layers, 2);
        let used = sheet.len();
        let mut buffer = with_directory(calls, &sheet);
        let (length, before) = (buffer.len(), (calls.jump)(&buffer, buffer.len(), layers));
        let edit = draw(&mut r, &sheet, used);
        buffer.extend([b'.'; 60 * RECORD]);
        assert_eq!(refused(run(&edit, &mut buffer, length)), Some((4, used / RECORD + 1)), "case {n}");
        let edited = run(&edit, &mut buffer, used).unwrap_or(used);
        let mut twin = buffer.clone();
        let file = (calls.append)(&mut buffer, edited);
        assert_eq!(file.ok(), calls.edition.append(&mut twin, edited).ok(), "case {n}");
        assert!(buffer == twin && (calls.judge)(&buffer, file.expect("room")).is_ok(), "case {n}");
        moved += usize::from(before != (calls.jump)(&buffer, file.expect("room"), layers));
    }
    assert!(moved > 50, "{moved}");
}

#[test]
fn edits_work_on_the_file_without_it() {
    edits_work_on_the_file_without_it_by(&OLD_CALLS);
    edits_work_on_the_file_without_it_by(&NEW_CALLS);
}

fn run(edit: &Edit, buffer: &mut [u8], used: usize) -> Result<usize, Refusal> {
    match edit {
        Edit::Insert(place, block) => insert(buffer, used, *place as usize, block),
        Edit::Remove(place) => remove(buffer, used, *place as usize),
    }
}

/// A layer of two groups with 99,000 points each, a total that no header states; and one that is empty.
#[test]
fn a_total_that_no_header_states() {
    let point = b"E52101 0   0   1 3 00210 00   0   0      0      0        0       2408              1".to_vec();
    let group = [vec![sheets::header_of(2, &[(5, 99_000)])], vec![point; 99_000]].concat();
    let body = [vec![sheets::layer(&[(0, 2)])], group.clone(), group, vec![sheets::layer(&[])]].concat();
    let sheet = sheets::sheet_of(&mut Random(3), body, 198_000);
    let (records, mut file) = (sheet.len() / RECORD, with_directory(&NEW_CALLS, &sheet));
    let mut buffer = [&sheet[..], &[b'.'; 2 * RECORD]].concat();
    assert_eq!((NEW_CALLS.append)(&mut buffer, sheet.len()), Ok(file.len()));
    assert!(buffer == file);
    assert_eq!((NEW_CALLS.jump)(&file, file.len(), 1), Ok(found(&NEW_CALLS, records - 198_003, 198_003, 198_000)));
    assert_eq!((NEW_CALLS.jump)(&file, file.len(), 2), Ok(found(&NEW_CALLS, records, 1, 0)));
    // one less, cut to sixteen bits, what the header states
    for total in [197_999, 198_000 % 65_536, 2] {
        file[sheet.len() + 9..sheet.len() + 16].copy_from_slice(&record("", &[total])[..7]);
        both_refuse(&NEW_CALLS, &file, (19, records + 1));
    }
}

/// The new calls find the same headers by either edition, and the old ones refuse the second at its last record.
#[test]
fn the_same_headers_by_either_edition() {
    let mut r = Random(57);
    for n in 0..200 {
        let layers = r.below(14);
        let sheet = sheets::sheet_with_layers(&mut r, layers, 3);
        let [first, second] = [with_directory(&OLD_CALLS, &sheet), with_directory(&NEW_CALLS, &sheet)];
        assert_eq!((NEW_CALLS.judge)(&first, first.len()), (NEW_CALLS.judge)(&second, second.len()), "case {n}");
        for layer in 0..=layers + 1 {
            let old = (OLD_CALLS.jump)(&first, first.len(), layer);
            assert_eq!((NEW_CALLS.jump)(&first, first.len(), layer), old, "case {n}, layer {layer}");
            let of_second = (NEW_CALLS.jump)(&second, second.len(), layer);
            assert_eq!(of_second.map(|found| found.header), old.map(|found| found.header), "case {n}, layer {layer}");
        }
        both_refuse(&OLD_CALLS, &second, (19, second.len() / RECORD));
    }
}
