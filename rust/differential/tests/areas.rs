//! Tens of thousands of cases in each area; and what random files do not reach: the technician's grid and the limits of 200,000 records.

use differential::{
    every_byte_of_a_directory, every_byte_of_a_sheet, every_byte_of_an_index, every_byte_of_lines,
    every_byte_of_the_second_edition, every_edition, every_line_end, every_pointer, every_pointer_of_the_second_edition, Answers,
    AREAS,
};
use reference::random::Random;
use reference::{sheets, RECORD};
use zvaigulta::{insert, judge_index, judge_sheet, remove, Refusal};

/// So many cases of an area, with every answer that must be among them.
fn no_difference_in(name: &str, cases: usize) {
    let area = AREAS.iter().find(|area| area.name == name).expect("an area");
    let mut answers = Answers::default();
    (area.run)(&mut Random(2026), cases, &mut answers).unwrap_or_else(|difference| panic!("{}: {difference}", area.name));
    assert!(answers.have(area.answers), "{}: {:?}", area.name, answers.0);
}

/// A test for each area, so that they run beside each other; and one that none is left out.
macro_rules! areas {
    ($($test:ident: $name:literal, $cases:literal;)*) => {
        $(#[test] fn $test() { no_difference_in($name, $cases) })*

        #[test]
        fn every_area_has_its_test() {
            assert_eq!(AREAS.map(|area| area.name), [$($name),*]);
        }
    };
}

areas! {
    reading_columns: "reading columns", 250_000;
    writing_columns: "writing columns", 250_000;
    joining_corners: "joining corners", 250_000;
    splitting_corners: "splitting corners", 250_000;
    judging_sheets: "judging sheets", 30_000;
    judging_indexes: "judging indexes", 30_000;
    normal_forms: "normal forms", 30_000;
    ways_up: "ways up", 30_000;
    the_programs_line: "the program's line", 30_000;
    sheets_with_line_ends: "sheets with line ends", 30_000;
    indexes_with_line_ends: "indexes with line ends", 30_000;
    writing_line_ends: "writing line ends", 30_000;
    taking_line_ends_off: "taking line ends off", 30_000;
    judging_with_directory: "judging with directory", 20_000;
    appending_a_directory: "appending a directory", 10_000;
    jumping_by_a_directory: "jumping by a directory", 20_000;
    old_calls_on_the_second_edition: "old calls, second edition", 20_000;
    judging_either_edition: "judging either edition", 20_000;
    appending_the_second_edition: "appending the second edition", 10_000;
    jumping_in_either_edition: "jumping in either edition", 20_000;
    lists_of_edits: "lists of edits", 30_000;
}

#[test]
fn no_difference_in_every_byte_of_small_files() {
    let answers = every_byte_of_a_sheet(4).unwrap();
    assert!(answers.have(&[0, 2, 4, 5, 6]), "{:?}", answers.0);
    let answers = every_byte_of_an_index(4).unwrap();
    assert!(answers.have(&[0, 2, 5, 6]), "{:?}", answers.0);
}

/// Of 65,536 pairs at the end of a record one is a line end: at three records, and by two calls.
#[test]
fn no_difference_in_every_byte_of_files_with_line_ends() {
    let answers = every_byte_of_lines(4).unwrap();
    assert!(answers.have(&[0, 2, 4, 5, 6, 18]), "{:?}", answers.0);
    let answers = every_line_end(4).unwrap();
    assert_eq!(answers.0.into_iter().collect::<Vec<_>>(), [(0, 6), (18, 6 * 65_535)]);
}

/// A byte of the directory's three records is one of 256: right is one of them.
#[test]
fn no_difference_in_every_byte_of_a_directory() {
    let answers = every_byte_of_a_directory(4).unwrap();
    let bytes = 3 * RECORD;
    assert_eq!(answers.0.values().sum::<usize>(), 256 * bytes);
    assert_eq!(answers.0.get(&0), Some(&bytes), "{:?}", answers.0);
    let answers = every_pointer(4).unwrap();
    assert!(answers.have(&[0, 1, 3, 4, 10, 19]), "{:?}", answers.0);
}

/// Seven bytes of the directory's three records are the edition column, and any other byte there is 27. Of 65,536 pairs at its end one is right.
#[test]
fn no_difference_in_every_byte_of_the_second_edition() {
    let answers = every_byte_of_the_second_edition(4).unwrap();
    let bytes = 3 * RECORD;
    assert_eq!(answers.0.values().sum::<usize>(), 256 * bytes);
    assert_eq!((answers.0.get(&0), answers.0.get(&27)), (Some(&bytes), Some(&(7 * 255))), "{:?}", answers.0);
    let answers = every_pointer_of_the_second_edition(4).unwrap();
    assert!(answers.have(&[0, 1, 3, 4, 10, 19]), "{:?}", answers.0);
    let answers = every_edition(4).unwrap();
    assert_eq!(answers.0.into_iter().collect::<Vec<_>>(), [(0, 1), (27, 65_535)]);
}

fn refused<T>(answer: Result<T, Refusal>) -> Option<(u64, usize)> {
    answer.err().map(|refusal| (refusal.number(), refusal.record.unwrap_or(0)))
}

/// 1,000 by 840 points, 70,000 data records, which the grid header states by repeat 8 and records 0.
#[test]
fn the_technicians_grid() {
    let mut body = vec![sheets::layer(&[(9, 1)])];
    body.extend(sheets::large_grid(1_000, 840));
    let header = String::from_utf8(body[1].clone()).unwrap();
    assert_eq!(header[26..30].trim().parse(), Ok(0));
    assert!(header.ends_with('8'), "{header}");
    let mut file = sheets::sheet_of(&mut Random(3), body, 1);
    let records = file.len() / RECORD;
    let grid = records - 70_000;
    let counts = judge_sheet(&file, file.len()).unwrap();
    assert_eq!((counts.records, counts.items), (records, 1));
    // 65,536 records lost, or one: the grid's header answers 3
    for lost in [1, 65_536] {
        assert_eq!(refused(judge_sheet(&file, file.len() - lost * RECORD)), Some((3, grid)));
    }
    // the repeat column read as 1, or one less: 8 at the grid's header
    for repeat in [b'1', b'7'] {
        file[grid * RECORD - 1] = repeat;
        assert_eq!(refused(judge_sheet(&file, file.len())), Some((8, grid)));
    }
}

/// 200,000 records are accepted, one more is 1; inserting into a full file is 14; a block that would not fit the buffer is 15.
#[test]
fn two_hundred_thousand_records() {
    let mut file = sheets::sheet_of_points(200_000);
    let used = file.len();
    assert_eq!(used, 200_000 * RECORD);
    assert_eq!(judge_sheet(&file, used).map(|c| c.records), Ok(200_000));
    let point = file[used - RECORD..].to_vec();
    file.extend(&point);
    assert_eq!(refused(judge_sheet(&file, used + RECORD)), Some((1, 0)));
    assert_eq!(refused(insert(&mut file, used, 200_001, &point)), Some((14, 0)));
    let used = remove(&mut file, used, 200_000).unwrap();
    let twin = file.clone();
    assert_eq!(refused(insert(&mut file[..used], used, 200_000, &point)), Some((15, 0)));
    assert!(file == twin);
    assert_eq!(insert(&mut file[..used + RECORD], used, 200_000, &point), Ok(200_000 * RECORD));
}

/// Used lengths and places at the 64-bit ends are answered, and change nothing.
#[test]
fn sixty_four_bit_ends() {
    let sheet = sheets::sheet(&mut Random(9), 3);
    let used = sheet.len();
    for length in [usize::MAX, usize::MAX - 83, usize::MAX / RECORD * RECORD, 1 << 63, (1 << 32) + used, used + 1, 0] {
        let mut twin = sheet.clone();
        assert_eq!(refused(judge_sheet(&sheet, length)), Some((1, 0)));
        assert_eq!(refused(judge_index(&sheet, length)), Some((1, 0)));
        assert_eq!(refused(remove(&mut twin, length, 6)), Some((1, 0)));
        assert_eq!(refused(insert(&mut twin, length, 6, &sheet)), Some((1, 0)));
        assert!(twin == sheet);
    }
    for place in [usize::MAX, usize::MAX - 1, 1 << 63, (1 << 32) + 6, usize::MAX / RECORD + 1, 0] {
        let mut twin = sheet.clone();
        assert_eq!(refused(remove(&mut twin, used, place)), Some((11, 0)));
        assert_eq!(refused(insert(&mut twin, used, place, &sheet)), Some((11, 0)));
        assert_eq!(refused(zvaigulta::way_up(&sheet, used, place)), Some((17, 0)));
        assert!(twin == sheet);
    }
}
