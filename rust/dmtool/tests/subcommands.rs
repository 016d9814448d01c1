//! Every subcommand on a good file, a damaged one, a missing one, an empty one, and one of 200,000 records.

mod support;

use reference::RECORD;
use support::{block, damaged, good, large, Folder};

const EMPTY: &str = "empty.dm: refused 1: the file is empty";
const DAMAGED: &str = "damaged.dm: refused 10 at record 6: a count differs from what the file holds";
const MISSING: &str = "dmtool: missing.dm: there is no such file; check the name and the folder\n";

/// A folder with the files.
fn files(name: &str) -> Folder {
    let folder = Folder::new(name);
    folder.put("good.dm", &good()).put("damaged.dm", &damaged()).put("empty.dm", b"").put("large.dm", large());
    folder.put("block.dm", &block());
    folder
}

fn says(out: &str) -> (Option<i32>, String, bool) {
    (Some(0), format!("{out}\n"), true)
}

#[test]
fn judge() {
    let f = files("judge");
    assert_eq!(f.run(&["judge", "good.dm"]).seen(), says("good.dm: accepted 9 records 1 items"));
    assert_eq!(f.run(&["judge", "large.dm"]).text().split(" items").next().unwrap().split(' ').nth(2), Some("200000"));
    assert_eq!(f.run(&["judge", "damaged.dm"]).seen(), (Some(1), format!("{DAMAGED}\n"), true));
    assert_eq!(f.run(&["judge", "empty.dm"]).seen(), (Some(1), format!("{EMPTY}\n"), true));
    let missing = f.run(&["judge", "missing.dm"]);
    assert_eq!((missing.status, missing.text(), missing.err.as_str()), (Some(2), String::new(), MISSING));
}

#[test]
fn judge_goes_on_behind_a_bad_file_and_a_missing_one() {
    let f = files("judge_list");
    let ran = f.run(&["judge", "damaged.dm", "missing.dm", ".", "empty.dm", "good.dm"]);
    assert_eq!(ran.text(), format!("{DAMAGED}\n{EMPTY}\ngood.dm: accepted 9 records 1 items\n"));
    assert_eq!(ran.err, format!("{MISSING}dmtool: .: it is a folder; name the files in it\n"));
    assert_eq!(ran.status, Some(2));
    assert_eq!(f.run(&["judge", "damaged.dm", "good.dm"]).status, Some(1));
    assert_eq!(f.run(&["judge", "good.dm", "large.dm"]).status, Some(0));
}

#[test]
fn judge_any_bytes_and_standard_input() {
    let f = Folder::new("judge_bytes");
    assert_eq!(f.run_on(&good(), &["judge", "-"]).seen(), says("standard input: accepted 9 records 1 items"));
    let index = b"I  9City survey office              0 0   0002008Regulation                    10   ";
    assert_eq!(f.run_on(index, &["judge", "-"]).seen(), says("standard input: accepted 1 records 0 items"));
    f.put("ragged", &good()[1..]).put("short", b"I ").put("zeros", &[0; RECORD]);
    let ran = f.run(&["judge", "ragged", "short", "zeros"]);
    let answers: Vec<String> = ran.text().lines().map(|l| l.split(' ').take(5).collect::<Vec<_>>().join(" ")).collect();
    assert_eq!(answers, ["ragged: refused 1: the length,", "short: refused 1: the length,", "zeros: refused 2 at record"]);
    assert_eq!((ran.status, ran.err.as_str()), (Some(1), ""));
    // a file of 4 GB, of which only as much is read as a file may have
    std::fs::File::create(f.0.join("huge")).unwrap().set_len(84 * 50_000_000).unwrap();
    assert!(f.run(&["judge", "huge"]).text().starts_with("huge: refused 1: "));
}

#[test]
fn explain() {
    let f = files("explain");
    assert_eq!(f.run(&["explain", "good.dm"]).seen(), says("good.dm: accepted 9 records 1 items"));
    assert!(f.run(&["explain", "large.dm"]).text().starts_with("large.dm: accepted 200000 records "));
    let ran = f.run(&["explain", "damaged.dm"]);
    assert_eq!((ran.status, ran.err.as_str()), (Some(1), ""));
    let text = ran.text();
    let marked: Vec<&str> = text.lines().filter(|line| line.starts_with('>')).collect();
    assert_eq!(text.lines().next(), Some(DAMAGED));
    let records = "the sheet states 9 records (5 of the sheet part and 4 behind it), and as many are there";
    assert_eq!(text.lines().nth(1), Some(records));
    assert_eq!(text.lines().nth(2), Some("record 6: layer header, level 1"));
    assert_eq!(marked, [r#"> bytes 19-23  total         "    2"  states 2, the counts behind it add up to 1"#]);
    let columns = zvaigulta::layout::HEADER.columns.iter().filter(|c| !c.name.is_empty());
    assert!(columns.clone().all(|c| text.contains(&format!("  {}  ", c.name))), "{text}");
    assert_eq!(text.lines().count(), 3 + columns.count());
    let empty = format!("{EMPTY}\ncopy the file again from where it came\n");
    assert_eq!(f.run(&["explain", "empty.dm"]).seen(), (Some(1), empty, true));
    let missing = f.run(&["explain", "missing.dm"]);
    assert_eq!((missing.status, missing.text(), missing.err.as_str()), (Some(2), String::new(), MISSING));
}

#[test]
fn show() {
    let f = files("show");
    let ran = f.run(&["show", "good.dm"]);
    assert_eq!(ran.text().lines().count(), 10);
    let ran = f.run(&["show", "good.dm", "8", "9"]);
    let lines = [
        "good.dm: accepted 9 records 1 items",
        "8: 2D data of record 7, level 2: X 1=0, Y 1=0, X 2=1000, Y 2=0, X 3=2000, Y 3=-500, X 4=3000, Y 4=0, X 5=4000, Y 5=0, \
         X 6=5000, Y 6=0",
        "9: 2D data of record 7, level 2: X 1=6000, Y 1=0, not judged=\"unused text is not judged\"",
    ];
    assert_eq!(ran.seen(), says(&lines.join("\n")));
    let ran = f.run(&["show", "damaged.dm", "6", "6"]);
    assert!(ran.text().starts_with(&format!("{DAMAGED}\n6: layer header, level 1: type=\"H\", class=2100, ")), "{}", ran.text());
    assert_eq!(ran.status, Some(0));
    assert_eq!(f.run(&["show", "empty.dm"]).seen(), says(EMPTY));
    assert_eq!(f.run(&["show", "missing.dm"]).err, MISSING);
    let ran = f.run(&["show", "large.dm", "199999"]);
    assert!(ran.text().lines().nth(2).unwrap().starts_with("200000: point E5, level 2: type=\"E5\", "), "{}", ran.text());
    assert_eq!(f.run(&["show", "large.dm"]).out.iter().filter(|b| **b == b'\n').count(), 200_001);
    for words in
        [&["show", "good.dm", "10"][..], &["show", "good.dm", "0"], &["show", "good.dm", "5", "4"], &["show", "good.dm", "x"]]
    {
        let ran = f.run(words);
        assert_eq!((ran.status, ran.text(), ran.err.is_empty()), (Some(2), String::new(), false), "{words:?}");
    }
}

#[test]
fn insert() {
    let f = files("insert");
    let ran = f.run(&["insert", "good.dm", "7", "block.dm"]);
    assert_eq!(ran.seen(), says("good.dm: inserted 3 records at record 7, now 12 records 2 items"));
    assert_eq!(f.run(&["judge", "good.dm"]).seen(), says("good.dm: accepted 12 records 2 items"));
    let ran = f.run_on(&block(), &["insert", "good.dm", "end", "-", "-o", "other.dm"]);
    assert_eq!(ran.seen(), says("other.dm: inserted 3 records at record 13, now 15 records 3 items"));
    for (file, number) in [("damaged.dm", "10 at record 6"), ("empty.dm", "1"), ("large.dm", "14")] {
        let before = f.get(file);
        let ran = f.run(&["insert", file, "end", "block.dm"]);
        assert_eq!((ran.status, ran.text()), (Some(1), String::new()));
        assert!(ran.err.starts_with(&format!("dmtool: {file}: refused {number}: ")), "{}", ran.err);
        assert!(f.get(file) == before);
    }
    assert_eq!(f.run(&["insert", "missing.dm", "7", "block.dm"]).err, MISSING);
    assert_eq!(f.run(&["insert", "good.dm", "7", "missing.dm"]).err, MISSING);
    assert_eq!(f.run(&["insert", "good.dm", "7", "empty.dm"]).status, Some(1));
}

#[test]
fn remove() {
    let f = files("remove");
    let ran = f.run(&["remove", "good.dm", "7", "-o", "other.dm"]);
    assert_eq!(ran.seen(), says("other.dm: removed 3 records at record 7, now 6 records 0 items"));
    assert_eq!(f.get("good.dm"), good());
    assert_eq!(f.run(&["remove", "good.dm", "7"]).status, Some(0));
    assert_eq!(f.get("good.dm"), f.get("other.dm"));
    let ran = f.run(&["remove", "large.dm", "200000"]);
    assert!(ran.text().starts_with("large.dm: removed 1 record at record 200000, now 199999 records "), "{}", ran.text());
    assert_eq!(f.run(&["remove", "large.dm", "6"]).status, Some(1));
    assert_eq!(f.run(&["remove", "damaged.dm", "7"]).status, Some(1));
    assert_eq!(f.run(&["remove", "empty.dm", "7"]).status, Some(1));
    assert_eq!(f.run(&["remove", "missing.dm", "7"]).err, MISSING);
}

#[test]
fn up() {
    let f = files("up");
    assert_eq!(f.run(&["up", "good.dm", "9"]).seen(), says("good.dm: record 9: header above 6, headers passed 1 (6)"));
    assert_eq!(f.run(&["up", "good.dm", "6"]).seen(), says("good.dm: record 6: a layer header, no header above"));
    for (file, record) in
        [("good.dm", "5"), ("good.dm", "10"), ("good.dm", "18446744073709551615"), ("damaged.dm", "9"), ("empty.dm", "1")]
    {
        let ran = f.run(&["up", file, record]);
        assert_eq!((ran.status, ran.text()), (Some(1), String::new()), "{file} {record}");
    }
    assert_eq!(f.run(&["up", "missing.dm", "1"]).err, MISSING);
    assert!(f.run(&["up", "large.dm", "200000"]).text().starts_with("large.dm: record 200000: header above "));
}

#[test]
fn normal() {
    let f = files("normal");
    let mut loose = good();
    loose[5 * RECORD + 18..5 * RECORD + 23].copy_from_slice(b"00001");
    f.put("loose.dm", &loose);
    assert_eq!(f.run(&["normal", "loose.dm"]).out, good());
    assert_eq!(f.run(&["normal", "loose.dm", "-o", "loose.dm"]).seen(), (Some(0), String::new(), true));
    assert_eq!(f.get("loose.dm"), good());
    let once = f.run(&["normal", "large.dm"]).out;
    assert_eq!(once.len(), 200_000 * RECORD);
    assert!(f.run_on(&once, &["normal", "-"]).out == once);
    for file in ["damaged.dm", "empty.dm"] {
        assert_eq!((f.run(&["normal", file]).status, f.run(&["normal", file]).out.len()), (Some(1), 0));
        assert_eq!(f.run(&["normal", file, "-o", "never.dm"]).status, Some(1));
    }
    assert_eq!(f.run(&["normal", "missing.dm", "-o", "never.dm"]).err, MISSING);
    assert!(!f.names().contains(&"never.dm".to_string()));
}
