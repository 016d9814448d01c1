//! Sheets with a directory of layers: `directory` and `jump`, every other subcommand on such sheets, wrong directories, the largest, edits that are killed and
//! editors at once.

mod support;

use reference::random::Random;
use reference::{sheets, RECORD};
use std::os::unix::fs::symlink;
use std::process::Stdio;
use std::thread;
use std::time::Duration;
use support::fault::Faults;
use support::{block, damaged, ended, filed, good, layered, with, Folder};

const INDEX: &[u8] = b"I  9City survey office              0 0   0002008Regulation                    10   ";

/// Around the records of eleven layers each.
const LAYERS: [usize; 7] = [0, 1, 10, 11, 12, 22, 23];

fn lines(plain: &[u8]) -> Vec<u8> {
    ended(plain, b"\r\n")
}

/// A number of layers in words.
fn of_layers(layers: usize) -> String {
    format!("{layers} layer{}", if layers == 1 { "" } else { "s" })
}

/// A file without one of its records.
fn without(mut file: Vec<u8>, record: usize) -> Vec<u8> {
    file.drain((record - 1) * RECORD..record * RECORD);
    file
}

#[test]
fn a_directory_is_shown() {
    let f = Folder::new("directory_shown");
    f.put("town.dm", &good()).put("filed.dm", &filed(&good()));
    let table = "layer  header  records  items  class  area code  information  number\n\
                 \x20   1       6        4      1   2100          0            0       0\n";
    let ran = f.run(&["directory", "town.dm"]);
    let first = "town.dm: accepted 9 records 1 items\n\
                 it has no directory; 'dmtool directory town.dm --append' appends this one, records 10 to 11:\n";
    assert_eq!(ran.seen(), (Some(0), format!("{first}{table}"), true));
    let ran = f.run(&["directory", "filed.dm"]);
    assert_eq!(ran.seen(), (Some(0), format!("filed.dm: accepted 9 records 1 items (directory of 1 layer)\n{table}"), true));
    for layers in LAYERS {
        f.put("sheet.dm", &layered(layers)).put("filed.dm", &lines(&filed(&layered(layers))));
        let ran = f.run(&["directory", "filed.dm"]);
        let (text, of) = (ran.text(), of_layers(layers));
        let judged = format!("filed.dm: accepted {} records 0 items (line ends, directory of {of})", 5 + layers);
        assert_eq!((ran.status, text.lines().next()), (Some(0), Some(judged.as_str())));
        let shown: Vec<&str> = text.lines().skip(2).filter_map(|line| line.split_whitespace().nth(1)).collect();
        let headers: Vec<String> = (0..layers).map(|layer| (6 + layer).to_string()).collect();
        assert!(
            shown == headers || layers == 0 && text.ends_with("\nthe sheet has no layer, and a directory of it lists none\n")
        );
        // What --append would list is what the directory lists.
        let unfiled = f.run(&["directory", "sheet.dm"]).text();
        assert!(unfiled.lines().skip(2).eq(text.lines().skip(1)), "{unfiled}");
    }
    f.put("index.dm", INDEX);
    let ran = f.run(&["directory", "index.dm"]);
    assert_eq!(ran.text(), "index.dm: accepted 1 records 0 items\nan index has no layers, and so no directory\n");
    let ran = f.run_on(&filed(&good()), &["directory", "-"]);
    assert_eq!(ran.text(), format!("standard input: accepted 9 records 1 items (directory of 1 layer)\n{table}"));
}

/// Appended, there already, and taken off again: the bytes as before. In a form, which the answers name.
fn appended_and_taken_off(f: &Folder, layers: usize, form: fn(&[u8]) -> Vec<u8>, named: &str) {
    let (sheet, whole) = (form(&layered(layers)), form(&filed(&layered(layers))));
    f.put("sheet.dm", &sheet);
    let ran = f.run(&["directory", "sheet.dm", "--append"]);
    let span = match layers.div_ceil(11) {
        0 => "record 6".to_string(),
        rows => format!("records {} to {}", 6 + layers, 6 + layers + rows),
    };
    let said = format!("sheet.dm: appended a directory of {}, {span}{named}\n", of_layers(layers));
    assert_eq!((ran.seen(), f.get("sheet.dm")), ((Some(0), said, true), whole.clone()));
    let ran = f.run(&["directory", "sheet.dm", "--append"]);
    let already = format!("it has a directory of {} already, and it is right", of_layers(layers));
    assert_eq!(ran.seen(), (Some(0), format!("sheet.dm: {already}; nothing was changed\n"), true));
    let ran = f.run(&["directory", "--append", "sheet.dm", "-o", "copy.dm", "--force"]);
    assert_eq!(ran.seen(), (Some(0), format!("copy.dm: {already}; copied as it is\n"), true));
    assert_eq!((f.get("copy.dm"), f.get("sheet.dm")), (whole.clone(), whole));
    let ran = f.run(&["directory", "sheet.dm", "--remove"]);
    let records = layers.div_ceil(11) + 1;
    let records = format!("{records} record{}", if records == 1 { "" } else { "s" });
    let now = format!("now accepted {} records 0 items{named}", 5 + layers);
    assert_eq!(ran.seen(), (Some(0), format!("sheet.dm: removed its directory, {records}; {now}\n"), true));
    assert_eq!(f.get("sheet.dm"), sheet);
    let ran = f.run(&["directory", "sheet.dm", "--remove"]);
    assert_eq!(ran.seen(), (Some(0), "sheet.dm: it has no directory; nothing was changed\n".to_string(), true));
}

#[test]
fn a_directory_is_appended_and_taken_off() {
    let f = Folder::new("directory_appended");
    for layers in LAYERS {
        appended_and_taken_off(&f, layers, <[u8]>::to_vec, "");
        appended_and_taken_off(&f, layers, lines, " (line ends)");
    }
    assert_eq!(f.names(), ["copy.dm", "sheet.dm"]);
}

#[test]
fn results_elsewhere() {
    let f = Folder::new("directory_elsewhere");
    f.put("town.dm", &good()).put("filed.dm", &filed(&good()));
    let ran = f.run(&["directory", "town.dm", "--append", "-o", "-"]);
    assert_eq!((ran.status, ran.out, ran.err.as_str()), (Some(0), filed(&good()), ""));
    let ran = f.run_on(&filed(&good()), &["directory", "-", "--remove", "-o", "new.dm"]);
    assert_eq!((ran.status, f.get("new.dm")), (Some(0), good()));
    let ran = f.run(&["directory", "town.dm", "--append", "-o", "new.dm"]);
    assert!(ran.status == Some(2) && ran.err.contains("new.dm, which exists already"), "{}", ran.err);
    assert_eq!(f.run(&["directory", "town.dm", "--append", "-o", "new.dm", "--force"]).status, Some(0));
    assert_eq!((f.get("new.dm"), f.get("town.dm")), (filed(&good()), good()));
    let ran = f.run(&["normal", "filed.dm"]);
    let note = "dmtool: filed.dm: it has a directory, and the result has it made anew\n";
    assert_eq!((ran.out, ran.err.as_str()), (filed(&good()), note));
    f.put("lines.dm", &lines(&filed(&good())));
    let ran = f.run(&["remove", "lines.dm", "7", "-o", "-"]);
    let less = Folder::new("directory_less");
    less.put("town.dm", &good());
    assert_eq!(less.run(&["remove", "town.dm", "7"]).status, Some(0));
    assert_eq!(ran.out, lines(&filed(&less.get("town.dm"))));
    let note = "dmtool: lines.dm: it has line ends and a directory, and so has the result, the directory made anew\n";
    assert_eq!(ran.err, note);
}

#[test]
fn a_list_is_checked() {
    let f = Folder::new("directory_checked");
    f.put("town.dm", &good()).put("filed.dm", &filed(&good())).put("lines.dm", &lines(&filed(&layered(12))));
    f.put("wrong.dm", &with(filed(&good()), 10, 2, "      7")).put("index.dm", INDEX);
    let ran = f.run(&["directory", "--check", "filed.dm", "lines.dm"]);
    let filed = "filed.dm: accepted 9 records 1 items (directory of 1 layer)";
    let layers = "lines.dm: accepted 17 records 0 items (line ends, directory of 12 layers)";
    assert_eq!(ran.seen(), (Some(0), format!("{filed}\n{layers}\n"), true));
    let ran = f.run(&["directory", "--check", "town.dm", "missing.dm", "wrong.dm", "index.dm", "filed.dm"]);
    let missing = |name: &str, record: usize| {
        format!("{name}: refused 19 at record {record}: the directory of layers is missing (directory)")
    };
    let wrong = "wrong.dm: refused 19 at record 10: the directory of layers differs here from the right one (directory)";
    assert_eq!(
        ran.text(),
        [missing("town.dm", 9), wrong.to_string(), missing("index.dm", 1), filed.to_string(), String::new()].join("\n")
    );
    assert_eq!((ran.status, ran.err.contains("missing.dm: there is no such file")), (Some(2), true));
    assert_eq!(f.run(&["directory", "wrong.dm", "--check"]).status, Some(1));
    assert_eq!(f.run(&["judge", "--directory", "town.dm"]).text(), missing("town.dm", 9) + "\n");
}

#[test]
fn a_jump_to_every_layer() {
    let f = Folder::new("directory_jump");
    f.put("filed.dm", &filed(&layered(23))).put("town.dm", &good()).put("index.dm", INDEX).put("none.dm", &filed(&layered(0)));
    for layer in 1..=23 {
        let ran = f.run(&["jump", "filed.dm", &layer.to_string()]);
        let named = "class 2100, area code 0, information 0, number 0 (directory of 23 layers)";
        assert_eq!(ran.seen(), (Some(0), format!("filed.dm: layer {layer}: record {}, {named}\n", 5 + layer), true));
    }
    let words = "the record number is outside the file or in the sheet part, or there is no such layer";
    for layer in ["0", "24", "18446744073709551615"] {
        let ran = f.run(&["jump", "filed.dm", layer]);
        let said = format!("dmtool: filed.dm: refused 17: {words} (directory of 23 layers)\nthe sheet has 23 layers: give a number from 1 to 23\n");
        assert_eq!((ran.status, ran.text(), ran.err), (Some(1), String::new(), said));
    }
    for (file, said) in [
        ("none.dm", "\nthe sheet has no layer to jump to\n"),
        ("town.dm", "\nthe sheet has no directory, its last record is 2D data of record 7: append one by 'dmtool directory town.dm --append'\n"),
        ("index.dm", "\nthis is an index: it has no layers, and so no directory\n"),
    ] {
        let ran = f.run(&["jump", file, "1"]);
        assert!(ran.status == Some(1) && ran.text().is_empty() && ran.err.contains(said), "{file}: {}", ran.err);
    }
    let ran = f.run_on(&lines(&filed(&good())), &["jump", "-", "1"]);
    assert!(ran.text().starts_with("standard input: layer 1: record 6, class 2100, "), "{}", ran.text());
    assert!(ran.text().ends_with(" (line ends, directory of 1 layer)\n"), "{}", ran.text());
}

/// What the other subcommands print of a sheet with its directory is what they print without it, but for what says so.
#[test]
fn the_same_answers_with_a_directory() {
    let f = Folder::new("directory_answers");
    f.put("town.dm", &good()).put("filed.dm", &filed(&good()));
    for words in [&["judge"][..], &["explain"], &["show", "1", "9"], &["show", "6", "6"], &["up", "9"], &["up", "6"]] {
        let of = |name| f.run(&[&words[..1], &[name], &words[1..]].concat());
        let (without, with) = (of("town.dm"), of("filed.dm"));
        let text = without.text().replace("town.dm", "filed.dm");
        let (first, rest) = text.split_once('\n').expect("a line");
        assert_eq!(with.seen(), (Some(0), format!("{first} (directory of 1 layer)\n{rest}"), true), "{words:?}");
    }
    let shown = f.run(&["show", "filed.dm", "10"]).text();
    assert!(
        shown.ends_with("\n10: directory: type=\"Z\", header 1=6\n11: directory end: type=\"ZE\", pointer=10, layers=1\n"),
        "{shown}"
    );
    let ran = f.run(&["up", "filed.dm", "10"]);
    assert!(ran.err.contains("\nrecord 10 belongs to the directory, which is no part of the sheet\n"), "{}", ran.err);
    f.put("damaged.dm", &[damaged(), filed(&good())[9 * RECORD..].to_vec()].concat());
    let refused = "damaged.dm: refused 10 at record 6: a count differs from what the file holds (directory)";
    for words in [&["judge", "damaged.dm"][..], &["explain", "damaged.dm"], &["show", "damaged.dm"]] {
        assert_eq!(f.run(words).text().lines().next(), Some(refused));
    }
    let ran = f.run(&["remove", "damaged.dm", "7"]);
    let words = "\njudged up to the pointer of the directory, the sheet is refused: 'dmtool explain' says what to mend first\n";
    assert!(ran.err.contains(words), "{}", ran.err);
}

/// Edits on random sheets, without a directory, with it, and with line ends too: the same sheets and the same refusals, and the directory made anew.
#[test]
fn edits_make_the_directory_anew() {
    let f = Folder::new("directory_edits");
    let mut r = Random(55);
    let mut done = 0;
    for case in 0..60 {
        let sheet = sheets::sheet(&mut r, 1 + case % 4);
        let (sort, level) = (1 + r.below(9), 2 + r.below(2));
        f.put("sheet.dm", &sheet).put("filed.dm", &filed(&sheet)).put("lines.dm", &lines(&filed(&sheet)));
        f.put("item.dm", &sheets::item(&mut r, sort, level).concat());
        let place = (1 + r.below(sheet.len() / RECORD + 1)).to_string();
        let words: &[&str] = match r.below(5) {
            0 | 1 => &["remove", "", &place],
            2 => &["insert", "", "end", "item.dm"],
            3 => &["normal", "", "-o", ""],
            _ => &["insert", "", &place, "item.dm"],
        };
        let on = |name: &'static str| {
            f.run(&words.iter().map(|word| if word.is_empty() { name } else { *word }).collect::<Vec<&str>>())
        };
        let (plain, with, with_lines) = (on("sheet.dm"), on("filed.dm"), on("lines.dm"));
        assert_eq!((plain.status, plain.status), (with.status, with_lines.status), "case {case}: {}", with.err);
        let edited = f.get("sheet.dm");
        assert!(f.get("filed.dm") == filed(&edited) && f.get("lines.dm") == lines(&filed(&edited)), "case {case}");
        assert!(plain.status == Some(0) || edited == sheet, "case {case}");
        if words[0] != "normal" && plain.status == Some(0) {
            let layers = f.run(&["judge", "filed.dm"]).text().split("(directory of ").nth(1).expect("layers").replace(")\n", "");
            let said =
                plain.text().replace("sheet.dm", "filed.dm").replace('\n', &format!(" (directory of {layers} made anew)\n"));
            assert_eq!(with.text(), said, "case {case}");
            let said = said.replace("filed.dm", "lines.dm").replace("(directory", "(line ends, directory");
            assert_eq!(with_lines.text(), said, "case {case}");
            done += 1;
        }
    }
    assert!(done > 10, "{done}");
}

/// Wrong directories of a sheet that is accepted.
fn wrong() -> Vec<(&'static str, Vec<u8>)> {
    let (file, end) = (|| filed(&layered(12)), filed(&layered(12))[19 * RECORD..].to_vec());
    vec![
        ("another number", with(file(), 18, 2, "      7")),
        ("leading zeros", with(file(), 19, 2, "0000017")),
        ("a gap", with(file(), 18, 9, "       ")),
        ("a number too many", with(file(), 19, 9, "     18")),
        ("a used rest", with(file(), 18, 80, "x")),
        ("a pointer past itself", with(file(), 20, 2, "     21")),
        ("a pointer of itself", with(file(), 20, 2, "     20")),
        ("a pointer of 1", with(file(), 20, 2, "      1")),
        ("another count", with(file(), 20, 9, "     11")),
        ("a record lost", without(file(), 19)),
        ("a record twice", [&file()[..19 * RECORD], &file()[18 * RECORD..]].concat()),
        ("a second end", [file(), end].concat()),
        ("a directory behind a directory", [file(), with(filed(&layered(12))[17 * RECORD..].to_vec(), 3, 2, "     21")].concat()),
    ]
}

/// A wrong directory refuses every subcommand that would make it anew or go by it, and nothing is changed; what is said leads to the right one.
#[test]
fn a_wrong_directory() {
    let f = Folder::new("directory_wrong");
    f.put("item.dm", &block());
    for (name, bytes) in wrong() {
        f.put("sheet.dm", &bytes);
        let judged = f.run(&["judge", "sheet.dm"]);
        assert!(judged.status == Some(1) && judged.text().ends_with(" (directory)\n"), "{name}: {}", judged.text());
        for words in [
            &["insert", "sheet.dm", "end", "item.dm"][..],
            &["remove", "sheet.dm", "7"],
            &["normal", "sheet.dm", "-o", "sheet.dm"],
            &["up", "sheet.dm", "7"],
            &["jump", "sheet.dm", "1"],
            &["directory", "sheet.dm"],
            &["directory", "sheet.dm", "--append"],
        ] {
            let ran = f.run(words);
            assert_eq!((ran.status, ran.text()), (Some(1), String::new()), "{name}: {words:?}");
            let line = judged.text().replace("sheet.dm:", "dmtool: sheet.dm:");
            assert!(
                ran.err.starts_with(&line) && ran.err.contains("'dmtool directory sheet.dm --remove'"),
                "{name}: {}",
                ran.err
            );
            assert!(ran.err.ends_with("\n'dmtool explain sheet.dm' says what is wrong\n"), "{name}: {}", ran.err);
            assert!(f.get("sheet.dm") == bytes, "{name}: {words:?}");
        }
        let explained = f.run(&["explain", "sheet.dm"]).text();
        let commands: Vec<&str> = explained.split('\'').filter(|words| words.starts_with("dmtool directory ")).collect();
        assert_eq!(commands, ["dmtool directory sheet.dm --remove", "dmtool directory sheet.dm --append"], "{name}: {explained}");
        for command in commands {
            let words: Vec<&str> = command.split(' ').skip(1).collect();
            let ran = f.run(&words);
            assert_eq!(ran.status, Some(0), "{name}: {}", ran.err);
            assert!(command.ends_with("--append") || ran.text().contains(", which was refused "), "{name}: {}", ran.text());
        }
        assert!(f.get("sheet.dm") == filed(&layered(12)), "{name}");
        assert_eq!(f.run(&["judge", "sheet.dm"]).status, Some(0));
    }
    assert_eq!(f.names(), ["item.dm", "sheet.dm"]);
}

/// Nothing is taken off where records of the sheet may stand behind what is known for sure.
#[test]
fn nothing_of_a_sheet_is_cut_away() {
    let f = Folder::new("directory_safe");
    let file = || filed(&good());
    let point = sheets::item(&mut Random(7), 5, 2).concat();
    let text = |texts: usize| {
        let mut item = block()[..RECORD].to_vec();
        item[..2].copy_from_slice(b"E8");
        item[20..21].copy_from_slice(b"5");
        item[27..35].copy_from_slice(format!("{texts:4}{texts:4}").as_bytes());
        [item, vec![b'a'; texts * RECORD]].concat()
    };
    f.put("text.dm", &text(2)).put("town.dm", &good());
    assert_eq!(f.run(&["insert", "town.dm", "end", "text.dm"]).status, Some(0));
    let texts = f.get("town.dm");
    let taken = [&texts[..10 * RECORD], &filed(&texts)[12 * RECORD..]].concat();
    for (name, bytes) in [
        ("a count of the sheet is wrong", with(file(), 6, 18, "    2")),
        ("a record of the sheet is lost", without(file(), 9)),
        ("a record of the sheet too many", [&file()[..9 * RECORD], &point, &file()[9 * RECORD..]].concat()),
        ("other letters", with(file(), 10, 0, "z ")),
        ("other letters at the end", with(file(), 11, 0, "ZF")),
        ("a sheet behind a sheet", [good(), file()].concat()),
        ("a sheet behind a directory", [file(), good()].concat()),
        ("spaces behind a directory", [file(), vec![b' '; RECORD]].concat()),
        ("the directory is read as text", taken),
        ("no sheet at all", file()[9 * RECORD..].to_vec()),
        ("an index", [INDEX, &file()[9 * RECORD..]].concat()),
        ("half a record more", [file(), vec![b' '; 40]].concat()),
        ("nothing", Vec::new()),
    ] {
        f.put("sheet.dm", &bytes);
        for words in [&["directory", "sheet.dm", "--remove"][..], &["directory", "sheet.dm", "--append"]] {
            let ran = f.run(words);
            assert_eq!((ran.status, ran.text()), (Some(1), String::new()), "{name}: {}", ran.err);
            assert!(f.get("sheet.dm") == bytes, "{name}");
        }
    }
}

/// A directory that lost its end is not recognised, and is taken off all the same.
#[test]
fn a_directory_without_its_end() {
    let f = Folder::new("directory_unended");
    f.put("sheet.dm", &without(filed(&layered(12)), 20));
    let explained = f.run(&["explain", "sheet.dm"]).text();
    assert!(explained.starts_with("sheet.dm: refused 4 at record 18: "), "{explained}");
    let note =
        "\nrecords 18 to 19 start as a directory of layers does, and no record \"ZE\" ends it; the sheet before it is accepted, but \
                may have lost a layer or other records since the directory was made: compare it with the original first; if it is whole, \
                take the directory off by 'dmtool directory sheet.dm --remove' and append";
    assert!(explained.contains(note), "{explained}");
    assert!(f.run(&["explain", "--directory", "sheet.dm"]).text().starts_with("sheet.dm: refused 19 at record 19: "));
    assert_eq!(f.run(&["directory", "sheet.dm", "--append"]).status, Some(1));
    let ran = f.run(&["directory", "sheet.dm", "--remove"]);
    let said = "sheet.dm: removed its directory, 2 records, which was refused 19 at record 19; now accepted 17 records 0 items\n";
    assert_eq!((ran.text().as_str(), f.get("sheet.dm")), (said, layered(12)));
}

/// One that is cut off inside a record is taken off too.
#[test]
fn a_directory_that_is_cut_off() {
    let f = Folder::new("directory_cut_off");
    for bytes in [2, 40, 83, 84 + 2, 84 + 40, 2 * 84 + 83] {
        f.put("sheet.dm", &filed(&layered(12))[..17 * RECORD + bytes]);
        assert!(f.run(&["judge", "sheet.dm"]).text().starts_with("sheet.dm: refused 1: the length, "));
        let explained = f.run(&["explain", "sheet.dm"]).text();
        assert!(explained.contains("by 'dmtool directory sheet.dm --remove' and append the right one by "), "{explained}");
        let ran = f.run(&["directory", "sheet.dm", "--remove"]);
        let said =
            format!("sheet.dm: removed its directory, {bytes} bytes, which was refused 1; now accepted 17 records 0 items\n");
        assert_eq!((ran.text(), f.get("sheet.dm")), (said, layered(12)));
    }
}

/// The same with line ends; not where a line end before it is wrong.
#[test]
fn a_directory_that_is_cut_off_with_line_ends() {
    let f = Folder::new("directory_lines_cut_off");
    let (file, sheet) = (lines(&filed(&layered(12))), lines(&layered(12)));
    for bytes in [2, 40, 83, 86 + 2, 86 + 40, 2 * 86 + 83] {
        f.put("sheet.dm", &file[..sheet.len() + bytes]);
        let explained = f.run(&["explain", "sheet.dm"]).text();
        let note = "behind record 17: a directory of layers of ";
        assert!(explained.contains(note) && explained.contains("compare it with the original first"), "{explained}");
        assert!(explained.contains("by 'dmtool directory sheet.dm --remove' and append the right one by "), "{explained}");
        let ran = f.run(&["directory", "sheet.dm", "--remove"]);
        let said = format!(
            "sheet.dm: removed its directory, {bytes} bytes, which was refused 1; now accepted 17 records 0 items (line ends)\n"
        );
        assert_eq!((ran.text(), f.get("sheet.dm")), (said, sheet.clone()));
        assert_eq!(f.run(&["directory", "sheet.dm", "--append"]).status, Some(0));
        assert!(f.get("sheet.dm") == file);
    }
    let mut wrong = file[..sheet.len() + 40].to_vec();
    wrong[84..86].reverse();
    f.put("sheet.dm", &wrong);
    assert!(!f.run(&["explain", "sheet.dm"]).text().contains("--remove"));
    assert_eq!((f.run(&["directory", "sheet.dm", "--remove"]).status, f.get("sheet.dm")), (Some(1), wrong));
}

#[test]
fn read_with_a_directory_or_without() {
    let f = Folder::new("directory_forced");
    f.put("town.dm", &good()).put("filed.dm", &filed(&good())).put("item.dm", &block());
    for words in [
        &["judge", "filed.dm"][..],
        &["explain", "filed.dm"],
        &["show", "filed.dm"],
        &["insert", "filed.dm", "7", "item.dm"],
        &["remove", "filed.dm", "7"],
        &["up", "filed.dm", "7"],
        &["normal", "filed.dm"],
    ] {
        let ran = f.run(&[words, &["--no-directory"]].concat());
        let said = ran.text() + &ran.err;
        assert!(said.contains("filed.dm: refused 4 at record 10: the record is not H, "), "{words:?}: {said}");
        assert!(
            ran.text().is_empty() == said.contains("'dmtool explain --no-directory filed.dm' says what is wrong"),
            "{words:?}: {said}"
        );
        let other: Vec<&str> = words.iter().map(|word| if *word == "filed.dm" { "town.dm" } else { word }).collect();
        let said = f.run(&[&other[..], &["--directory"]].concat());
        let said = said.text() + &said.err;
        assert!(
            said.contains("town.dm: refused 19 at record 9: the directory of layers is missing (directory)"),
            "{words:?}: {said}"
        );
    }
    let note =
        "records 10 to 11 are a directory of layers, and the file was read without one; read with it, the file is accepted\n";
    assert!(f.run(&["explain", "--no-directory", "filed.dm"]).text().contains(note));
    assert_eq!((f.get("filed.dm"), f.get("town.dm")), (filed(&good()), good()));
}

/// Text at the end of a sheet that starts as a directory's end is text.
#[test]
fn text_that_starts_like_an_end() {
    let f = Folder::new("directory_text");
    let mut item = block()[..RECORD].to_vec();
    item[..2].copy_from_slice(b"E8");
    item[20..21].copy_from_slice(b"5");
    item[27..35].copy_from_slice(b"   1   1");
    item.extend(format!("{:84}", "ZEBRA CROSSING").into_bytes());
    f.put("town.dm", &good()).put("zebra.dm", &item);
    assert_eq!(f.run(&["insert", "town.dm", "end", "zebra.dm"]).status, Some(0));
    assert_eq!(f.run(&["judge", "town.dm"]).text(), "town.dm: accepted 11 records 2 items\n");
    assert_eq!(f.run(&["directory", "town.dm", "--append"]).status, Some(0));
    assert_eq!(f.run(&["judge", "town.dm"]).text(), "town.dm: accepted 11 records 2 items (directory of 1 layer)\n");
    assert_eq!(f.run(&["remove", "town.dm", "10"]).status, Some(0));
    assert!(f.get("town.dm") == filed(&good()));
    // Of the very form of an end it is taken for one unless the tool is told otherwise.
    item.truncate(RECORD);
    item.extend(format!("{:84}", "ZE      7      2").into_bytes());
    f.put("town.dm", &good()).put("zebra.dm", &item);
    assert_eq!(f.run(&["insert", "town.dm", "end", "zebra.dm"]).status, Some(0));
    let sheet = f.get("town.dm");
    let ran = f.run(&["directory", "town.dm", "--append"]);
    assert!(ran.status == Some(1) && ran.err.contains("--no-directory") && f.get("town.dm") == sheet, "{}", ran.err);
    let shown = f.run(&["directory", "town.dm", "--no-directory"]);
    assert!(shown.status == Some(0) && shown.text().starts_with("town.dm: accepted 11 records 2 items\n"), "{}", shown.text());
    assert_eq!(f.run(&["directory", "town.dm", "--append", "--no-directory"]).status, Some(0));
    assert!(f.get("town.dm") == filed(&sheet));
    assert_eq!(f.run(&["judge", "town.dm"]).text(), "town.dm: accepted 11 records 2 items (directory of 1 layer)\n");
    let removed = f.run(&["directory", "town.dm", "--remove"]);
    assert!(removed.text().ends_with("now accepted 11 records 2 items, read with --no-directory\n"), "{}", removed.text());
    assert!(f.get("town.dm") == sheet);
}

#[test]
fn convert_and_mend_keep_the_directory() {
    let f = Folder::new("directory_convert");
    let whole = filed(&layered(23));
    for (n, bytes) in [ended(&whole, b"\n"), ended(&whole, b"\r\r\n"), [&lines(&whole)[..], b"\x1a"].concat()].iter().enumerate()
    {
        f.put("sheet.dm", bytes);
        assert_eq!(f.run(&["convert", "sheet.dm", "--to", "lines", "--mend"]).status, Some(0), "case {n}");
        assert!(f.get("sheet.dm") == lines(&whole), "case {n}");
    }
    let ran = f.run(&["convert", "sheet.dm", "--to", "plain"]);
    assert_eq!((ran.text().as_str(), f.get("sheet.dm")), ("sheet.dm: converted 32 records, now plain\n", whole.clone()));
    // Nothing is judged: a wrong directory goes over and back.
    f.put("sheet.dm", &with(whole.clone(), 29, 2, "0000001"));
    assert_eq!(f.run(&["convert", "sheet.dm", "--to", "lines"]).status, Some(0));
    assert!(f.get("sheet.dm") == lines(&with(whole, 29, 2, "0000001")));
    let judged = f.run(&["judge", "sheet.dm"]).text();
    assert!(judged.ends_with(" differs here from the right one (line ends, directory)\n"), "{judged}");
    let mut broken = f.get("sheet.dm");
    broken[85] = b' ';
    f.put("sheet.dm", &broken);
    let ran = f.run(&["directory", "sheet.dm", "--remove"]);
    assert!(ran.status == Some(1) && ran.err.contains("refused 18 at record 1: "), "{}", ran.err);
    assert!(f.get("sheet.dm") == broken);
}

/// 200,000 records of layers, and the largest directory behind them; in both forms, and one record more.
#[test]
fn the_largest_files() {
    let f = Folder::new("directory_largest");
    let sheet = layered(199_995);
    f.put("sheet.dm", &sheet);
    let ran = f.run(&["directory", "sheet.dm", "--append"]);
    assert_eq!(ran.text(), "sheet.dm: appended a directory of 199995 layers, records 200001 to 218183\n", "{}", ran.err);
    let whole = f.get("sheet.dm");
    assert!(whole == filed(&sheet) && whole.len() == 218_183 * RECORD);
    let judged = "sheet.dm: accepted 200000 records 0 items (directory of 199995 layers)\n";
    assert_eq!(f.run(&["judge", "sheet.dm"]).text(), judged);
    assert_eq!(f.run(&["directory", "sheet.dm"]).text().lines().count(), 2 + 199_995);
    assert!(f.run(&["jump", "sheet.dm", "199995"]).text().starts_with("sheet.dm: layer 199995: record 200000, class 2100, "));
    assert!(f
        .run(&["show", "sheet.dm", "218183"])
        .text()
        .ends_with("\n218183: directory end: type=\"ZE\", pointer=200001, layers=199995\n"));
    let refused = f.run(&["judge", "--no-directory", "sheet.dm"]).text();
    assert_eq!(refused, "sheet.dm: refused 1: the file has more than 200,000 records of 84 bytes\n");
    let note = "records 200001 to 218183 are a directory of layers, and the file was read without one; read with it, the file is accepted\n";
    assert!(f.run(&["explain", "--no-directory", "sheet.dm"]).text().ends_with(note));
    assert!(f.run(&["normal", "sheet.dm"]).out == whole);
    assert_eq!(
        f.run(&["convert", "sheet.dm", "--to", "lines"]).text(),
        "sheet.dm: converted 218183 records, now with line ends\n"
    );
    assert!(f.get("sheet.dm") == lines(&whole));
    assert_eq!(f.run(&["judge", "sheet.dm"]).text(), judged.replace("(dir", "(line ends, dir"));
    f.put("wrong.dm", &lines(&with(whole.clone(), 218_182, 2, "0199997")));
    let explained = f.run(&["explain", "wrong.dm"]).text();
    assert!(explained.starts_with("wrong.dm: refused 19 at record 218182: "), "{explained}");
    assert!(explained.contains("is 199997, but with leading zeros: must be \" 199997\""), "{explained}");
    assert!(f.run(&["directory", "sheet.dm", "--remove"]).status == Some(0) && f.get("sheet.dm") == lines(&sheet));
    f.put("unix.dm", &ended(&whole, b"\n"));
    assert_eq!(f.run(&["convert", "unix.dm", "--to", "plain", "--mend"]).status, Some(0));
    assert!(f.get("unix.dm") == whole);
}

/// A sheet of more than 200,000 records is refused, with a directory or without; a file that is longer than any is read in part, and no directory.
#[test]
fn longer_than_the_largest() {
    let f = Folder::new("directory_longer");
    let sheet = layered(199_996);
    let end = format!("{:84}", "ZE 200002      0").into_bytes();
    f.put("more.dm", &[&sheet[..], &end].concat());
    let line = "more.dm: refused 1: the sheet before the directory has more than 200,000 records (directory)\n";
    assert_eq!(f.run(&["judge", "more.dm"]).text(), line);
    assert!(f.run(&["explain", "more.dm"]).text().contains("\ndivide the sheet into two\n"));
    assert_eq!(f.run(&["directory", "more.dm", "--remove"]).status, Some(1));
    f.put("plain.dm", &sheet);
    let ran = f.run(&["directory", "plain.dm", "--append"]);
    assert!(ran.status == Some(1) && ran.err.contains("refused 1: the file has more than 200,000 records"), "{}", ran.err);
    assert_eq!(f.run(&["convert", "plain.dm", "--to", "lines"]).status, Some(1));
    // Twice the largest, all of it records that end a directory.
    f.put("long.dm", &end.repeat(500_000));
    let ran = f.run(&["judge", "long.dm"]);
    assert_eq!(ran.text(), "long.dm: refused 1: the file has more than 200,000 records of 84 bytes\n");
    // A sheet, a directory and more behind it than is read: nothing is cut off, nothing is said of what was not read.
    let more = [&good()[..], &format!("{:84}", "Z       6").into_bytes().repeat(300_000), &end].concat();
    f.put("behind.dm", &more);
    for words in [
        &["directory", "behind.dm"][..],
        &["directory", "behind.dm", "--append"],
        &["directory", "behind.dm", "--remove"],
        &["directory", "behind.dm", "--remove", "-o", "other.dm"],
        &["directory", "behind.dm", "--check"],
        &["judge", "behind.dm", "--directory"],
        &["jump", "behind.dm", "1"],
    ] {
        let ran = f.run(words);
        assert_eq!((ran.status, ran.text()), (Some(2), String::new()), "{words:?}");
        assert!(
            ran.err.contains("behind.dm: it is longer than the largest sheet with its directory, 266666 records"),
            "{}",
            ran.err
        );
    }
    assert!(f.get("behind.dm") == more && !f.names().contains(&"other.dm".to_string()));
    f.put("lines.dm", &lines(&more));
    for name in ["behind.dm", "lines.dm"] {
        let explained = f.run(&["explain", name]).text();
        let part = "\nit is longer than the largest sheet with its directory, 266666 records, and is read no further: what is said here is of that part\n";
        assert!(explained.contains(part) && !explained.contains("dmtool"), "{explained}");
    }
}

/// Killed at any moment while a directory is appended or taken off: the old file or the new one.
#[test]
fn killed_at_any_moment() {
    let f = Folder::new("directory_killed");
    let (sheet, whole) = (layered(3_000), filed(&layered(3_000)));
    f.put("sheet.dm", &sheet);
    let mut seen = [0, 0];
    for n in 0..120 {
        let now = f.get("sheet.dm");
        let action = if now == sheet { "--append" } else { "--remove" };
        let mut tool = f.tool(&["directory", "sheet.dm", action]).stdout(Stdio::null()).spawn().unwrap();
        thread::sleep(Duration::from_micros(60 * n));
        tool.kill().unwrap();
        tool.wait().unwrap();
        let found = f.get("sheet.dm");
        assert!(found == sheet || found == whole, "kill {n}: neither the old file nor the new one");
        seen[usize::from(found == now)] += 1;
    }
    assert!(seen.iter().all(|count| *count > 0), "{seen:?}");
    assert_eq!(f.run(&["normal", "sheet.dm", "-o", "sheet.dm"]).status, Some(0));
    assert_eq!(f.names(), ["sheet.dm"]);
}

/// Killed at each call of the system that matters, the file stays as it was; what lies beside it is cleared by the next edit.
#[test]
fn killed_at_every_step() {
    let (f, faults) = (Folder::new("directory_step"), Faults::new("directory_step"));
    for fault in ["flock kill", "tmpfile kill", "fsync kill", "linkat kill", "rename kill", "tmpfile 95,rename kill"] {
        for (bytes, words) in [
            (good(), &["directory", "sheet.dm", "--append"][..]),
            (lines(&filed(&good())), &["directory", "sheet.dm", "--remove"]),
            (filed(&good()), &["remove", "sheet.dm", "7"]),
        ] {
            f.put("sheet.dm", &bytes);
            let ran = faults.run(&f, fault, "", words);
            assert_eq!((ran.status, ran.text()), (None, String::new()), "{fault}");
            assert!(f.get("sheet.dm") == bytes, "{fault}");
            assert_eq!(f.run(words).status, Some(0));
            assert_eq!(f.names(), ["sheet.dm"], "{fault}");
        }
    }
}

/// Editors at once on one sheet, whose directory some of them take off and append, and which some convert: no accepted edit is lost.
#[test]
fn editors_at_once() {
    let f = Folder::new("directory_editors");
    f.put("sheet.dm", &filed(&good())).put("block.dm", &block());
    symlink("sheet.dm", f.0.join("link.dm")).unwrap();
    let edit = |n: usize| match n % 6 {
        0 => (f.run(&["directory", "sheet.dm", ["--append", "--remove"][n / 6 % 2]]), 0),
        1 => (f.run(&["convert", "link.dm", "--to", ["lines", "plain"][n / 6 % 2]]), 0),
        2 | 3 => (f.run(&["insert", "link.dm", "7", "block.dm"]), 1),
        4 => (f.run(&["insert", "sheet.dm", "end", "block.dm"]), 1),
        _ => (f.run(&["remove", "sheet.dm", "7"]), -1),
    };
    let editor = |first: usize| {
        let mut gained = 0;
        for n in first..first + 24 {
            let (ran, gain) = edit(n);
            assert!(ran.status == Some(0) || gain < 0 && ran.err.contains("refused 11"), "{}", ran.err);
            gained += if ran.status == Some(0) { gain } else { 0 };
        }
        gained
    };
    let gained: i64 = thread::scope(|scope| {
        let runs: Vec<_> = (0..6).map(|n| scope.spawn(move || editor(n))).collect();
        runs.into_iter().map(|run| run.join().expect("an editor")).sum()
    });
    assert_eq!(f.run(&["convert", "sheet.dm", "--to", "plain"]).status, Some(0));
    assert_eq!(f.run(&["directory", "sheet.dm", "--append"]).status, Some(0));
    let judged = f.run(&["judge", "sheet.dm"]).text();
    let items = format!(" {} items (directory of 1 layer)\n", 1 + gained);
    assert!(gained > 0 && judged.ends_with(&items), "{gained}: {judged}");
    assert_eq!(f.names(), ["block.dm", "link.dm", "sheet.dm"]);
}

#[test]
fn wrong_words() {
    let f = Folder::new("directory_words");
    f.put("town.dm", &good());
    for words in [
        &["directory"][..],
        &["directory", "--append"],
        &["directory", "town.dm", "town.dm"],
        &["directory", "--check"],
        &["directory", "town.dm", "town.dm", "--append"],
        &["directory", "town.dm", "--append", "--remove"],
        &["directory", "town.dm", "--remove", "--check"],
        &["directory", "town.dm", "-o", "new.dm"],
        &["directory", "town.dm", "--check", "--no-lock"],
        &["directory", "town.dm", "--append", "--force"],
        &["directory", "-", "--append"],
        &["directory", "town.dm", "--no-directory", "--remove"],
        &["directory", "town.dm", "--no-directory", "--check"],
        &["judge", "town.dm", "--directory", "--no-directory"],
        &["judge", "town.dm", "--append"],
        &["convert", "town.dm", "--to", "lines", "--directory"],
        &["jump", "town.dm"],
        &["jump", "town.dm", "one"],
        &["jump", "town.dm", "-1"],
        &["jump", "town.dm", "18446744073709551616"],
        &["batch", "--directory"],
    ] {
        let ran = f.run(words);
        assert_eq!((ran.status, ran.text()), (Some(2), String::new()), "{words:?}");
        assert!(
            ran.err.starts_with("dmtool: ") && ran.err.contains("--help") && ran.err.lines().count() == 1,
            "{words:?}: {}",
            ran.err
        );
    }
    assert_eq!((f.names(), f.get("town.dm")), (vec!["town.dm".to_string()], good()));
}
