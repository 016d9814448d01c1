//! Sheets with a directory of the second edition: shown, appended, taken off, changed for the first and back, kept by every edit; wrong ones; edits that are
//! killed and editors at once.

mod support;

use reference::random::Random;
use reference::{sheets, RECORD};
use std::process::Stdio;
use std::thread;
use std::time::Duration;
use support::fault::Faults;
use support::{block, ended, filed, filed_second, good, layered, with, Folder};

/// Around the records of three layers each.
const LAYERS: [usize; 8] = [0, 1, 2, 3, 4, 6, 7, 12];

const APPEND: [&str; 5] = ["directory", "sheet.dm", "--append", "--edition", "2"];

fn lines(plain: &[u8]) -> Vec<u8> {
    ended(plain, b"\r\n")
}

/// A number of layers in words.
fn of_layers(layers: usize) -> String {
    format!("{layers} layer{}", if layers == 1 { "" } else { "s" })
}

/// The records of a directory of so many layers of a sheet with a part of five, in words.
fn span(layers: usize, each: usize) -> String {
    match layers.div_ceil(each) {
        0 => "record 6".to_string(),
        rows => format!("records {} to {}", 6 + layers, 6 + layers + rows),
    }
}

#[test]
fn a_directory_is_shown() {
    let f = Folder::new("second_shown");
    f.put("town.dm", &good()).put("second.dm", &filed_second(&good())).put("first.dm", &filed(&good()));
    let table = "layer  header  total  last  records  class  area code  information  number\n\
                 \x20   1       6      1     9        4   2100          0            0       0\n";
    let ran = f.run(&["directory", "second.dm"]);
    let judged = "second.dm: accepted 9 records 1 items (directory of 1 layer, edition 2)\n";
    assert_eq!(ran.seen(), (Some(0), format!("{judged}{table}"), true));
    let ran = f.run(&["directory", "town.dm", "--edition", "2"]);
    let first = "town.dm: accepted 9 records 1 items\n\
                 it has no directory; 'dmtool directory town.dm --append --edition 2' appends this one, records 10 to 11:\n";
    assert_eq!(ran.seen(), (Some(0), format!("{first}{table}"), true));
    // What is there is shown, whatever edition is asked for.
    assert_eq!(f.run(&["directory", "first.dm", "--edition", "2"]).text(), f.run(&["directory", "first.dm"]).text());
    let shown = f.run(&["show", "second.dm", "10"]).text();
    let records = "\n10: directory, edition 2: type=\"Y\", header 1=6, total 1=1, last 1=9\n\
                   11: directory end, edition 2: type=\"YE\", pointer=10, layers=1, edition=2\n";
    assert!(shown.ends_with(records), "{shown}");
}

/// Appended, there already, and taken off again: the bytes as before. In a form, which the answers name.
fn appended_and_taken_off(f: &Folder, layers: usize, form: fn(&[u8]) -> Vec<u8>, named: &str) {
    let (sheet, whole) = (form(&layered(layers)), form(&filed_second(&layered(layers))));
    f.put("sheet.dm", &sheet);
    let ran = f.run(&APPEND);
    let said = format!("sheet.dm: appended a directory of {}, edition 2, {}{named}\n", of_layers(layers), span(layers, 3));
    assert_eq!((ran.seen(), f.get("sheet.dm")), ((Some(0), said, true), whole.clone()));
    // One that is there stays, where no edition is asked for too.
    let already = format!("it has a directory of {}, edition 2 already, and it is right", of_layers(layers));
    for words in [&APPEND[..], &APPEND[..3]] {
        assert_eq!(f.run(words).seen(), (Some(0), format!("sheet.dm: {already}; nothing was changed\n"), true));
    }
    assert!(f.get("sheet.dm") == whole);
    let ran = f.run(&["directory", "sheet.dm", "--remove"]);
    let records = layers.div_ceil(3) + 1;
    let records = format!("{records} record{}", if records == 1 { "" } else { "s" });
    let now = format!("now accepted {} records 0 items{named}", 5 + layers);
    assert_eq!(ran.seen(), (Some(0), format!("sheet.dm: removed its directory, {records}; {now}\n"), true));
    assert!(f.get("sheet.dm") == sheet);
}

#[test]
fn a_directory_is_appended_and_taken_off() {
    let f = Folder::new("second_appended");
    for layers in LAYERS {
        appended_and_taken_off(&f, layers, <[u8]>::to_vec, "");
        appended_and_taken_off(&f, layers, lines, " (line ends)");
    }
    assert_eq!(f.names(), ["sheet.dm"]);
}

/// From one edition to the other and back: only by what is asked for, and never by way of a sheet without its directory.
#[test]
fn one_edition_for_the_other() {
    let f = Folder::new("second_other");
    for layers in LAYERS {
        let (first, second) = (filed(&layered(layers)), filed_second(&layered(layers)));
        f.put("sheet.dm", &first);
        let ran = f.run(&APPEND);
        let said = format!(
            "sheet.dm: took off its directory of edition 1, which was right, and appended a directory of {}",
            of_layers(layers)
        );
        assert_eq!(ran.seen(), (Some(0), format!("{said}, edition 2, {}\n", span(layers, 3)), true));
        assert!(f.get("sheet.dm") == second);
        let ran = f.run(&["directory", "sheet.dm", "--append", "--edition", "1", "-o", "other.dm", "--force"]);
        let said = said.replace("sheet.dm", "other.dm").replace("edition 1", "edition 2");
        assert_eq!(ran.seen(), (Some(0), format!("{said}, {}\n", span(layers, 11)), true));
        assert!(f.get("other.dm") == first && f.get("sheet.dm") == second);
    }
    // Not where the directory is wrong.
    let wrong = with(filed(&layered(12)), 18, 2, "      7");
    f.put("sheet.dm", &wrong);
    let ran = f.run(&APPEND);
    assert!(ran.status == Some(1) && ran.err.contains("refused 19 at record 18") && f.get("sheet.dm") == wrong, "{}", ran.err);
}

#[test]
fn a_jump_to_every_layer() {
    let f = Folder::new("second_jump");
    f.put("sheet.dm", &lines(&filed_second(&layered(7)))).put("town.dm", &filed_second(&good()));
    for layer in 1..=7 {
        let ran = f.run(&["jump", "sheet.dm", &layer.to_string()]);
        let at = 5 + layer;
        let said =
            format!("sheet.dm: layer {layer}: record {at}, total 0, last {at}, class 2100, area code 0, information 0, number 0");
        assert_eq!(ran.seen(), (Some(0), format!("{said} (line ends, directory of 7 layers, edition 2)\n"), true));
    }
    let ran = f.run(&["jump", "town.dm", "1"]);
    assert!(ran.text().starts_with("town.dm: layer 1: record 6, total 1, last 9, class 2100, "), "{}", ran.text());
    let ran = f.run(&["jump", "town.dm", "2"]);
    let said = "(directory of 1 layer, edition 2)\nthe sheet has 1 layer: there is no other to jump to\n";
    assert!(ran.status == Some(1) && ran.err.ends_with(said), "{}", ran.err);
}

/// What the other subcommands print of such a sheet is what they print without the directory, but for what says so.
#[test]
fn the_same_answers_with_a_directory() {
    let f = Folder::new("second_answers");
    f.put("town.dm", &good()).put("second.dm", &filed_second(&good())).put("first.dm", &filed(&good()));
    for words in [&["judge"][..], &["explain"], &["show", "1", "9"], &["show", "6", "6"], &["up", "9"], &["up", "6"]] {
        let of = |name| f.run(&[&words[..1], &[name], &words[1..]].concat());
        let (without, with) = (of("town.dm"), of("second.dm"));
        let text = without.text().replace("town.dm", "second.dm");
        let (first, rest) = text.split_once('\n').expect("a line");
        assert_eq!(with.seen(), (Some(0), format!("{first} (directory of 1 layer, edition 2)\n{rest}"), true), "{words:?}");
    }
    let ran = f.run(&["directory", "--check", "first.dm", "second.dm", "town.dm"]);
    let checked = "first.dm: accepted 9 records 1 items (directory of 1 layer)\n\
                   second.dm: accepted 9 records 1 items (directory of 1 layer, edition 2)\n\
                   town.dm: refused 19 at record 9: the directory of layers is missing (directory)\n";
    assert_eq!(ran.seen(), (Some(1), checked.to_string(), true));
    let ran = f.run(&["judge", "--no-directory", "second.dm"]);
    assert!(ran.text().starts_with("second.dm: refused 4 at record 10: "), "{}", ran.text());
}

/// Edits on random sheets with a directory of each edition: the same sheets and refusals, and the directory made anew in its edition.
#[test]
fn edits_keep_the_edition() {
    let f = Folder::new("second_edits");
    let mut r = Random(57);
    let mut done = 0;
    for case in 0..60 {
        let sheet = sheets::sheet(&mut r, 1 + case % 4);
        let (sort, level) = (1 + r.below(9), 2 + r.below(2));
        f.put("first.dm", &filed(&sheet)).put("second.dm", &filed_second(&sheet)).put("lines.dm", &lines(&filed_second(&sheet)));
        f.put("sheet.dm", &sheet).put("item.dm", &sheets::item(&mut r, sort, level).concat());
        let place = (1 + r.below(sheet.len() / RECORD + 1)).to_string();
        let words: &[&str] = match r.below(5) {
            0 | 1 => &["remove", "", &place],
            2 => &["insert", "", "end", "item.dm"],
            3 => &["normal", "", "-o", ""],
            _ => &["insert", "", &place, "item.dm"],
        };
        let on = |name: &'static str| {
            f.run(&words.iter().map(|word| if word.is_empty() { name } else { *word }).collect::<Vec<&str>>())
        };
        let ran = ["sheet.dm", "first.dm", "second.dm", "lines.dm"].map(on);
        assert!(ran.iter().all(|other| other.status == ran[0].status), "case {case}: {}", ran[2].err);
        let edited = f.get("sheet.dm");
        assert!(f.get("first.dm") == filed(&edited) && f.get("second.dm") == filed_second(&edited), "case {case}");
        assert!(f.get("lines.dm") == lines(&filed_second(&edited)), "case {case}");
        if words[0] != "normal" && ran[0].status == Some(0) {
            let said = ran[1].text().replace("first.dm", "second.dm").replace(" made anew", ", edition 2 made anew");
            assert_eq!(ran[2].text(), said, "case {case}");
            done += 1;
        }
    }
    assert!(done > 10, "{done}");
}

/// Wrong directories of a sheet that is accepted, and the edition of the right one.
fn wrong() -> Vec<(&'static str, Vec<u8>)> {
    let file = || filed_second(&layered(4));
    vec![
        ("another header", with(file(), 10, 2, "      7")),
        ("another total", with(file(), 10, 9, "      1")),
        ("another last record", with(file(), 10, 16, "      7")),
        ("leading zeros", with(file(), 11, 2, "0000009")),
        ("a number too many", with(file(), 11, 23, "     10")),
        ("another count", with(file(), 12, 9, "      3")),
        ("a pointer of 1", with(file(), 12, 2, "      1")),
        ("edition 0", with(file(), 12, 16, "      0")),
        ("edition 1", with(file(), 12, 16, "      1")),
        ("edition 3", with(file(), 12, 16, "      3")),
        ("edition 02", with(file(), 12, 16, "     02")),
        ("no edition", with(file(), 12, 16, "       ")),
        ("a record lost", [&file()[..10 * RECORD], &file()[11 * RECORD..]].concat()),
        ("a second end", [&file()[..], &file()[11 * RECORD..]].concat()),
    ]
}

/// A wrong directory refuses every subcommand that would make it anew or go by it, with the judge's line and the command that mends it; nothing is changed.
fn every_subcommand_refuses(f: &Folder, name: &str, judged: &str) {
    let bytes = f.get("sheet.dm");
    for words in [
        &["insert", "sheet.dm", "end", "item.dm"][..],
        &["remove", "sheet.dm", "7"],
        &["normal", "sheet.dm", "-o", "sheet.dm"],
        &["up", "sheet.dm", "7"],
        &["jump", "sheet.dm", "1"],
        &["directory", "sheet.dm"],
        &["directory", "sheet.dm", "--append"],
        &APPEND,
    ] {
        let ran = f.run(words);
        assert_eq!((ran.status, ran.text()), (Some(1), String::new()), "{name}: {words:?}");
        let line = judged.replace("sheet.dm:", "dmtool: sheet.dm:");
        assert!(ran.err.starts_with(&line) && ran.err.contains("'dmtool directory sheet.dm --remove'"), "{name}: {}", ran.err);
        assert!(ran.err.ends_with("\n'dmtool explain sheet.dm' says what is wrong\n"), "{name}: {}", ran.err);
        assert!(f.get("sheet.dm") == bytes, "{name}: {words:?}");
    }
}

/// The commands that `explain` names lead to the right directory, of the same edition.
#[test]
fn a_wrong_directory() {
    let f = Folder::new("second_wrong");
    f.put("item.dm", &block());
    for (name, bytes) in wrong() {
        f.put("sheet.dm", &bytes);
        let judged = f.run(&["judge", "sheet.dm"]);
        assert!(judged.status == Some(1) && judged.text().ends_with(" (directory, edition 2)\n"), "{name}: {}", judged.text());
        assert_eq!(name.contains("edition"), judged.text().contains(": refused 27 at record 12: the edition column "), "{name}");
        every_subcommand_refuses(&f, name, &judged.text());
        let explained = f.run(&["explain", "sheet.dm"]).text();
        let commands: Vec<&str> = explained.split('\'').filter(|words| words.starts_with("dmtool directory ")).collect();
        let due = ["dmtool directory sheet.dm --remove", "dmtool directory sheet.dm --append --edition 2"];
        assert_eq!(commands, due, "{name}: {explained}");
        for command in commands {
            let words: Vec<&str> = command.split(' ').skip(1).collect();
            assert_eq!(f.run(&words).status, Some(0), "{name}: {command}");
        }
        assert!(f.get("sheet.dm") == filed_second(&layered(4)), "{name}");
    }
    assert_eq!(f.names(), ["item.dm", "sheet.dm"]);
}

/// Records of both editions in one directory: both commands are named, as nothing tells which is meant; `--remove` takes all of it off.
#[test]
fn records_of_both_editions() {
    let f = Folder::new("second_mixed");
    let end = |text: &str| format!("{text:84}").into_bytes();
    let [first, second] = [filed(&layered(2)), filed_second(&layered(2))].map(|file| file[..8 * RECORD].to_vec());
    for (name, bytes, said) in [
        ("ZE behind Y ", [second.clone(), end("ZE      8      2")].concat(), "refused 19 at record 8: "),
        ("YE behind Z ", [first.clone(), end("YE      8      2      2")].concat(), "refused 19 at record 8: "),
        ("YE with the columns of ZE", [first, end("YE      8      2")].concat(), "refused 27 at record 9: "),
    ] {
        f.put("sheet.dm", &bytes);
        let explained = f.run(&["explain", "sheet.dm"]).text();
        assert!(explained.starts_with(&format!("sheet.dm: {said}")), "{name}: {explained}");
        let commands = "'dmtool directory sheet.dm --append' or 'dmtool directory sheet.dm --append --edition 2'\n";
        assert!(explained.contains(commands), "{name}: {explained}");
        assert_eq!(f.run(&APPEND).status, Some(1), "{name}");
        let ran = f.run(&["directory", "sheet.dm", "--remove"]);
        assert!(
            ran.text().starts_with("sheet.dm: removed its directory, 2 records, which was refused "),
            "{name}: {}",
            ran.text()
        );
        assert!(f.get("sheet.dm") == layered(2), "{name}");
    }
}

/// Killed at any moment while one edition is put in the place of the other: one or the other, never a sheet without.
#[test]
fn killed_at_any_moment() {
    let f = Folder::new("second_killed");
    let both = [filed(&layered(3_000)), filed_second(&layered(3_000))];
    f.put("sheet.dm", &both[0]);
    let mut seen = [0, 0];
    for n in 0..120 {
        let now = f.get("sheet.dm");
        let edition = if now == both[0] { "2" } else { "1" };
        let words = ["directory", "sheet.dm", "--append", "--edition", edition];
        let mut tool = f.tool(&words).stdout(Stdio::null()).spawn().unwrap();
        thread::sleep(Duration::from_micros(100 * n));
        tool.kill().unwrap();
        tool.wait().unwrap();
        let found = f.get("sheet.dm");
        assert!(both.contains(&found), "kill {n}: neither the old file nor the new one");
        seen[usize::from(found == now)] += 1;
    }
    assert!(seen[1] > 0, "{seen:?}");
    assert_eq!(f.run(&["normal", "sheet.dm", "-o", "sheet.dm"]).status, Some(0));
    assert_eq!(f.names(), ["sheet.dm"]);
}

/// Killed at each call of the system that matters, the file stays as it was; what lies beside it is cleared by the next edit.
#[test]
fn killed_at_every_step() {
    let (f, faults) = (Folder::new("second_step"), Faults::new("second_step"));
    for fault in ["flock kill", "tmpfile kill", "fsync kill", "linkat kill", "rename kill", "tmpfile 95,rename kill"] {
        for (bytes, words) in [
            (good(), &APPEND[..]),
            (filed(&good()), &APPEND),
            (lines(&filed_second(&good())), &["directory", "sheet.dm", "--remove"]),
            (filed_second(&good()), &["remove", "sheet.dm", "7"]),
        ] {
            f.put("sheet.dm", &bytes);
            let ran = faults.run(&f, fault, "", words);
            assert_eq!((ran.status, ran.text()), (None, String::new()), "{fault}");
            assert!(f.get("sheet.dm") == bytes, "{fault}");
            assert_eq!(f.run(words).status, Some(0));
            assert_eq!(f.names(), ["sheet.dm"], "{fault}");
        }
    }
}

/// Editors at once on one sheet, some of which change the edition of its directory or take it off: no accepted edit is lost.
#[test]
fn editors_at_once() {
    let f = Folder::new("second_editors");
    f.put("sheet.dm", &filed(&good())).put("block.dm", &block());
    let edit = |n: usize| match n % 4 {
        0 => (f.run(&["directory", "sheet.dm", "--append", "--edition", ["1", "2"][n / 4 % 2]]), 0),
        1 if n % 8 == 1 => (f.run(&["directory", "sheet.dm", "--remove"]), 0),
        1 | 2 => (f.run(&["insert", "sheet.dm", "7", "block.dm"]), 1),
        _ => (f.run(&["remove", "sheet.dm", "7"]), -1),
    };
    let editor = |first: usize| {
        let mut gained = 0;
        for n in first..first + 24 {
            let (ran, gain) = edit(n);
            assert!(ran.status == Some(0) || gain < 0 && ran.err.contains("refused 11"), "{}", ran.err);
            gained += if ran.status == Some(0) { gain } else { 0 };
        }
        gained
    };
    let gained: i64 = thread::scope(|scope| {
        let runs: Vec<_> = (0..6).map(|n| scope.spawn(move || editor(n))).collect();
        runs.into_iter().map(|run| run.join().expect("an editor")).sum()
    });
    assert_eq!(f.run(&APPEND).status, Some(0));
    let judged = f.run(&["judge", "sheet.dm"]).text();
    assert!(judged.ends_with(&format!(" {} items (directory of 1 layer, edition 2)\n", 1 + gained)), "{gained}: {judged}");
    assert_eq!(f.names(), ["block.dm", "sheet.dm"]);
}

/// 200,000 records of layers, and the largest directory of all behind them.
#[test]
fn the_largest_files() {
    let f = Folder::new("second_largest");
    let sheet = layered(199_995);
    f.put("sheet.dm", &sheet);
    let ran = f.run(&APPEND);
    assert_eq!(
        ran.text(),
        "sheet.dm: appended a directory of 199995 layers, edition 2, records 200001 to 266666\n",
        "{}",
        ran.err
    );
    let whole = f.get("sheet.dm");
    assert!(whole == filed_second(&sheet) && whole.len() == 266_666 * RECORD);
    let judged = "sheet.dm: accepted 200000 records 0 items (directory of 199995 layers, edition 2)\n";
    assert_eq!(f.run(&["judge", "sheet.dm"]).text(), judged);
    assert!(f
        .run(&["jump", "sheet.dm", "199995"])
        .text()
        .starts_with("sheet.dm: layer 199995: record 200000, total 0, last 200000, "));
    assert_eq!(f.run(&["convert", "sheet.dm", "--to", "lines"]).status, Some(0));
    assert!(f.get("sheet.dm") == lines(&whole));
    assert_eq!(f.run(&["judge", "sheet.dm"]).text(), judged.replace("(dir", "(line ends, dir"));
    assert!(f.run(&["directory", "sheet.dm", "--remove"]).status == Some(0) && f.get("sheet.dm") == lines(&sheet));
    // A directory of the first edition is no longer than that: what is longer is refused.
    let end = format!("{:84}", "ZE 200001      0").into_bytes();
    f.put("unix.dm", &ended(&[&sheet[..], &vec![b' '; 18_183 * RECORD], &end].concat(), b"\n"));
    assert_eq!(f.run(&["convert", "unix.dm", "--to", "plain", "--mend"]).status, Some(1));
}

#[test]
fn batch_lines() {
    let hex = |bytes: &[u8]| bytes.iter().map(|byte| format!("{byte:02x}")).collect::<String>();
    let f = Folder::new("second_batch");
    let (sheet, first, second) = (good(), filed(&good()), filed_second(&good()));
    let room = [sheet.clone(), vec![b'.'; 3 * RECORD]].concat();
    let after = [&second[..], &[b'.'; RECORD]].concat();
    let edition = with(second.clone(), 11, 16, "      3");
    let (used, whole) = (sheet.len(), second.len());
    let cases = [
        (format!("append2 {used} {}", hex(&room)), format!("ok {whole} {}", hex(&after))),
        (format!("append2 {used} {}", hex(&sheet)), "no 15 0".to_string()),
        (format!("directory2 {whole} {}", hex(&second)), "ok 9 1".to_string()),
        (format!("directory2 {whole} {}", hex(&first)), "ok 9 1".to_string()),
        (format!("directory {whole} {}", hex(&second)), "no 19 11".to_string()),
        (format!("directory2 {whole} {}", hex(&edition)), "no 27 11".to_string()),
        (format!("jump2 {whole} {} 1", hex(&second)), "ok 6 1 9".to_string()),
        (format!("jump2 {whole} {} 1", hex(&first)), "ok 6 0 0".to_string()),
        (format!("jump2 {whole} {} 2", hex(&second)), "no 17 0".to_string()),
        (format!("jump {whole} {} 1", hex(&second)), "no 19 11".to_string()),
        ("jump2 84 00".to_string(), "error N is missing".to_string()),
        ("directory2 84".to_string(), "error BUF is missing".to_string()),
        ("append2 1 00 00".to_string(), "error a word too many: 00".to_string()),
    ];
    let input: String = cases.iter().map(|(line, _)| format!("{line}\n")).collect();
    let answers: String = cases.iter().map(|(_, answer)| format!("{answer}\n")).collect();
    assert_eq!(f.run_on(input.as_bytes(), &["batch"]).seen(), (Some(0), answers, true));
}

#[test]
fn wrong_words() {
    let f = Folder::new("second_words");
    f.put("town.dm", &good());
    for words in [
        &["directory", "town.dm", "--append", "--edition"][..],
        &["directory", "town.dm", "--append", "--edition", "0"],
        &["directory", "town.dm", "--append", "--edition", "3"],
        &["directory", "town.dm", "--append", "--edition", "02"],
        &["directory", "town.dm", "--append", "--edition", "1", "--edition", "2"],
        &["directory", "town.dm", "--remove", "--edition", "2"],
        &["directory", "town.dm", "--check", "--edition", "2"],
        &["judge", "town.dm", "--edition", "2"],
        &["jump", "town.dm", "1", "--edition", "2"],
    ] {
        let ran = f.run(words);
        assert_eq!((ran.status, ran.text()), (Some(2), String::new()), "{words:?}");
        assert!(
            ran.err.starts_with("dmtool: ") && ran.err.contains("--help") && ran.err.lines().count() == 1,
            "{words:?}: {}",
            ran.err
        );
    }
    assert_eq!((f.names(), f.get("town.dm")), (vec!["town.dm".to_string()], good()));
}
