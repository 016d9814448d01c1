//! Files with line ends: every subcommand on them and on their plain twins, forced forms, `convert`, edits that are killed and
//! editors at once.

mod support;

use reference::random::Random;
use reference::{sheets, RECORD};
use std::ffi::OsStr;
use std::os::unix::ffi::OsStrExt;
use std::os::unix::fs::symlink;
use std::process::{Command, Stdio};
use std::thread;
use std::time::Duration;
use support::fault::Faults;
use support::{block, damaged, ended, good, large, Folder};

const INDEX: &[u8] = b"I  9City survey office              0 0   0002008Regulation                    10   ";

fn lines(plain: &[u8]) -> Vec<u8> {
    ended(plain, b"\r\n")
}

/// A folder with files in both forms: those with line ends start `l_`.
fn both(name: &str) -> Folder {
    let f = Folder::new(name);
    for (name, plain) in [("good.dm", good()), ("damaged.dm", damaged()), ("block.dm", block()), ("index.dm", INDEX.to_vec())] {
        f.put(name, &plain).put(&format!("l_{name}"), &lines(&plain));
    }
    f
}

/// What the tool prints of a file with line ends is what it prints of the plain one, but for the name and ` (line ends)`.
#[test]
fn the_same_answers_in_both_forms() {
    let f = both("both_forms");
    for (words, name) in [
        (&["judge"][..], "good.dm"),
        (&["judge"], "damaged.dm"),
        (&["judge"], "index.dm"),
        (&["judge"], "block.dm"),
        (&["explain"], "good.dm"),
        (&["explain"], "damaged.dm"),
        (&["explain"], "block.dm"),
        (&["show"], "good.dm"),
        (&["show"], "damaged.dm"),
        (&["show"], "index.dm"),
    ] {
        let plain = f.run(&[words, &[name]].concat());
        let with = f.run(&[words, &[format!("l_{name}").as_str()]].concat());
        let text = plain.text();
        let (first, rest) = text.split_once('\n').expect("a line");
        assert_eq!(with.text(), format!("l_{first} (line ends)\n{rest}"), "{words:?} {name}");
        assert_eq!((with.status, with.err.as_str()), (plain.status, ""), "{words:?} {name}");
    }
}

#[test]
fn show_and_up() {
    let f = both("show_up");
    for bounds in [&["6"][..], &["8", "9"], &["1", "1"]] {
        let of = |name| f.run(&[&["show", name], bounds].concat()).text();
        assert!(of("good.dm").lines().skip(1).eq(of("l_good.dm").lines().skip(1)), "{bounds:?}");
    }
    assert_eq!(f.run(&["show", "l_good.dm", "10"]).err, "dmtool: l_good.dm: it has 9 records; give a FROM up to that\n");
    let up = |record| f.run(&["up", "l_good.dm", record]);
    assert_eq!(up("9").text(), "l_good.dm: record 9: header above 6, headers passed 1 (6) (line ends)\n");
    assert_eq!(up("6").text(), "l_good.dm: record 6: a layer header, no header above (line ends)\n");
    let words = "the record number is outside the file or in the sheet part, or there is no such layer";
    let refused = &format!("dmtool: l_good.dm: refused 17: {words} (line ends)\n");
    assert!(up("5").err.starts_with(refused) && up("5").status == Some(1), "{}", up("5").err);
}

/// Insertions and removals on random sheets, with and without line ends, of blocks with and without: the same sheets, and the same refusals.
#[test]
fn edits_in_both_forms() {
    let f = Folder::new("edits_both");
    let mut r = Random(18);
    let mut done = 0;
    for case in 0..60 {
        let sheet = sheets::sheet(&mut r, case % 4);
        let (sort, level) = (1 + r.below(9), 2 + r.below(2));
        let item = sheets::item(&mut r, sort, level).concat();
        f.put("sheet.dm", &sheet).put("l_sheet.dm", &lines(&sheet)).put("item.dm", &item).put("l_item.dm", &lines(&item));
        let place = (1 + r.below(sheet.len() / RECORD + 1)).to_string();
        let item = *r.pick(&["item.dm", "l_item.dm"]);
        let (plain, with) = match r.below(4) {
            0 => (f.run(&["remove", "sheet.dm", &place]), f.run(&["remove", "l_sheet.dm", &place])),
            1 => (f.run(&["insert", "sheet.dm", "end", item]), f.run(&["insert", "l_sheet.dm", "end", item])),
            _ => (f.run(&["insert", "sheet.dm", &place, item]), f.run(&["insert", "l_sheet.dm", &place, item])),
        };
        assert_eq!(plain.status, with.status, "case {case}: {}", with.err);
        assert!(f.get("l_sheet.dm") == lines(&f.get("sheet.dm")), "case {case}");
        let said = plain.text().replace("sheet.dm", "l_sheet.dm").replace(" items\n", " items (line ends)\n");
        assert_eq!(with.text(), said, "case {case}");
        assert!(plain.status == Some(0) || f.get("sheet.dm") == sheet, "case {case}");
        done += usize::from(plain.status == Some(0));
    }
    assert!(done > 10, "{done}");
}

#[test]
fn results_elsewhere_keep_their_form() {
    let f = both("elsewhere");
    let note = "dmtool: l_good.dm: it has line ends, and so has the result\n";
    let ran = f.run(&["insert", "l_good.dm", "7", "block.dm", "-o", "-"]);
    assert_eq!((ran.status, ran.err.as_str(), ran.out.len()), (Some(0), note, 12 * 86));
    let ran = f.run(&["remove", "l_good.dm", "7", "-o", "new.dm"]);
    assert_eq!(ran.text(), "new.dm: removed 3 records at record 7, now 6 records 0 items (line ends)\n");
    assert_eq!((f.get("new.dm").len(), f.get("l_good.dm")), (6 * 86, lines(&good())));
    let ran = f.run_on(&lines(&good()), &["remove", "-", "7", "-o", "-"]);
    assert_eq!((ran.status, ran.out), (Some(0), f.get("new.dm")));
    let mut loose = good();
    loose[5 * RECORD + 18..5 * RECORD + 23].copy_from_slice(b"00001");
    f.put("loose.dm", &lines(&loose));
    let ran = f.run(&["normal", "loose.dm"]);
    assert_eq!((ran.status, ran.out, ran.err), (Some(0), lines(&good()), note.replace("l_good", "loose")));
    assert_eq!(f.run(&["normal", "loose.dm", "-o", "loose.dm"]).status, Some(0));
    assert_eq!(f.get("loose.dm"), lines(&good()));
    assert_eq!(f.run(&["normal", "l_index.dm"]).out, lines(INDEX));
    assert_eq!(f.run(&["normal", "l_damaged.dm", "-o", "never.dm"]).status, Some(1));
    assert!(!f.names().contains(&"never.dm".to_string()));
}

/// A wrong end refuses every subcommand that needs the records, by 18 at that record; nothing is changed.
#[test]
fn a_broken_end() {
    let f = both("broken_end");
    let mut broken = lines(&good());
    broken[7 * 86 + 85] = b'\r';
    f.put("broken.dm", &broken);
    let line = "broken.dm: refused 18 at record 8: a record does not end in carriage return and line feed (line ends)";
    for words in [&["judge", "broken.dm"][..], &["explain", "broken.dm"], &["show", "broken.dm"]] {
        let ran = f.run(words);
        assert_eq!((ran.text().lines().next(), ran.err.as_str()), (Some(line), ""), "{words:?}");
    }
    assert!(f.run(&["show", "broken.dm", "8", "8"]).text().contains("\n8: 2D data of record 7, level 2: X 1=0, "));
    let explained = f.run(&["explain", "broken.dm"]).text();
    let end = "> bytes 85-86  line end  is \"\\x0d\\x0d\", must be carriage return and line feed (\"\\x0d\\x0a\")\n";
    assert!(explained.ends_with(end) && explained.contains("record 8: 2D data of record 7"), "{explained}");
    for words in [
        &["insert", "broken.dm", "7", "block.dm"][..],
        &["remove", "broken.dm", "7"],
        &["up", "broken.dm", "9"],
        &["normal", "broken.dm", "-o", "broken.dm"],
        &["convert", "broken.dm", "--to", "plain"],
        &["convert", "broken.dm", "--to", "lines"],
    ] {
        let ran = f.run(words);
        let said = format!("dmtool: {line}\n'dmtool explain broken.dm' says what is wrong\n");
        assert_eq!(
            (ran.status, ran.text(), ran.err, f.get("broken.dm")),
            (Some(1), String::new(), said, broken.clone()),
            "{words:?}"
        );
    }
    assert_eq!(f.names().len(), 9);
}

#[test]
fn a_block_with_a_broken_end() {
    let f = both("broken_block");
    let mut broken = lines(&block());
    broken[84..86].copy_from_slice(b"\n\r");
    f.put("broken.dm", &broken).put("cut.dm", &lines(&block())[..200]);
    let ran = f.run(&["insert", "l_good.dm", "7", "broken.dm"]);
    let refused = "dmtool: l_good.dm: refused 12: the block is not exactly one sound item with a level from 2 to 9 (line ends)\n";
    let what = "in the block: record 1 ends in line feed and carriage return (LF CR), the wrong way round\n";
    let next =
        "in the block: mend that by 'dmtool convert broken.dm --to lines --mend' (or --to plain); then it is a sound block, ";
    assert!(ran.err.starts_with(&format!("{refused}{what}{next}")) && ran.status == Some(1), "{}", ran.err);
    let ran = f.run(&["insert", "good.dm", "7", "cut.dm"]);
    assert!(ran.err.contains("\nin the block: record 3 has only 28 of its 84 bytes: the file is cut off\n"), "{}", ran.err);
    // What the sheet itself, or the place, is refused for comes first.
    assert!(f.run(&["insert", "l_damaged.dm", "7", "broken.dm"]).err.contains("refused 10 at record 6"));
    assert!(f.run(&["insert", "l_good.dm", "8", "broken.dm"]).err.contains("refused 11"));
    assert_eq!((f.get("l_good.dm"), f.get("good.dm")), (lines(&good()), good()));
    assert_eq!(f.run(&["convert", "broken.dm", "--to", "plain", "--mend"]).status, Some(0));
    assert_eq!(f.run(&["insert", "l_good.dm", "7", "broken.dm"]).status, Some(0));
}

/// `--lines` and `--plain` read a file in that form, whatever it seems to be.
#[test]
fn forced_forms() {
    let f = both("forced");
    let first = |words: &[&str]| f.run(words).text().lines().next().map(str::to_string);
    for words in [["judge", "good.dm"], ["explain", "good.dm"], ["show", "good.dm"]] {
        let forced = first(&[&words[..], &["--lines"]].concat());
        assert_eq!(forced.as_deref(), Some("good.dm: refused 1: the length, 756 bytes, is not a multiple of 86 (line ends)"));
        assert_eq!(first(&[&words[..], &["--plain"]].concat()), first(&words));
    }
    for words in [["judge", "l_good.dm"], ["explain", "l_good.dm"], ["show", "l_good.dm"]] {
        let forced = first(&[&words[..], &["--plain"]].concat());
        assert_eq!(forced.as_deref(), Some("l_good.dm: refused 1: the length, 774 bytes, is not a multiple of 84"));
        assert_eq!(first(&[&words[..], &["--lines"]].concat()), first(&words));
    }
    let note =
        "every record ends in carriage return and line feed (CR LF), 86 bytes in all: read with line ends the file is accepted\n";
    assert!(f.run(&["explain", "l_good.dm", "--plain"]).text().ends_with(note));
    let note = "there are no line ends in the file: read as plain, the file is accepted\n";
    assert!(f.run(&["explain", "good.dm", "--lines"]).text().ends_with(note));
    for words in [
        &["insert", "l_good.dm", "7", "block.dm", "--plain"][..],
        &["remove", "l_good.dm", "7", "--plain"],
        &["up", "l_good.dm", "7", "--plain"],
        &["normal", "l_good.dm", "--plain"],
        &["convert", "l_good.dm", "--to", "plain", "--plain"],
        &["insert", "good.dm", "7", "block.dm", "--lines"],
        &["remove", "good.dm", "7", "--lines"],
        &["up", "good.dm", "7", "--lines"],
        &["normal", "good.dm", "--lines"],
        &["convert", "good.dm", "--to", "lines", "--lines"],
    ] {
        let ran = f.run(words);
        assert!(ran.status == Some(1) && ran.err.contains(": refused 1: the length, "), "{words:?}: {}", ran.err);
        let option = words.iter().rfind(|word| word.starts_with("--")).expect("a form");
        let explained = format!("'dmtool explain {option} {}' says what is wrong\n", words[1]);
        assert!(ran.err.ends_with(&explained), "{words:?}: {}", ran.err);
    }
    assert_eq!((f.get("good.dm"), f.get("l_good.dm")), (good(), lines(&good())));
    // Of an insertion it is the sheet's form; the block is recognised for itself.
    assert_eq!(f.run(&["insert", "--lines", "l_good.dm", "7", "block.dm"]).status, Some(0));
    assert_eq!(f.run(&["insert", "--plain", "good.dm", "7", "l_block.dm"]).status, Some(0));
    assert_eq!(f.get("l_good.dm"), lines(&f.get("good.dm")));
}

/// The hint at line ends is for who did not ask for the plain form.
#[test]
fn no_hint_where_plain_is_asked_for() {
    let f = Folder::new("plain_hint");
    f.put("unix.dm", &ended(&good(), b"\n"));
    let line = "unix.dm: refused 1: the length, 765 bytes, is not a multiple of 84";
    let hint = "; its line ends are wrong, 'dmtool explain unix.dm' says how";
    assert_eq!(f.run(&["judge", "unix.dm"]).text(), format!("{line}{hint}\n"));
    assert_eq!(f.run(&["judge", "--plain", "unix.dm"]).text(), format!("{line}\n"));
}

/// The command that a hint names, copied to a shell, explains the file, whatever its name.
#[test]
fn commands_that_can_be_copied() {
    let f = Folder::new("copied");
    let names: [(&[u8], &str); 9] = [
        (b"unix.dm", "'dmtool explain unix.dm'"),
        ("\u{56f3}\u{9762}.dm".as_bytes(), "'dmtool explain \u{56f3}\u{9762}.dm'"),
        (b"a b.dm", "\"dmtool explain 'a b.dm'\""),
        (b"-x.dm", "'dmtool explain ./-x.dm'"),
        (b"- x.dm", "\"dmtool explain './- x.dm'\""),
        (b"it's.dm", "\"dmtool explain 'it'\\''s.dm'\""),
        (b"a\"b;$(x)*.dm", "dmtool explain 'a\"b;$(x)*.dm'"),
        (b"~#&.dm", "\"dmtool explain '~#&.dm'\""),
        (b"-a\n1\xff\\'.dm", "\"dmtool explain $'./-a\\0121\\377\\\\\\'.dm'\""),
    ];
    for (name, quoted) in names {
        let name = OsStr::from_bytes(name);
        std::fs::write(f.0.join(name), ended(&good(), b"\n")).unwrap();
        let judged = f.tool(&["judge", "--"]).arg(name).output().unwrap();
        let judged = String::from_utf8(judged.stdout).unwrap();
        assert!(judged.ends_with(&format!("; its line ends are wrong, {quoted} says how\n")), "{judged}");
        let around = &quoted[..usize::from(!quoted.starts_with('d'))];
        let command = quoted.strip_prefix(around).and_then(|quoted| quoted.strip_suffix(around)).expect("a command");
        let command = command.replacen("dmtool", env!("CARGO_BIN_EXE_dmtool"), 1);
        let ran = Command::new("bash").arg("-c").arg(&command).current_dir(&f.0).output().unwrap();
        let said = String::from_utf8(ran.stdout).unwrap();
        assert!(said.contains("every record ends in a line feed (LF)"), "{command}: {said}");
        let mend = quoted.replacen("dmtool explain", "dmtool convert", 1);
        let mend = format!("{} --to lines --mend{around} (or --to plain)", &mend[..mend.len() - around.len()]);
        assert!(said.contains(&format!("mend that by {mend}; then the file is accepted")), "{mend}: {said}");
        let command = command.replacen(" explain", " convert", 1) + " --to lines --mend";
        assert!(Command::new("bash").arg("-c").arg(&command).current_dir(&f.0).output().unwrap().status.success(), "{command}");
        assert!(std::fs::read(f.0.join(name)).unwrap() == lines(&good()), "{command}");
    }
}

#[test]
fn wrong_words() {
    let f = both("form_words");
    for words in [
        &["judge", "good.dm", "--lines", "--plain"][..],
        &["convert", "good.dm"],
        &["convert", "good.dm", "--to"],
        &["convert", "good.dm", "--to", "text"],
        &["convert", "good.dm", "--to", "lines", "--to", "plain"],
        &["convert", "--to", "lines"],
        &["convert", "-", "--to", "lines"],
        &["convert", "good.dm", "--to", "lines", "--force"],
        &["convert", "good.dm", "--to", "lines", "--mend", "--plain"],
        &["convert", "l_good.dm", "--plain", "--mend", "--to", "plain"],
        &["judge", "good.dm", "--mend"],
        &["normal", "good.dm", "--to", "lines"],
        &["batch", "--lines"],
    ] {
        let ran = f.run(words);
        assert_eq!((ran.status, ran.text()), (Some(2), String::new()), "{words:?}");
        assert!(
            ran.err.starts_with("dmtool: ") && ran.err.contains("--help") && ran.err.lines().count() == 1,
            "{words:?}: {}",
            ran.err
        );
    }
    assert_eq!(f.names().len(), 8);
}

/// Over and back, on any records: whole sheets, damaged ones, blocks, indexes, bytes that are no file at all.
#[test]
fn convert_over_and_back() {
    let f = Folder::new("over_and_back");
    let mut r = Random(9);
    for case in 0..40 {
        let sheet = sheets::sheet(&mut r, case % 4);
        let any: Vec<u8> = (0..RECORD * (1 + r.below(6))).map(|_| r.below(256) as u8).collect();
        let plain = match case % 5 {
            0 => sheets::damaged(&mut r, &sheet),
            1 => sheets::index(&mut r),
            2 => any,
            3 => block(),
            _ => sheet,
        };
        if plain.is_empty() || plain.len() % RECORD != 0 {
            continue;
        }
        f.put("file.dm", &plain);
        let records = plain.len() / RECORD;
        let records = format!("{records} record{}", if records == 1 { "" } else { "s" });
        let ran = f.run(&["convert", "file.dm", "--to", "lines", "--plain"]);
        assert_eq!(ran.text(), format!("file.dm: converted {records}, now with line ends\n"), "{}", ran.err);
        assert!(f.get("file.dm") == lines(&plain), "case {case}");
        let ran = f.run(&["convert", "file.dm", "--to", "plain"]);
        assert_eq!(ran.text(), format!("file.dm: converted {records}, now plain\n"), "{}", ran.err);
        assert!(f.get("file.dm") == plain, "case {case}");
    }
    assert_eq!(f.names(), ["file.dm"]);
}

#[test]
fn convert_what_has_that_form_already() {
    let f = both("already");
    let ran = f.run(&["convert", "l_good.dm", "--to", "lines"]);
    assert_eq!(
        (ran.status, ran.text().as_str()),
        (Some(0), "l_good.dm: 9 records, with line ends already; nothing was changed\n")
    );
    let ran = f.run(&["convert", "good.dm", "--to", "plain", "-o", "copy.dm"]);
    assert_eq!((ran.status, ran.text().as_str()), (Some(0), "copy.dm: 9 records, plain already; copied as it is\n"));
    assert_eq!((f.get("copy.dm"), f.get("l_good.dm")), (good(), lines(&good())));
    let ran = f.run(&["convert", "good.dm", "--to", "plain", "--mend"]);
    assert_eq!(ran.text(), "good.dm: 9 records, plain already; nothing was changed\n");
    // Another file is left alone, as by an edit.
    let ran = f.run(&["convert", "good.dm", "--to", "lines", "-o", "copy.dm"]);
    assert!(ran.status == Some(2) && ran.err.contains("copy.dm, which exists already"), "{}", ran.err);
    assert_eq!(f.run(&["convert", "good.dm", "--to", "lines", "-o", "copy.dm", "--force"]).status, Some(0));
    assert_eq!(f.get("copy.dm"), lines(&good()));
    let ran = f.run_on(&good(), &["convert", "-", "--to", "lines", "-o", "-"]);
    assert_eq!((ran.status, ran.out, ran.err.as_str()), (Some(0), lines(&good()), ""));
    for (name, bytes) in [("empty.dm", Vec::new()), ("ragged.dm", good()[1..].to_vec()), ("unix.dm", ended(&good(), b"\n"))] {
        f.put(name, &bytes);
        for form in ["lines", "plain"] {
            let ran = f.run(&["convert", name, "--to", form]);
            assert!(ran.status == Some(1) && ran.err.starts_with(&format!("dmtool: {name}: refused 1: ")), "{}", ran.err);
            assert!(f.get(name) == bytes, "{name}");
        }
    }
}

/// Line ends of another kind, broken or missing: `--mend` gives the sheet in either form; without it nothing is changed.
#[test]
fn convert_mends_line_ends() {
    let f = Folder::new("mend");
    let right = lines(&good());
    let with = |at: usize, out: usize, new: &[u8]| [&right[..at], new, &right[at + out..]].concat();
    let cases = [
        ended(&good(), b"\n"),
        ended(&good(), b"\r"),
        ended(&good(), b"\n\r"),
        ended(&good(), b"\r\r\n"),
        ended(&good(), b"\r\n\r\n"),
        with(9 * 86 - 2, 2, b""),
        with(9 * 86 - 1, 1, b""),
        with(4 * 86 - 2, 2, b"  "),
        with(4 * 86 - 2, 2, b""),
        with(4 * 86 - 2, 2, b"\n"),
        with(3 * 86 + 40, 0, b"\r\n"),
        [&right[..], b"\x1a"].concat(),
        [&right[..], &[0; 100]].concat(),
        [&good()[..], b"\r\n"].concat(),
        [&good()[..], b"\n"].concat(),
        [&good()[..], b"\r"].concat(),
    ];
    for (n, bytes) in cases.iter().enumerate() {
        f.put("file.dm", bytes);
        assert_eq!(
            (f.run(&["convert", "file.dm", "--to", "lines"]).status, f.get("file.dm")),
            (Some(1), bytes.clone()),
            "case {n}"
        );
        let ran = f.run(&["convert", "file.dm", "--to", "plain", "--mend", "-o", "plain.dm"]);
        assert!(ran.text().starts_with("plain.dm: mended its line ends at "), "case {n}: {}{}", ran.text(), ran.err);
        assert_eq!(f.run(&["convert", "file.dm", "--to", "lines", "--mend"]).status, Some(0), "case {n}");
        assert_eq!((f.get("plain.dm"), f.get("file.dm")), (good(), right.clone()), "case {n}");
        std::fs::remove_file(f.0.join("plain.dm")).unwrap();
    }
    for bytes in [with(3 * 86 + 40, 1, b""), with(3 * 86 + 40, 0, b" "), right[..400].to_vec(), good()[1..].to_vec(), Vec::new()]
    {
        f.put("file.dm", &bytes);
        let ran = f.run(&["convert", "file.dm", "--to", "lines", "--mend"]);
        assert!(ran.status == Some(1) && f.get("file.dm") == bytes, "{}{}", ran.text(), ran.err);
    }
}

/// 200,000 records with line ends, one more than that, and one whose end is broken.
#[test]
fn the_largest_files() {
    let f = Folder::new("largest_lines");
    let full = lines(large());
    f.put("full.dm", &full).put("more.dm", &[&full[..], &full[full.len() - 86..]].concat());
    let mut broken = full.clone();
    broken[200_000 * 86 - 1] = b' ';
    f.put("broken.dm", &broken).put("block.dm", &lines(&large()[199_999 * RECORD..]));
    let judged = f.run(&["judge", "full.dm"]).text();
    assert!(judged.starts_with("full.dm: accepted 200000 records ") && judged.ends_with(" items (line ends)\n"), "{judged}");
    let more = "more.dm: refused 1: the file has more than 200,000 records of 86 bytes (line ends)\n";
    assert_eq!(f.run(&["judge", "more.dm"]).text(), more);
    assert_eq!(f.run(&["explain", "more.dm"]).text(), format!("{more}divide the sheet into two\n"));
    let explained = f.run(&["explain", "broken.dm"]).text();
    assert!(explained.starts_with("broken.dm: refused 18 at record 200000: "), "{explained}");
    assert!(f.run(&["insert", "full.dm", "end", "block.dm"]).err.starts_with("dmtool: full.dm: refused 14: "));
    assert_eq!(f.run(&["remove", "full.dm", "200000"]).status, Some(0));
    assert_eq!(f.run(&["insert", "full.dm", "end", "block.dm"]).status, Some(0));
    assert_eq!(f.run(&["judge", "full.dm"]).text(), judged);
    let edited = f.get("full.dm");
    assert_eq!(f.run(&["convert", "full.dm", "--to", "plain"]).status, Some(0));
    assert!(lines(&f.get("full.dm")) == edited && edited.len() == full.len());
    assert!(f.run(&["up", "broken.dm", "200000"]).err.starts_with("dmtool: broken.dm: refused 18 at record 200000: "));
}

/// Line ends that make the largest file longer than one may be are mended too; what is read of a file in part only is not.
#[test]
fn the_largest_files_are_mended() {
    let f = Folder::new("largest_mended");
    f.put("double.dm", &ended(large(), b"\r\n\r\n")).put("twice.dm", &ended(large(), b"\r\r\n"));
    for name in ["double.dm", "twice.dm"] {
        let command = format!("mend that by 'dmtool convert {name} --to lines --mend' (or --to plain)");
        assert!(f.run(&["explain", name]).text().contains(&command), "{name}");
        let ran = f.run(&["convert", name, "--to", "lines", "--mend"]);
        assert_eq!(
            ran.text(),
            format!("{name}: mended its line ends at 200000 places, 200000 records, now with line ends\n"),
            "{}",
            ran.err
        );
        assert!(f.get(name) == lines(large()), "{name}");
    }
    let long = ended(large(), b"\r\n\r\n").repeat(2);
    f.put("long.dm", &long);
    let ran = f.run(&["convert", "long.dm", "--to", "plain", "--mend", "-o", "new.dm"]);
    assert!(ran.status == Some(1) && ran.err.contains("refused 1: the file has more than 200,000 records"), "{}", ran.err);
    assert!(f.get("long.dm") == long && !f.names().contains(&"new.dm".to_string()));
}

/// A sheet of 301 items, with line ends.
fn many() -> Vec<u8> {
    let (mut sheet, block) = (good(), block());
    for _ in 0..300 {
        let used = sheet.len();
        sheet.resize(used + block.len(), b' ');
        zvaigulta::insert(&mut sheet, used, 7, &block).expect("an insertion");
    }
    lines(&sheet)
}

/// A sheet with line ends without the item at record 7.
fn without_first(file: &[u8]) -> Vec<u8> {
    let mut sheet: Vec<u8> = file.chunks(86).flat_map(|line| &line[..RECORD]).copied().collect();
    let length = sheet.len();
    let used = zvaigulta::remove(&mut sheet, length, 7).expect("a removal");
    lines(&sheet[..used])
}

/// Killed at any moment: the old sheet or the new one, with all its line ends.
#[test]
fn killed_at_any_moment() {
    let f = Folder::new("lines_killed");
    let mut now = many();
    f.put("sheet.dm", &now);
    for n in 0..120 {
        let mut tool = f.tool(&["remove", "sheet.dm", "7"]).stdout(Stdio::null()).spawn().unwrap();
        thread::sleep(Duration::from_micros(50 * n));
        tool.kill().unwrap();
        tool.wait().unwrap();
        let (found, next) = (f.get("sheet.dm"), without_first(&now));
        assert!(found == now || found == next, "kill {n}: neither the old sheet nor the new one");
        now = found;
    }
    assert_eq!(f.run(&["remove", "sheet.dm", "7"]).status, Some(0));
    assert!(f.get("sheet.dm") == without_first(&now));
    assert_eq!(f.names(), ["sheet.dm"]);
}

/// A conversion killed at each call of the system that matters leaves the file as it was; what lies beside it is cleared by the next edit.
#[test]
fn a_conversion_killed_at_every_step() {
    let (f, faults) = (Folder::new("convert_killed"), Faults::new("convert_killed"));
    for fault in ["flock kill", "tmpfile kill", "fsync kill", "linkat kill", "rename kill", "tmpfile 95,rename kill"] {
        for (bytes, form) in [(good(), "lines"), (lines(&good()), "plain")] {
            f.put("sheet.dm", &bytes);
            let ran = faults.run(&f, fault, "", &["convert", "sheet.dm", "--to", form]);
            assert_eq!((ran.status, ran.text()), (None, String::new()), "{fault}");
            assert!(f.get("sheet.dm") == bytes, "{fault}");
            assert_eq!(f.run(&["convert", "sheet.dm", "--to", form]).status, Some(0));
            assert_eq!(f.names(), ["sheet.dm"], "{fault}");
        }
    }
}

/// Editors at once on one sheet, which some of them convert meanwhile: no accepted edit is lost, and the sheet is in one form or the other.
#[test]
fn editors_at_once() {
    let f = Folder::new("lines_editors");
    f.put("sheet.dm", &lines(&good())).put("block.dm", &block()).put("l_block.dm", &lines(&block()));
    symlink("sheet.dm", f.0.join("link.dm")).unwrap();
    let edit = |n: usize| match n % 4 {
        0 => (f.run(&["convert", "sheet.dm", "--to", ["lines", "plain"][n / 4 % 2]]), 0),
        1 => (f.run(&["insert", "link.dm", "7", "block.dm"]), 1),
        2 => (f.run(&["insert", "sheet.dm", "end", "l_block.dm"]), 1),
        _ => (f.run(&["remove", "sheet.dm", "7"]), -1),
    };
    let editor = |first: usize| {
        let mut gained = 0;
        for n in first..first + 20 {
            let (ran, gain) = edit(n);
            assert!(ran.status == Some(0) || gain < 0 && ran.err.contains("refused 11"), "{}", ran.err);
            gained += if ran.status == Some(0) { gain } else { 0 };
        }
        gained
    };
    let gained: i64 = thread::scope(|scope| {
        let runs: Vec<_> = (0..6).map(|n| scope.spawn(move || editor(n))).collect();
        runs.into_iter().map(|run| run.join().expect("an editor")).sum()
    });
    assert_eq!(f.run(&["convert", "sheet.dm", "--to", "lines"]).status, Some(0));
    let judged = f.run(&["judge", "sheet.dm"]).text();
    assert!(gained > 0 && judged.ends_with(&format!(" {} items (line ends)\n", 1 + gained)), "{gained}: {judged}");
    assert_eq!(f.names(), ["block.dm", "l_block.dm", "link.dm", "sheet.dm"]);
}
