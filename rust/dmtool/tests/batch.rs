//! `batch` against the reference's answers to the same lines, and as a bench uses it.

mod support;

use reference::protocol::{answer, hex};
use reference::random::Random;
use reference::{directory_calls, judge, sheets, RECORD};
use std::io::{BufRead, BufReader, Write};
use std::process::{Command, Stdio};
use support::{ended, good, large, Folder};

/// A number as likely small as large, at the ends of 64 bits and past them.
fn number(r: &mut Random) -> String {
    const ODD: [&str; 10] = [
        "0",
        "-1",
        "9223372036854775807",
        "-9223372036854775808",
        "9223372036854775808",
        "18446744073709551615",
        "18446744073709551616",
        "-9223372036854775809",
        "+5",
        "1x",
    ];
    match r.below(12) {
        0 => r.pick(&ODD).to_string(),
        1 => format!("-{}", r.word() >> (1 + r.below(63))),
        2 => format!("000{}", r.below(100)),
        _ => (r.word() >> (1 + r.below(63))).to_string(),
    }
}

fn column(r: &mut Random) -> Vec<u8> {
    let width = if r.once_in(10) { r.below(30) } else { 1 + r.below(18) };
    let digits = r.below(width + 1);
    let byte = |n: usize, r: &mut Random| if n < width - digits { b' ' } else { b'0' + r.below(10) as u8 };
    let mut bytes: Vec<u8> = (0..width).map(|n| byte(n, r)).collect();
    if r.once_in(2) && !bytes.is_empty() {
        let at = r.below(bytes.len());
        bytes[at] = if r.once_in(4) { r.below(256) as u8 } else { *r.pick(b"-- +0.") };
    }
    bytes
}

fn leaf(r: &mut Random) -> String {
    let unit = if r.once_in(6) { number(r) } else { r.pick(&["1", "10", "999"]).to_string() };
    match r.below(4) {
        0 => format!("read {}", hex(&column(r))),
        1 => format!("write {} {}", if r.once_in(4) { number(r) } else { r.below(20).to_string() }, number(r)),
        2 if r.once_in(3) => format!("join {unit} {} {}", number(r), number(r)),
        2 => format!("join {unit} {} {}", r.between(-1_100_000, 11_000_000), r.between(-1_010, 1_010)),
        _ if r.once_in(3) => format!("split {unit} {}", number(r)),
        _ => format!("split {unit} {}", r.between(-1_001_000_000, 10_001_000_000) / 10 * 10),
    }
}

/// A place where a header or an item starts, most often.
fn place(r: &mut Random, sheet: &[u8]) -> String {
    match judge::accepted(sheet, sheet.len()) {
        Ok((walked, _)) if !walked.found.is_empty() && !r.once_in(4) => (r.pick(&walked.found).place + 1).to_string(),
        _ if r.once_in(3) => number(r),
        _ => r.below(sheet.len() / RECORD + 3).to_string(),
    }
}

/// A command on a file, which is damaged once in three, with bytes behind it once in two, and a used length that is seldom off.
fn on_file(r: &mut Random) -> String {
    let size = r.below(4);
    let index = r.once_in(6);
    let mut file = if index { sheets::index(r) } else { sheets::sheet(r, size) };
    if r.once_in(3) {
        file = sheets::damaged(r, &file);
    }
    let used = if r.once_in(20) { number(r) } else { file.len().to_string() };
    let kind = if index != r.once_in(30) { "index" } else { "sheet" };
    let at = place(r, &file);
    let mut buffer = file;
    buffer.extend((0..r.below(2) * r.below(12 * RECORD)).map(|_| b'~'));
    let buf = hex(&buffer);
    match r.below(6) {
        0 => format!("judge {kind} {used} {buf}"),
        1 => format!("normal {kind} {used} {buf} {}", hex(&vec![b'.'; buffer.len() + 2 - r.below(3)])),
        2 => {
            let (sort, level) = (1 + r.below(9), if r.once_in(3) { 1 + r.below(10) } else { 2 });
            let block = sheets::item(r, sort, level).concat();
            let block = if r.once_in(4) { sheets::damaged(r, &block) } else { block };
            format!("insert {used} {at} {buf} {}", hex(&block))
        }
        3 => format!("remove {used} {at} {buf}"),
        4 => format!("up {used} {} {buf}", if r.once_in(2) { at } else { r.below(buffer.len() / RECORD + 2).to_string() }),
        _ => format!("main {buf}"),
    }
}

/// A line with a word lost, doubled, cut or in capitals, or with words that are no command.
fn spoiled(r: &mut Random, line: &str) -> String {
    let mut words: Vec<String> = line.split(' ').map(str::to_string).collect();
    let at = r.below(words.len());
    match r.below(6) {
        0 => drop(words.remove(at)),
        1 => words.insert(at, words[at].clone()),
        2 => drop(words[at].pop()),
        3 => words[at] = words[at].to_uppercase(),
        4 => words[at] = "é".to_string(),
        _ => return r.pick(&["", " ", "judge", "judge sheet", "READ 31", "quit", "formed"]).to_string(),
    }
    words.join(" ")
}

/// Runs the lines through the tool, and holds each answer to the reference's.
fn compare(name: &str, lines: &[String]) -> (usize, usize) {
    let input = lines.join("\n") + "\n";
    let ran = Folder::new(name).run_on(input.as_bytes(), &["batch"]);
    assert_eq!((ran.status, ran.err.as_str()), (Some(0), ""));
    let text = ran.text();
    let answers: Vec<&str> = text.lines().collect();
    assert_eq!(answers.len(), lines.len());
    let (mut accepted, mut errors) = (0, 0);
    for (line, ours) in lines.iter().zip(answers) {
        match answer(line) {
            Ok(theirs) => assert!(ours == theirs, "{line}\nours   {ours}\ntheirs {theirs}"),
            Err(_) => assert!(ours.starts_with("error ") && ours.len() > 6, "{line}\nours {ours}"),
        }
        accepted += usize::from(ours.starts_with("ok "));
        errors += usize::from(ours.starts_with("error "));
    }
    (accepted, errors)
}

#[test]
fn thousands_of_lines_as_the_reference_answers_them() {
    let mut r = Random(99);
    let mut lines: Vec<String> = Vec::new();
    for n in 0..12_000 {
        let line = if n % 2 == 0 { leaf(&mut r) } else { on_file(&mut r) };
        lines.push(if r.once_in(12) { spoiled(&mut r, &line) } else { line });
    }
    let (accepted, errors) = compare("batch_lines", &lines);
    assert!(accepted > 3_000 && errors > 500, "{accepted} accepted, {errors} errors");
}

/// The bytes of a record with its line end.
const LINE: usize = RECORD + 2;

fn with_line_ends(plain: &[u8]) -> Vec<u8> {
    ended(plain, b"\r\n")
}

/// 1 by a stride, then, for lines, 18 with the first record whose end is another.
fn length_and_ends(buffer: &[u8], used: usize, stride: usize) -> Result<&[u8], String> {
    let file = buffer.get(..used).filter(|file| !file.is_empty() && file.len() % stride == 0).ok_or("no 1 0")?;
    let wrong = file.chunks(stride).position(|line| stride == LINE && !line.ends_with(b"\r\n"));
    wrong.map_or(Ok(file), |place| Err(format!("no 18 {}", place + 1)))
}

/// What a writer answers: the result at the start of the target, whose other bytes stay.
fn written(result: &[u8], target: &[u8]) -> String {
    match target.get(result.len()..) {
        Some(rest) => format!("ok {} {}", result.len(), hex(&[result, rest].concat())),
        None => "no 15 0".to_string(),
    }
}

/// A command of order 1 on a buffer, and its answer; for the plain twin of a file with line ends that of the reference.
fn on_buffer(command: usize, kind: &str, buffer: &[u8], used: usize, target: &[u8]) -> (String, String) {
    let (buf, buf2) = (hex(buffer), hex(target));
    let file = |stride| length_and_ends(buffer, used, stride);
    let twin = || file(LINE).map(|file| file.chunks(LINE).flat_map(|line| &line[..RECORD]).copied().collect::<Vec<u8>>());
    let judged = |twin: Vec<u8>| answer(&format!("judge {kind} {} {}", twin.len(), hex(&twin))).expect("an answer");
    let (line, expected) = match command {
        0 => (format!("judge86 {kind} {used} {buf}"), twin().map(judged)),
        1 => (format!("from86 {used} {buf} {buf2}"), twin().map(|twin| written(&twin, target))),
        _ => (format!("to86 {used} {buf} {buf2}"), file(RECORD).map(|file| written(&with_line_ends(file), target))),
    };
    (line, expected.unwrap_or_else(|no| no))
}

/// The same on a file with line ends most often, damaged in its records or its ends, with bytes behind it.
fn on_lines(r: &mut Random) -> (String, String) {
    let (index, size) = (r.once_in(4), r.below(4));
    let plain = if index { sheets::index(r) } else { sheets::sheet(r, size) };
    let plain = if r.once_in(3) { sheets::damaged(r, &plain) } else { plain };
    let command = r.below(3);
    let as_is = if r.once_in(8) { command < 2 } else { command == 2 };
    let mut buffer = if as_is { plain } else { with_line_ends(&plain) };
    if r.once_in(4) {
        let at = r.below(buffer.len() / LINE + 1) * LINE + RECORD + r.below(2);
        let byte = *r.pick(b"\r\n \0");
        buffer.iter_mut().skip(at).take(1).for_each(|old| *old = byte);
    }
    let used = if r.once_in(12) { r.below(buffer.len() + 2) } else { buffer.len() };
    buffer.extend((0..r.below(2) * r.below(200)).map(|_| b'~'));
    let kind = if index != r.once_in(30) { "index" } else { "sheet" };
    let near = (buffer.len() as i64 + r.between(-2, 2) * r.between(0, 100)).max(0) as usize;
    on_buffer(command, kind, &buffer, used, &vec![b'.'; if r.once_in(2) { near } else { 2 * buffer.len() }])
}

#[test]
fn thousands_of_lines_on_files_with_line_ends() {
    let mut r = Random(86);
    let (lines, expected): (Vec<String>, Vec<String>) = (0..6_000).map(|_| on_lines(&mut r)).unzip();
    let ran = Folder::new("batch_lines_86").run_on((lines.join("\n") + "\n").as_bytes(), &["batch"]);
    let text = ran.text();
    let answers: Vec<&str> = text.lines().collect();
    assert_eq!((ran.status, answers.len()), (Some(0), lines.len()));
    for ((line, ours), theirs) in lines.iter().zip(&answers).zip(&expected) {
        assert!(ours == theirs, "{line}\nours   {ours}\ntheirs {theirs}");
    }
    let count = |start: &str| answers.iter().filter(|ours| ours.starts_with(start)).count();
    for start in ["ok ", "no 1 0", "no 2 ", "no 3 ", "no 5 ", "no 10 ", "no 15 0", "no 18 1", "no 18 9"] {
        assert!(count(start) > 10, "{start}: {}", count(start));
    }
    for wrong in ["judge86 sheet 86", "judge86 other 1 00", "to86 1 00", "from86 1 00 00 00", "to86 x 00 00", "from86 -1 00 00"] {
        assert!(Folder::new("batch_86").run_on(wrong.as_bytes(), &["batch"]).text().starts_with("error "), "{wrong}");
    }
}

/// The commands of order 5 as the reference draws and answers them, some of them with wrong words.
#[test]
fn thousands_of_lines_on_sheets_with_a_directory() {
    let mut r = Random(57);
    let drawn = String::from_utf8(directory_calls::commands(56, 4_000)).expect("text");
    let lines: Vec<String> =
        drawn.lines().map(|line| if r.once_in(12) { spoiled(&mut r, line) } else { line.to_string() }).collect();
    let (accepted, errors) = compare("batch_directories", &lines);
    assert!(accepted > 1_000 && errors > 100, "{accepted} accepted, {errors} errors");
    for command in ["directory ", "append ", "jump "] {
        assert!(lines.iter().filter(|line| line.starts_with(command)).count() > 1_000, "{command}");
    }
    for wrong in ["directory", "directory 84", "append 1 00 00", "jump 84 00", "jump 84 00 x", "jump 84 00 1 1", "jump 84 00 -1"]
    {
        assert!(Folder::new("batch_words").run_on(wrong.as_bytes(), &["batch"]).text().starts_with("error "), "{wrong}");
    }
}

/// The commands of order 13, and those of order 5 on files of the second edition.
#[test]
fn thousands_of_lines_on_either_edition() {
    let mut r = Random(58);
    let drawn = String::from_utf8(directory_calls::commands_of_both(57, 4_000)).expect("text");
    let lines: Vec<String> =
        drawn.lines().map(|line| if r.once_in(12) { spoiled(&mut r, line) } else { line.to_string() }).collect();
    let (accepted, errors) = compare("batch_editions", &lines);
    assert!(accepted > 900 && errors > 100, "{accepted} accepted, {errors} errors");
    for command in ["directory2 ", "append2 ", "jump2 "] {
        assert!(lines.iter().filter(|line| line.starts_with(command)).count() > 800, "{command}");
    }
    for wrong in
        ["directory2", "directory2 84", "append2 1 00 00", "jump2 84 00", "jump2 84 00 x", "jump2 84 00 1 1", "append3 0 -"]
    {
        assert!(Folder::new("batch_editions").run_on(wrong.as_bytes(), &["batch"]).text().starts_with("error "), "{wrong}");
    }
}

#[test]
fn the_program_and_its_longest_input() {
    let mut input = good();
    let mut lines = vec![format!("main {}", hex(&input)), "main -".to_string()];
    for length in [65_519, 65_520, 65_521, 65_604] {
        input.resize(length, b' ');
        lines.push(format!("main {}", hex(&input)));
    }
    compare("batch_main", &lines);
    let text = Folder::new("batch_main").run_on(lines.join("\n").as_bytes(), &["batch"]).text();
    let answers: Vec<&str> = text.lines().collect();
    let refused = "refused 1 at record 0";
    assert_eq!(answers, ["accepted 9 records 1 items", refused, refused, "refused 4 at record 10", "too long", "too long"]);
}

/// A line of 33,600,000 bytes and one of 16,800,000 more on the way back.
#[test]
fn very_long_lines() {
    let sheet = hex(large());
    let used = large().len();
    let lines = format!("judge sheet {used} {sheet}\nremove {used} 200000 {sheet}\nread 31");
    let ran = Folder::new("batch_long").run_on(lines.as_bytes(), &["batch"]);
    let text = ran.text();
    let answers: Vec<&str> = text.lines().collect();
    assert!(answers[0].starts_with("ok 200000 "), "{}", answers[0]);
    assert!(answers[1].starts_with(&format!("ok {} ", used - RECORD)) && answers[1].len() > sheet.len());
    assert_eq!(answers[2..], ["ok 1"]);
}

/// Each answer comes before the next line is sent; a line that is no text, or ends in carriage return, or is the last without a line end, is answered too.
#[test]
fn an_answer_to_each_line_at_once() {
    let mut command = Command::new(env!("CARGO_BIN_EXE_dmtool"));
    let mut child = command.arg("batch").stdin(Stdio::piped()).stdout(Stdio::piped()).spawn().unwrap();
    let (mut to, mut from) = (child.stdin.take().unwrap(), BufReader::new(child.stdout.take().unwrap()));
    let mut ask = |line: &[u8]| {
        to.write_all(line).unwrap();
        to.flush().unwrap();
        let mut text = String::new();
        from.read_line(&mut text).unwrap();
        text
    };
    assert_eq!(ask(b"split 10 -50\n"), "ok 0 -5\n");
    assert!(ask(b"read \xff\xfe\n").starts_with("error "));
    assert!(ask(b"\n").starts_with("error "));
    assert_eq!(ask(b"join 1 -1234 -56\r\n"), "ok -1234056\n");
    drop(to);
    let mut rest = String::new();
    assert_eq!(from.read_line(&mut rest).unwrap(), 0);
    assert_eq!(child.wait().unwrap().code(), Some(0));
    let ran = Folder::new("batch_end").run_on(b"read 3132", &["batch"]);
    assert_eq!(ran.text(), "ok 12\n");
}
