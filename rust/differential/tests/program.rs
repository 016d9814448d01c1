//! The built program, as `crates/dm/out/dm` and by the script `./dm`, prints the line that the reference has for its input.

mod support;

use reference::random::Random;
use reference::{sheets, RECORD};
use std::fs;
use std::io::Write;
use std::path::Path;
use std::process::{Command, Output, Stdio};
use support::{built, example, preloaded, printed, root};

/// Runs a command with these pieces on its standard input, some milliseconds apart.
fn run(command: &mut Command, pieces: Vec<Vec<u8>>) -> Output {
    let mut child = command.stdin(Stdio::piped()).stdout(Stdio::piped()).stderr(Stdio::piped()).spawn().expect("it starts");
    let mut to = child.stdin.take().expect("its standard input");
    // A program that has read enough closes its input: that is no fault of the test.
    let write = move |piece: &Vec<u8>| {
        std::thread::sleep(std::time::Duration::from_millis(3));
        to.write_all(piece)
    };
    let writer = std::thread::spawn(move || pieces.iter().try_for_each(write));
    let done = child.wait_with_output().expect("it ends");
    drop(writer.join().expect("the writer ends"));
    done
}

/// The program, the script with a file and the script with standard input all print the reference's line, which is this one. The script's exit
/// status tells whether it says accepted.
fn prints(name: &str, input: &[u8], line: &str) {
    let expected = (Some(0), reference::program(input) + "\n", String::new());
    assert_eq!(expected.1, format!("{line}\n"), "{name}: the reference");
    let by_script = (Some(if line.starts_with("accepted") { 0 } else { 1 }), expected.1.clone(), String::new());
    let program = built();
    let file = Path::new(env!("CARGO_TARGET_TMPDIR")).join(format!("program_{name}"));
    fs::write(&file, input).expect("a file");
    assert_eq!(printed(&run(&mut Command::new(&program), vec![input.to_vec()])), expected, "{name}: crates/dm/out/dm");
    let mut script = Command::new(support::script());
    assert_eq!(printed(&run(&mut script, vec![input.to_vec()])), by_script, "{name}: ./dm");
    assert_eq!(printed(&run(script.arg(&file), Vec::new())), by_script, "{name}: ./dm FILE");
}

#[test]
fn sheets_accepted_and_refused() {
    let mut sheet = example();
    prints("accepted", &sheet, "accepted 9 records 1 items");
    sheet[5 * RECORD + 18..5 * RECORD + 23].copy_from_slice(b"    2");
    prints("total_2", &sheet, "refused 10 at record 6");
    prints("one_byte_less", &sheet[1..], "refused 1 at record 0");
}

#[test]
fn indexes_accepted_and_refused() {
    let accepted = b"I  9City survey office              0 0   0002008Regulation                    10   ";
    prints("index", accepted, "accepted 1 records 0 items");
    let refused = b"I  9City survey office            99199   0002008Regulation                    10   ";
    prints("index_991", refused, "refused 6 at record 1");
}

#[test]
fn the_ends_of_its_input() {
    prints("empty", b"", "refused 1 at record 0");
    let mut sheet = sheets::sheet_of_points(780);
    assert_eq!(sheet.len(), 65_520);
    prints("longest", &sheet, "accepted 780 records 772 items");
    sheet.push(b' ');
    prints("one_more", &sheet, "too long");
    sheet.resize(1_000_000, b' ');
    prints("far_more", &sheet, "too long");
}

#[test]
fn arbitrary_bytes() {
    let mut r = Random(65);
    let bytes: Vec<u8> = (0..100 * RECORD).map(|_| r.word() as u8).collect();
    prints("bytes", &bytes, "refused 2 at record 1");
    prints("ragged_bytes", &bytes[5..], "refused 1 at record 0");
}

/// Damaged files of every kind, as the reference judges them.
#[test]
fn damaged_files() {
    let (mut r, program) = (Random(66), built());
    for n in 0..200 {
        let file = if r.once_in(4) { sheets::index(&mut r) } else { sheets::sheet(&mut r, n % 4) };
        let file = sheets::damaged(&mut r, &file);
        let done = run(&mut Command::new(&program), vec![file.clone()]);
        assert_eq!(printed(&done), (Some(0), reference::program(&file) + "\n", String::new()), "case {n}");
    }
}

/// What comes in pieces, as from a slow pipe, is judged whole.
#[test]
fn input_in_pieces() {
    let pieces = example().chunks(50).map(<[u8]>::to_vec).collect();
    let done = run(&mut Command::new(built()), pieces);
    assert_eq!(printed(&done), (Some(0), "accepted 9 records 1 items\n".to_string(), String::new()));
}

/// A read that fails is no end of the input: whatever was read before it, the program prints a line that is no answer. Each read gives one record here;
/// the first nine are the whole sheet, and the tenth finds its end.
#[test]
fn a_failed_read_is_no_end() {
    for nth in 1..=11 {
        let sheet = fs::File::open(root().join("crates/dm/stdin")).expect("the stored sheet");
        let mut command = Command::new(built());
        let done = preloaded(command.stdin(sheet), "failing_read", &nth.to_string()).output().expect("it ends");
        let expected = if nth <= 10 { "not judged: read error\n" } else { "accepted 9 records 1 items\n" };
        assert_eq!(printed(&done), (Some(0), expected.to_string(), String::new()), "read {nth}");
    }
}
