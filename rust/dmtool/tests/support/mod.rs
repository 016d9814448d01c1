//! What the tests of the tool share: a folder for each test, the tool run as a user runs it, and files to run it on.
#![allow(dead_code)]

pub mod attributes;
pub mod fault;

use reference::random::Random;
use reference::{sheets, RECORD};
use std::fs;
use std::io::Write;
use std::path::{Path, PathBuf};
use std::process::{Command, Stdio};
use std::sync::OnceLock;

/// What the tool did.
pub struct Ran {
    pub status: Option<i32>,
    pub out: Vec<u8>,
    pub err: String,
}

impl Ran {
    pub fn text(&self) -> String {
        String::from_utf8(self.out.clone()).expect("text on standard output")
    }

    /// The exit status, standard output and whether standard error is empty.
    pub fn seen(&self) -> (Option<i32>, String, bool) {
        (self.status, self.text(), self.err.is_empty())
    }
}

/// A folder of a test's own, empty at its start, and gone at its end unless the test fails.
pub struct Folder(pub PathBuf);

impl Drop for Folder {
    fn drop(&mut self) {
        if !std::thread::panicking() {
            let _ = fs::remove_dir_all(&self.0);
        }
    }
}

impl Folder {
    pub fn new(name: &str) -> Folder {
        Folder::below(Path::new(env!("CARGO_TARGET_TMPDIR")), name)
    }

    /// A folder below another, with the process in its name, so that the same test may run twice at once.
    pub fn below(parent: &Path, name: &str) -> Folder {
        let path = parent.join(format!("{name}.{}", std::process::id()));
        let _ = fs::remove_dir_all(&path);
        fs::create_dir_all(&path).expect("a folder");
        Folder(path)
    }

    pub fn put(&self, name: &str, bytes: &[u8]) -> &Folder {
        fs::write(self.0.join(name), bytes).expect("a file");
        self
    }

    pub fn get(&self, name: &str) -> Vec<u8> {
        fs::read(self.0.join(name)).expect("a file")
    }

    /// The names in the folder, sorted.
    pub fn names(&self) -> Vec<String> {
        let entries = fs::read_dir(&self.0).expect("a folder");
        let mut names: Vec<String> = entries.map(|e| e.expect("a file").file_name().into_string().expect("a name")).collect();
        names.sort();
        names
    }

    /// The tool, to be run in the folder.
    pub fn tool(&self, words: &[&str]) -> Command {
        let mut tool = Command::new(env!("CARGO_BIN_EXE_dmtool"));
        tool.args(words).current_dir(&self.0);
        tool
    }

    /// Runs the tool in the folder, with these bytes on its standard input.
    pub fn run_on(&self, input: &[u8], words: &[&str]) -> Ran {
        run(&mut self.tool(words), input)
    }

    pub fn run(&self, words: &[&str]) -> Ran {
        self.run_on(b"", words)
    }
}

/// Runs a command with these bytes on its standard input.
pub fn run(command: &mut Command, input: &[u8]) -> Ran {
    let mut child = command.stdin(Stdio::piped()).stdout(Stdio::piped()).stderr(Stdio::piped()).spawn().expect("it starts");
    let mut to = child.stdin.take().expect("its standard input");
    let input = input.to_vec();
    // A tool that does not read its input closes it: that is no fault of the test.
    let writer = std::thread::spawn(move || drop(to.write_all(&input)));
    let done = child.wait_with_output().expect("it ends");
    writer.join().expect("the writer ends");
    Ran { status: done.status.code(), out: done.stdout, err: String::from_utf8(done.stderr).expect("text on standard error") }
}

/// The example of document 01.
pub fn good() -> Vec<u8> {
    zvaigulta::EXAMPLE.to_vec()
}

/// The same with header total 2: refused 10 at record 6.
pub fn damaged() -> Vec<u8> {
    let mut sheet = good();
    sheet[5 * RECORD + 18..5 * RECORD + 23].copy_from_slice(b"    2");
    sheet
}

/// An item: a line of seven points at level 2.
pub fn block() -> Vec<u8> {
    good()[6 * RECORD..].to_vec()
}

/// A sheet of so many layers, all empty.
pub fn layered(layers: usize) -> Vec<u8> {
    let mut sheet = good()[..5 * RECORD].to_vec();
    sheet[RECORD + 31..RECORD + 44].copy_from_slice(format!("     0{layers:7}").as_bytes());
    let mut header = good()[5 * RECORD..6 * RECORD].to_vec();
    header[18..69].copy_from_slice(format!("{}0", "    0".repeat(10)).as_bytes());
    (0..layers).for_each(|_| sheet.extend(&header));
    sheet
}

/// A sheet with the directory of its layers, of the first edition.
pub fn filed(sheet: &[u8]) -> Vec<u8> {
    zvaigulta::Sheet::from(sheet.to_vec()).with_directory().expect("an accepted sheet")
}

/// A sheet with the directory of its layers, of the second edition.
pub fn filed_second(sheet: &[u8]) -> Vec<u8> {
    zvaigulta::Sheet::from(sheet.to_vec()).with_edition(zvaigulta::Edition::Second).expect("an accepted sheet")
}

/// A file with another text in a record, from a byte on that is counted from 0.
pub fn with(mut file: Vec<u8>, record: usize, start: usize, text: &str) -> Vec<u8> {
    let at = (record - 1) * RECORD + start;
    file[at..at + text.len()].copy_from_slice(text.as_bytes());
    file
}

/// Records with a line end behind each.
pub fn ended(plain: &[u8], end: &[u8]) -> Vec<u8> {
    plain.chunks(RECORD).flat_map(|record| [record, end].concat()).collect()
}

/// An accepted sheet of 200,000 records: a layer with three grids and points of one record each; the last record is a point.
pub fn large() -> &'static [u8] {
    static ONCE: OnceLock<Vec<u8>> = OnceLock::new();
    ONCE.get_or_init(|| {
        let part = sheets::sheet_of(&mut Random(3), Vec::new(), 0).len() / RECORD;
        let mut body = vec![Vec::new()];
        (0..3).for_each(|_| body.extend(sheets::large_grid(790, 1_000)));
        let mut point = good()[6 * RECORD..7 * RECORD].to_vec();
        point[..2].copy_from_slice(b"E5");
        point[20..21].copy_from_slice(b"0");
        point[27..35].copy_from_slice(b"   0   0");
        let points = 200_000 - part - body.len();
        body.extend((0..points).map(|_| point.clone()));
        body[0] = sheets::layer(&[(5, points), (9, 3)]);
        sheets::sheet_of(&mut Random(3), body, points + 3)
    })
}
