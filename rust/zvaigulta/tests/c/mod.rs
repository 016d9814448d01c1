//! What the tests of the C interface share: the repository, compilers and other programs, folders of their own, the calls
//! that the header declares.
#![allow(dead_code)] // each test file takes what it needs

use std::path::{Path, PathBuf};
use std::process::{Command, Output};

/// Compiler words under which the header, the example and the tests' own C compile without a warning.
pub const STRICT: [&str; 6] = ["-std=c99", "-Wall", "-Wextra", "-Werror", "-pedantic", "-Iinclude"];

/// The archive that `rt lib` makes in `crates/c_interface`, from the repository's root.
pub const ARCHIVE: &str = "crates/c_interface/out/libc_interface.a";

pub fn root() -> PathBuf {
    Path::new(env!("CARGO_MANIFEST_DIR")).join("../..").canonicalize().expect("the repository's root")
}

pub fn header() -> String {
    std::fs::read_to_string(root().join("include/zvaigulta.h")).expect("the header")
}

/// A folder of a test's own, empty at first and gone with it.
pub struct Folder(PathBuf);

impl Folder {
    pub fn new(name: &str) -> Folder {
        let folder = Path::new(env!("CARGO_TARGET_TMPDIR")).join(format!("{name}-{}", std::process::id()));
        std::fs::create_dir_all(&folder).expect("a folder for the test");
        Folder(folder)
    }

    /// A path in it, as a word for other programs.
    pub fn path(&self, name: &str) -> String {
        self.0.join(name).to_str().expect("a path in UTF-8").to_string()
    }
}

impl Drop for Folder {
    fn drop(&mut self) {
        let _ = std::fs::remove_dir_all(&self.0);
    }
}

/// Runs a program at the repository's root, with some variables set, and answers what came of it.
pub fn tried(program: &str, words: &[&str], variables: &[(&str, &str)]) -> Output {
    let done = Command::new(program).current_dir(root()).args(words).envs(variables.iter().copied()).output();
    done.unwrap_or_else(|e| panic!("this test needs {program}, which could not be run ({e}): install {program}"))
}

/// The same where it must end well: its standard output.
pub fn run(program: &str, words: &[&str], variables: &[(&str, &str)]) -> String {
    let done = tried(program, words, variables);
    let said = String::from_utf8_lossy(&done.stderr);
    assert!(done.status.success(), "{program} {words:?}: {:?}\n{}{said}", done.status, String::from_utf8_lossy(&done.stdout));
    String::from_utf8(done.stdout).expect("text")
}

/// A C file of these tests, compiled with the archive, and run with some words: what it printed.
pub fn compiled_and_run(source: &str, words: &[&str]) -> String {
    let folder = Folder::new(source);
    let source = format!("rust/zvaigulta/tests/c/{source}.c");
    let program = folder.path("program");
    run("gcc", &[&STRICT[..], &["-O2", &source, ARCHIVE, "-o", &program]].concat(), &[]);
    run(&program, words, &[])
}

/// A call that the header declares: its name, and its parameters as they stand there.
pub struct Call {
    pub name: String,
    pub parameters: String,
}

/// Every call of the header, in its order.
pub fn calls() -> Vec<Call> {
    let header = header();
    let declared = header.lines().filter(|line| line.ends_with(");") && !line.starts_with([' ', '#', 'Z']));
    declared.map(call).collect()
}

fn call(line: &str) -> Call {
    let (front, rest) = line.split_once('(').expect("a declaration has its parameters in parentheses");
    let name = front.rsplit(' ').next().expect("a name").to_string();
    Call { name, parameters: rest.trim_end_matches(");").to_string() }
}
