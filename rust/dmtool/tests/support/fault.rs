//! The tool run with calls of the system that fail, or at which something happens: see `fault.c`.

use super::{run, Folder, Ran};
use std::process::Command;

/// `fault.c`, compiled into a folder of the test's own.
pub struct Faults(Folder);

impl Faults {
    pub fn new(name: &str) -> Faults {
        let folder = Folder::new(&format!("{name}_faults"));
        let source = concat!(env!("CARGO_MANIFEST_DIR"), "/tests/support/fault.c");
        let mut gcc = Command::new("gcc");
        gcc.args(["-Wall", "-Wextra", "-Werror", "-shared", "-fPIC", source, "-ldl", "-o", "fault.so"]).current_dir(&folder.0);
        let done = gcc.output().unwrap_or_else(|e| panic!("this test needs gcc, which could not be run ({e}): install gcc"));
        assert!(done.status.success(), "{}", String::from_utf8_lossy(&done.stderr));
        Faults(folder)
    }

    /// Lets a command run with faults; `at_fault` is the shell command that a fault `run` runs.
    pub fn put_into<'a>(&self, command: &'a mut Command, faults: &str, at_fault: &str) -> &'a mut Command {
        command.env("LD_PRELOAD", self.0 .0.join("fault.so")).env("FAULT", faults).env("RUN", at_fault)
    }

    /// Runs the tool in a folder with faults.
    pub fn run(&self, folder: &Folder, faults: &str, at_fault: &str, words: &[&str]) -> Ran {
        run(self.put_into(&mut folder.tool(words), faults, at_fault), b"")
    }
}
