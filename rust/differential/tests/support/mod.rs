//! What the tests of the program and of its script share.

use std::fs;
use std::path::{Path, PathBuf};
use std::process::{Command, Output};
use std::sync::OnceLock;

/// The repository's root.
pub fn root() -> PathBuf {
    Path::new(env!("CARGO_MANIFEST_DIR")).join("../..")
}

/// The built program. The script would build it where it is missing, which takes minutes: that is no part of a test.
pub fn built() -> PathBuf {
    let program = root().join("crates/dm/out/dm");
    assert!(program.exists(), "crates/dm/out/dm is missing: run `rt run <stdin` in crates/dm first");
    program
}

/// A copy of the script `dm` with the built program, in a tree without sources, so that a source that is newer does not make it build anew. It lies
/// outside the repository, below which a second `crates.txt` has no place, and goes when the tests have ended.
pub fn script() -> &'static Path {
    static TREE: OnceLock<PathBuf> = OnceLock::new();
    extern "C" fn remove() {
        if let Some(tree) = TREE.get().and_then(|script| script.parent()) {
            let _ = fs::remove_dir_all(tree);
        }
    }
    extern "C" {
        fn atexit(call: extern "C" fn()) -> i32;
    }
    TREE.get_or_init(|| {
        let program = built();
        let name = format!("dm_tree_of_{}_{}", env!("CARGO_CRATE_NAME"), std::process::id());
        let tree = std::env::temp_dir().join(name);
        let _ = fs::remove_dir_all(&tree);
        laid_out(&tree);
        fs::copy(program, tree.join("crates/dm/out/dm")).expect("the program");
        // SAFETY: the call is the C library's own, and what it is given ends without a panic.
        unsafe { atexit(remove) };
        tree.join("dm")
    })
}

/// A tree with the script, folders for sources and for the program, and neither.
pub fn laid_out(tree: &Path) {
    fs::create_dir_all(tree.join("crates/dm/src")).expect("a folder");
    fs::create_dir_all(tree.join("crates/dm/out")).expect("a folder");
    fs::write(tree.join("crates/dm/stdin"), "").expect("an example");
    fs::copy(root().join("dm"), tree.join("dm")).expect("the script");
    fs::write(tree.join("crates.txt"), "dm:").expect("a source");
}

/// Exit status, standard output and standard error.
pub fn printed(done: &Output) -> (Option<i32>, String, String) {
    let text = |bytes: &[u8]| String::from_utf8(bytes.to_vec()).expect("text");
    (done.status.code(), text(&done.stdout), text(&done.stderr))
}

/// The example of document 01, which the program is stored with.
pub fn example() -> Vec<u8> {
    fs::read(root().join("crates/dm/stdin")).expect("crates/dm/stdin")
}

/// A command with a C file of `tests/support` in front of the system's own calls, told something by the variable `SHIM`.
pub fn preloaded<'a>(command: &'a mut Command, name: &str, told: &str) -> &'a mut Command {
    let source = Path::new(env!("CARGO_MANIFEST_DIR")).join("tests/support").join(name).with_extension("c");
    let object = Path::new(env!("CARGO_TARGET_TMPDIR")).join(format!("{name}-{}.so", std::process::id()));
    let words = ["-shared", "-fPIC", "-O1", "-Wall", "-Werror"];
    let made = Command::new("gcc").args(words).arg(source).arg("-o").arg(&object).arg("-ldl").status();
    assert!(made.expect("this test needs gcc: install gcc").success());
    command.env("LD_PRELOAD", object).env("SHIM", told)
}
