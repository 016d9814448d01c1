//! The script `./dm`: its exit status where there is an answer and where there is none, and when it builds anew.

mod support;

use std::fs::{self, File};
use std::os::unix::fs::{symlink, PermissionsExt};
use std::path::{Path, PathBuf};
use std::process::{Command, Stdio};
use std::time::{Duration, SystemTime};
use support::{built, example, laid_out, preloaded, printed, root, script};

type Printed = (Option<i32>, String, String);

/// The script on words, with standard input closed to it.
fn dm(words: &[&str]) -> Printed {
    printed(&Command::new(script()).current_dir(root()).args(words).stdin(Stdio::null()).output().expect("it ends"))
}

/// No answer: status 2, nothing printed, and a reason that has these words.
fn no_answer(seen: Printed, words: &str) {
    assert_eq!((seen.0, seen.1.as_str()), (Some(2), ""), "{seen:?}");
    assert!(seen.2.contains(words), "{seen:?}");
}

/// A folder for a test, removed behind it. It lies where every user may look.
struct Folder(PathBuf);

impl Folder {
    fn new(name: &str) -> Folder {
        let folder = std::env::temp_dir().join(format!("dm_script_{name}_{}", std::process::id()));
        let _ = fs::remove_dir_all(&folder);
        laid_out(&folder);
        Folder(folder)
    }
}

impl Drop for Folder {
    fn drop(&mut self) {
        let _ = fs::remove_dir_all(&self.0);
    }
}

fn executable(path: &Path, text: &str) {
    fs::write(path, text).expect("a file");
    fs::set_permissions(path, fs::Permissions::from_mode(0o755)).expect("its permissions");
}

#[test]
fn where_no_answer_comes() {
    no_answer(dm(&["no such file"]), "no such file: there is no such file");
    no_answer(dm(&["crates"]), "crates: it is a folder");
    no_answer(dm(&[""]), "the file's name is empty");
    no_answer(dm(&["crates/dm/stdin", "crates/dm/stdin"]), "usage: dm [FILE]");
}

/// Root may read every file: as root the test asks for another user.
#[test]
fn a_file_that_may_not_be_read() {
    use std::os::unix::fs::MetadataExt;
    use std::os::unix::process::CommandExt;
    let folder = Folder::new("secret");
    fs::copy(built(), folder.0.join("crates/dm/out/dm")).expect("the program");
    let secret = folder.0.join("secret.dm");
    fs::write(&secret, example()).expect("a file");
    fs::set_permissions(&secret, fs::Permissions::from_mode(0o000)).expect("its permissions");
    let mut command = Command::new(folder.0.join("dm"));
    command.current_dir("/").arg(&secret);
    if fs::metadata(&secret).expect("it is there").uid() == 0 {
        command.uid(65_534).gid(65_534);
    }
    no_answer(printed(&command.output().expect("it ends")), "it may not be read");
}

/// A folder, or a tape that fails, as standard input: the program's own line, and status 2.
#[test]
fn an_input_that_cannot_be_read() {
    let unread = (Some(2), "not judged: read error\n".to_string(), String::new());
    let here = File::open(root()).expect("the root");
    assert_eq!(printed(&Command::new(script()).stdin(here).output().expect("it ends")), unread);
    let mut command = Command::new(script());
    let failing = preloaded(command.current_dir(root()).arg("crates/dm/stdin"), "failing_read", "10");
    assert_eq!(printed(&failing.output().expect("it ends")), unread);
}

#[test]
fn an_output_that_is_full_or_closed() {
    for output in [">/dev/full", ">&-"] {
        for words in ["crates/dm/stdin", "--help"] {
            let line = format!("\"$0\" {words} {output}");
            let done = Command::new("sh").args(["-c", &line]).arg(script()).current_dir(root()).output().expect("it ends");
            assert_eq!(done.status.code(), Some(2), "{line}: {}", String::from_utf8_lossy(&done.stderr));
        }
    }
}

#[test]
fn help_and_a_link_to_it() {
    let help = dm(&["--help"]);
    assert_eq!((help.0, help.2.as_str()), (Some(0), ""));
    assert!(help.1.starts_with("usage: dm [FILE]") && help.1.contains("Exit status: 0 accepted; 1 refused"), "{}", help.1);
    assert_eq!(dm(&["-h"]), help);
    let folder = Folder::new("link");
    let link = folder.0.join("judge");
    symlink(script(), &link).expect("a link");
    let sheet = root().join("crates/dm/stdin");
    let done = Command::new(&link).current_dir("/").arg(sheet.canonicalize().expect("the sheet")).output().expect("it ends");
    assert_eq!(printed(&done), (Some(0), "accepted 9 records 1 items\n".to_string(), String::new()));
}

/// A tree whose program prints a line, and a builder that counts its calls.
struct Tree {
    folder: Folder,
    path: String,
}

impl Tree {
    fn new(name: &str) -> Tree {
        let folder = Folder::new(name);
        fs::create_dir_all(folder.0.join("bin")).expect("a folder");
        fs::write(folder.0.join("crates/dm/src/main.rt"), "first").expect("a source");
        let path = format!("{}:{}", folder.0.join("bin").display(), std::env::var("PATH").expect("a PATH"));
        let program = "printf '#!/bin/sh\\necho too long\\n' >out/dm; chmod +x out/dm";
        executable(&folder.0.join("bin/rt"), &format!("#!/bin/sh\necho \"$@\" >>../../calls\nsleep 0.2\n{program}\n"));
        Tree { folder, path }
    }

    fn run(&self) -> Printed {
        let mut command = Command::new(self.folder.0.join("dm"));
        printed(&command.env("PATH", &self.path).stdin(Stdio::null()).output().expect("it ends"))
    }

    fn calls(&self) -> usize {
        fs::read_to_string(self.folder.0.join("calls")).unwrap_or_default().lines().count()
    }
}

/// Built where it is missing and where a source is newer, once.
#[test]
fn built_anew_when_a_source_is_newer() {
    let tree = Tree::new("tree");
    for (round, expected) in [1, 1, 2, 2].into_iter().enumerate() {
        if round == 1 {
            // What is built beside the program is no source.
            fs::write(tree.folder.0.join("crates/dm/out/kept.antt"), "newer").expect("a file");
        }
        if round == 2 {
            // The program becomes older than the sources.
            let program = File::options().write(true).open(tree.folder.0.join("crates/dm/out/dm")).expect("the program");
            program.set_modified(SystemTime::now() - Duration::from_secs(1_000)).expect("its time");
        }
        let seen = tree.run();
        assert_eq!((seen.0, seen.1.as_str(), tree.calls()), (Some(1), "too long\n", expected), "round {round}: {}", seen.2);
    }
    executable(&tree.folder.0.join("bin/rt"), "#!/bin/sh\nexit 1\n");
    fs::remove_file(tree.folder.0.join("crates/dm/out/dm")).expect("the program");
    no_answer(tree.run(), "it could not be built");
}

/// Several that start before there is a program: it is built once, and each has its answer.
#[test]
fn several_at_once_build_once() {
    let tree = Tree::new("several");
    std::thread::scope(|scope| {
        let running: Vec<_> = (0..4).map(|_| scope.spawn(|| tree.run())).collect();
        for one in running {
            let seen = one.join().expect("it ends");
            assert_eq!((seen.0, seen.1.as_str()), (Some(1), "too long\n"), "{}", seen.2);
        }
    });
    assert_eq!(tree.calls(), 1);
}
