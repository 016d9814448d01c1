//! `make install`: the library, header and pkg-config file go where other programs find them, a C program links both ways,
//! and one version is said everywhere. Nothing here proves or builds anew: the archive is there, and stand-ins take the places
//! of the tool and of the program dm.

mod c;

use std::collections::BTreeSet;
use std::os::unix::fs::PermissionsExt;
use std::path::Path;

/// An installation in a folder of its own. Stand-ins for the tool and the program dm count the bytes that they read, in the
/// form of the program's answer; rt and cargo are refused.
struct Installed {
    folder: c::Folder,
}

/// A program of one shell command.
fn script(path: &str, command: &str) {
    std::fs::write(path, format!("#!/bin/sh\n{command}\n")).expect("a script");
    std::fs::set_permissions(path, PermissionsExt::from_mode(0o755)).expect("a script that runs");
}

impl Installed {
    fn new(name: &str) -> Installed {
        let folder = c::Folder::new(name);
        std::fs::create_dir(folder.path("refusing")).expect("a folder");
        for name in ["refusing/rt", "refusing/cargo"] {
            script(&folder.path(name), "exit 1");
        }
        for name in ["dmtool", "dm"] {
            script(&folder.path(name), "echo \"accepted $(wc -c) records 0 items\"");
        }
        let installed = Installed { folder };
        installed.make(&["install"]);
        installed
    }

    fn prefix(&self) -> String {
        self.folder.path("prefix")
    }

    /// Runs make without rt and cargo: goals, and variables set.
    fn make(&self, words: &[&str]) {
        let set = [
            format!("PREFIX={}", self.prefix()),
            format!("BUILD={}", self.folder.path("build")),
            format!("TOOL={}", self.folder.path("dmtool")),
            format!("DM={}", self.folder.path("dm")),
            "SOURCES=".to_string(),
            "TOOL_SOURCES=".to_string(),
        ];
        let words: Vec<&str> = set.iter().map(String::as_str).chain(words.iter().copied()).collect();
        let path = format!("{}:{}", self.folder.path("refusing"), std::env::var("PATH").unwrap_or_default());
        // What a make above this test tells the makes that it runs is not for this one.
        c::run("make", &words, &[("MAKEFLAGS", ""), ("MFLAGS", ""), ("MAKELEVEL", ""), ("PATH", &path)]);
    }

    fn library(&self, name: &str) -> String {
        format!("{}/lib/{name}", self.prefix())
    }

    fn pkg_config(&self, words: &[&str]) -> Vec<String> {
        let said = c::run("pkg-config", &[words, &["zvaigulta"]].concat(), &[("PKG_CONFIG_PATH", &self.library("pkgconfig"))]);
        said.split_whitespace().map(str::to_string).collect()
    }

    /// The example compiled against the installation alone, linked with some words.
    fn example(&self, name: &str, link: &[String]) -> String {
        let program = self.folder.path(name);
        let source = c::root().join("include/example.c");
        let mut words = vec!["-std=c99", "-Wall", "-Wextra", "-Werror", "-pedantic"];
        words.extend([source.to_str().expect("a path in UTF-8"), "-o", &program]);
        let flags = self.pkg_config(&["--cflags"]);
        words.extend(flags.iter().chain(link).map(String::as_str));
        c::run("gcc", &words, &[]);
        program
    }
}

/// Every file and link below a folder, by its path in it.
fn files(folder: &Path) -> BTreeSet<String> {
    let mut found = BTreeSet::new();
    let mut left = vec![folder.to_path_buf()];
    while let Some(next) = left.pop() {
        let entries = std::fs::read_dir(&next).expect("a folder").map(|entry| entry.expect("an entry"));
        let (folders, files): (Vec<_>, Vec<_>) = entries.partition(|entry| entry.file_type().expect("a kind").is_dir());
        left.extend(folders.iter().map(|entry| entry.path()));
        let inside = |path: &Path| path.strip_prefix(folder).expect("a path below").display().to_string();
        found.extend(files.iter().map(|entry| inside(&entry.path())));
    }
    found
}

/// The version that the header states, with full stops.
fn version() -> String {
    let header = c::header();
    let part =
        |name: &str| header.lines().find_map(|line| line.strip_prefix(&format!("#define ZV_VERSION_{name} "))).expect(name);
    format!("{}.{}.{}", part("MAJOR"), part("MINOR"), part("PATCH"))
}

/// What an installation has below its prefix.
fn expected() -> BTreeSet<String> {
    let version = version();
    let major = version.split('.').next().expect("a major number");
    let files = [
        "bin/dm",
        "bin/dmtool",
        "include/zvaigulta.h",
        "lib/libzvaigulta.a",
        "lib/libzvaigulta.so",
        "lib/pkgconfig/zvaigulta.pc",
    ];
    let numbered = [format!("lib/libzvaigulta.so.{major}"), format!("lib/libzvaigulta.so.{version}")];
    files.iter().map(|name| name.to_string()).chain(numbered).chain(["libexec/zvaigulta/dm".to_string()]).collect()
}

#[test]
fn a_program_links_the_shared_object_and_the_archive() {
    let installed = Installed::new("install_links");
    let shared = installed.example("shared", &installed.pkg_config(&["--libs"]));
    let printed = c::run(&shared, &[], &[("LD_LIBRARY_PATH", &installed.library(""))]);
    assert!(printed.ends_with("all as expected\n"), "{printed}");
    assert!(!c::tried(&shared, &[], &[("LD_LIBRARY_PATH", "")]).status.success(), "it is the shared object that answers");

    let libdir = installed.pkg_config(&["--variable=libdir"]).concat();
    let fixed = installed.example("fixed", &[format!("{libdir}/libzvaigulta.a")]);
    assert_eq!(c::run(&fixed, &[], &[("LD_LIBRARY_PATH", "")]), printed);
}

/// The archive with one more function in it, which is no call of the library.
fn archive_with_another(folder: &c::Folder) -> String {
    let (source, object, archive) = (folder.path("another.c"), folder.path("another.o"), folder.path("another.a"));
    std::fs::write(&source, "int another(void);\nint another(void) { return 1; }\n").expect("a source");
    c::run("gcc", &["-c", "-fPIC", &source, "-o", &object], &[]);
    std::fs::copy(c::root().join(c::ARCHIVE), &archive).expect("the archive");
    c::run("ar", &["r", &archive, &object], &[]);
    archive
}

#[test]
fn the_shared_object_shows_the_calls_of_the_header_and_nothing_else() {
    let installed = Installed::new("install_names");
    let another = format!("ARCHIVE={}", archive_with_another(&installed.folder));
    installed.make(&["install-library", &another, &format!("BUILD={}", installed.folder.path("with-another"))]);
    let shown = c::run("nm", &["-D", "--defined-only", &installed.library("libzvaigulta.so")], &[]);
    let shown: BTreeSet<&str> = shown.lines().filter_map(|line| line.rsplit(' ').next()).collect();
    let calls = c::calls();
    assert_eq!(shown, calls.iter().map(|call| call.name.as_str()).collect::<BTreeSet<_>>());
}

#[test]
fn one_version_everywhere() {
    let installed = Installed::new("install_version");
    let version = version();
    assert_eq!(installed.pkg_config(&["--modversion"]), [version.as_str()]);
    for manifest in ["rust/zvaigulta/Cargo.toml", "rust/dmtool/Cargo.toml"] {
        let manifest = std::fs::read_to_string(c::root().join(manifest)).expect(manifest);
        assert!(manifest.lines().any(|line| line == format!("version = \"{version}\"")), "{manifest}");
    }
    // The names of the shared object: the whole version, the major number that programs ask for, and none.
    let object = format!("libzvaigulta.so.{version}");
    let major = format!("libzvaigulta.so.{}", version.split('.').next().expect("a major number"));
    let leads = |name: &str| std::fs::read_link(installed.library(name)).expect(name).display().to_string();
    assert_eq!((leads("libzvaigulta.so"), leads(&major)), (major.clone(), object.clone()));
    let dynamic = c::run("readelf", &["-d", &installed.library(&object)], &[]);
    assert!(dynamic.contains(&format!("soname: [{major}]")), "{dynamic}");
    // The call answers what the header says: the example checks it, and prints both.
    let printed = c::run(&installed.example("example", &[installed.library("libzvaigulta.a")]), &[], &[]);
    assert!(printed.contains(&format!(", header {version}\nzv_version: as expected\n")), "{printed}");
}

#[test]
fn installed_files_are_all_there_and_all_go() {
    let installed = Installed::new("install_files");
    let prefix = installed.prefix();
    assert_eq!(files(Path::new(&prefix)), expected());
    let bytes = std::fs::metadata(c::root().join("crates.txt")).expect("crates.txt").len();
    let judged = c::tried(&format!("{prefix}/bin/dm"), &["crates.txt"], &[]);
    assert_eq!(String::from_utf8_lossy(&judged.stdout), format!("accepted {bytes} records 0 items\n"));
    assert_eq!((String::from_utf8_lossy(&judged.stderr), judged.status.code()), ("".into(), Some(0)));
    // It stands alone: the sources are not there to build it from.
    let script = std::fs::read_to_string(format!("{prefix}/bin/dm")).expect("the script");
    assert!(!script.contains("rt run") && !script.contains("$root/crates"), "{script}");
    installed.make(&["uninstall"]);
    assert_eq!(files(Path::new(&prefix)), BTreeSet::new());
}

#[test]
fn a_destination_stands_before_every_path_and_in_no_file() {
    let installed = Installed::new("install_destination");
    let destination = installed.folder.path("destination");
    installed.make(&["install", &format!("DESTDIR={destination}")]);
    let below = format!("{destination}{}", installed.prefix());
    assert_eq!(files(Path::new(&below)), expected());
    for name in ["lib/pkgconfig/zvaigulta.pc", "bin/dm"] {
        let text = std::fs::read_to_string(format!("{below}/{name}")).expect(name);
        assert!(text.contains(&installed.prefix()) && !text.contains(&destination), "{name}: {text}");
    }
    installed.make(&["uninstall", &format!("DESTDIR={destination}")]);
    assert_eq!(files(Path::new(&destination)), BTreeSet::new());
    assert_eq!(files(Path::new(&installed.prefix())), expected(), "the other installation stays");
}
