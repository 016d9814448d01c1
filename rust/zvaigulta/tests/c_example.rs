//! The C header and its example: compiled with gcc against the archive, and run.

mod c;

/// The example compiled in a folder, and run with each of some words: exit status and output.
fn examples(folder: &str, words: &[&[&str]]) -> Vec<(Option<i32>, String)> {
    let folder = c::Folder::new(folder);
    let program = folder.path("example");
    c::run("gcc", &[&c::STRICT[..], &["include/example.c", c::ARCHIVE, "-o", &program]].concat(), &[]);
    let run = |words: &&[&str]| {
        let done = c::tried(&program, words, &[]);
        (done.status.code(), String::from_utf8(done.stdout).expect("text"))
    };
    words.iter().map(run).collect()
}

#[test]
fn the_example_takes_a_sheet_through_every_call() {
    let (status, printed) = examples("example_calls", &[&[]]).remove(0);
    assert_eq!(status, Some(0), "{printed}");
    assert!(printed.ends_with("all as expected\n"), "{printed}");
    let calls = c::calls();
    assert!(calls.len() >= 26, "the header declares its calls a line each");
    for call in calls {
        assert!(printed.contains(&format!("{}: as expected\n", call.name)), "{}: {printed}", call.name);
    }
}

#[test]
fn the_example_judges_files() {
    let files = c::Folder::new("example_inputs");
    let cut = files.path("cut");
    std::fs::write(&cut, &zvaigulta::EXAMPLE[..100]).expect("a file");
    let answers = examples("example_files", &[&["crates/dm/stdin"], &[&cut], &["no such file"]]);
    let words = "the length is 0, above the buffer, no multiple of 84 (lines: 86) or above 200,000 records";
    assert_eq!(answers[0], (Some(0), "accepted 9 records 1 items\n".to_string()));
    assert_eq!(answers[1], (Some(1), format!("refused 1: {words}\n")));
    assert_eq!(answers[2], (Some(2), String::new()));
}

#[test]
fn the_header_alone_is_enough_for_c_and_for_cpp() {
    let strict = ["-Wall", "-Wextra", "-Werror", "-pedantic", "-fsyntax-only"];
    for standard in ["c99", "c11", "c17"] {
        c::run("gcc", &[&strict[..], &["-x", "c", &format!("-std={standard}"), "include/zvaigulta.h"]].concat(), &[]);
    }
    for standard in ["c++98", "c++11", "c++17"] {
        c::run("g++", &[&strict[..], &["-x", "c++", &format!("-std={standard}"), "include/zvaigulta.h"]].concat(), &[]);
    }
}

/// What a compiler says of the header for a machine that the library is not for. Freestanding: it may have no C library there.
fn said_for(machine: &str, language: &[&str]) -> String {
    let done = c::tried("gcc", &[language, &[machine, "-ffreestanding", "-fsyntax-only", "include/zvaigulta.h"]].concat(), &[]);
    assert!(!done.status.success(), "{machine} {language:?}");
    String::from_utf8_lossy(&done.stderr).into_owned()
}

#[test]
fn the_header_stops_a_compiler_that_lays_the_structs_out_in_another_way() {
    for language in [["-x", "c", "-std=c99"], ["-x", "c", "-std=c11"], ["-x", "c++", "-std=c++98"], ["-x", "c++", "-std=c++11"]] {
        // Words of 64 bits with pointers and lengths of 32.
        let said = said_for("-mx32", &language);
        for name in [
            "zv_offset_of_number_at",
            "zv_size_of_counts",
            "zv_size_of_layer",
            "zv_offset_of_layer_entry_last",
            "zv_offset_of_column_start",
        ] {
            assert!(said.contains(name), "{language:?}: {said}");
        }
        assert!(said_for("-m32", &language).contains("zvaigulta is a library for x86-64 Linux"), "{language:?}");
    }
}
