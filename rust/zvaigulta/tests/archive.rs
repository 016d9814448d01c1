//! What the archive asks of whoever links it: no more than what a compiler takes to be there everywhere.

mod c;

use c::{run, ARCHIVE};

/// The names that the archive needs from outside.
#[test]
fn needs_two_functions_of_the_c_library() {
    let said = run("nm", &["--undefined-only", "--format=just-symbols", ARCHIVE], &[]);
    let mut names: Vec<&str> = said.lines().filter(|line| !line.is_empty() && !line.ends_with(':')).collect();
    names.sort_unstable();
    names.dedup();
    assert_eq!(names, ["memcpy", "memset"]);
}
