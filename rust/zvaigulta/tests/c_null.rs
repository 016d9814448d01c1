//! A null pointer is allowed where the length is 0: at every pointer of every call that the header declares.

mod c;

use std::collections::BTreeSet;

/// `zv_insert buffer`, `zv_insert block`: every call with each of its pointers.
fn pointers() -> BTreeSet<String> {
    let pointers = |call: c::Call| {
        let parameters: Vec<String> = call.parameters.split(", ").map(str::to_string).collect();
        let named = parameters.into_iter().filter_map(|p| p.split_once('*').map(|(_, name)| name.to_string()));
        named.map(move |name| format!("{} {name}", call.name)).collect::<Vec<_>>()
    };
    c::calls().into_iter().flat_map(pointers).collect()
}

#[test]
fn a_null_pointer_of_length_0_is_an_empty_buffer() {
    let printed = c::compiled_and_run("null", &["crates/dm/stdin"]);
    let tried: BTreeSet<String> = printed.lines().map(|line| line.split(": ").next().unwrap_or(line).to_string()).collect();
    assert_eq!(tried, pointers(), "the pointers of the header, and those that null.c tries");
    for line in printed.lines() {
        assert!(line.ends_with(": the same"), "{line}");
    }
}
