//! Finds the archive of the proved library, or says how to make it. Without it clippy and `cargo check` work, and nothing links; `ZVAIGULTA_CHECK_ONLY`
//! says that nothing is to be linked.

use std::path::Path;

fn main() {
    let folder = Path::new(env!("CARGO_MANIFEST_DIR")).join("../../crates/c_interface/out");
    let archive = folder.join("libc_interface.a");
    println!("cargo:rerun-if-changed={}", archive.display());
    println!("cargo:rerun-if-env-changed=ZVAIGULTA_CHECK_ONLY");
    if !archive.exists() && std::env::var_os("ZVAIGULTA_CHECK_ONLY").is_none() {
        println!("cargo:warning=crates/c_interface/out/libc_interface.a is missing: run `rt lib` in crates/c_interface first");
    }
    println!("cargo:rustc-link-search=native={}", folder.display());
    println!("cargo:rustc-link-lib=static=c_interface");
}
