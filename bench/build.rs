//! Compiles the C file through which FLINT is called, and links both.

use std::env;
use std::process::Command;

fn main() {
    let folder = env::var("OUT_DIR").expect("set by cargo");
    let object = format!("{folder}/shim.o");
    run(
        "cc",
        &[
            "-O2",
            "-Wall",
            "-Werror",
            "-c",
            "flint/shim.c",
            "-o",
            &object,
        ],
    );
    run("ar", &["crs", &format!("{folder}/libshim.a"), &object]);
    println!("cargo:rustc-link-search=native={folder}");
    println!("cargo:rustc-link-lib=static=shim");
    println!("cargo:rustc-link-lib=flint");
    println!("cargo:rerun-if-changed=flint/shim.c");
}

fn run(program: &str, words: &[&str]) {
    let status = Command::new(program).args(words).status();
    assert!(status.is_ok_and(|s| s.success()), "{program} {words:?}");
}
