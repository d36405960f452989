//! Tells the linker where the engine's static library is: the folder named by GARANTEPO_LIB, or the
//! one that `rt lib` in `crates/garantepo` writes to.

use std::env;
use std::path::{Path, PathBuf};

fn main() {
    let folder = env::var_os("GARANTEPO_LIB").map_or_else(folder_of_rt, PathBuf::from);
    println!("cargo:rustc-link-search=native={}", folder.display());
    println!("cargo:rustc-link-lib=static=garantepo");
    println!("cargo:rerun-if-env-changed=GARANTEPO_LIB");
    println!(
        "cargo:rerun-if-changed={}",
        folder.join("libgarantepo.a").display()
    );
}

fn folder_of_rt() -> PathBuf {
    Path::new(env!("CARGO_MANIFEST_DIR")).join("../../crates/garantepo/out")
}
