//! Links the archives of proved exports.

use std::env;
use std::path::PathBuf;

fn main() {
    let here = PathBuf::from(env::var_os("CARGO_MANIFEST_DIR").unwrap_or_default());
    let folder = here.join("../target/staticlib");
    println!("cargo::rustc-link-search=native={}", folder.display());
    for name in ["probe", "meshprobe"] {
        let archive = folder.join(format!("lib{name}.a"));
        println!("cargo::rerun-if-changed={}", archive.display());
        if !archive.is_file() {
            println!(
                "cargo::error=there is no {}: run compare/run, or `.ci/prove archive {name}` in the repository",
                archive.display()
            );
        }
    }
}
