//! Links the archives of the proved calls, `libmultigrid_c.a` and `libmatrix_market_c.a`. Their folder is what the variable `HIFEWUGBE_LIB_DIR` names; where it is
//! not set, that of the repository, where `make` has them proved and written, or that of a bundle.

use std::env;
use std::path::PathBuf;
use std::process::exit;

const VARIABLE: &str = "HIFEWUGBE_LIB_DIR";
const ARCHIVES: [&str; 2] = ["libmultigrid_c.a", "libmatrix_market_c.a"];

fn main() {
    let here = PathBuf::from(env::var_os("CARGO_MANIFEST_DIR").unwrap_or_default());
    let folders = match env::var_os(VARIABLE) {
        Some(folder) => vec![PathBuf::from(folder)],
        None => vec![here.join("../target/staticlib"), here.join("../lib")],
    };
    println!("cargo:rerun-if-env-changed={}", VARIABLE);
    for folder in &folders {
        for archive in ARCHIVES {
            println!("cargo:rerun-if-changed={}", folder.join(archive).display());
        }
    }
    let has = |folder: &&PathBuf| {
        ARCHIVES
            .iter()
            .all(|archive| folder.join(archive).is_file())
    };
    match folders.iter().find(has) {
        Some(folder) => println!("cargo:rustc-link-search=native={}", folder.display()),
        None => {
            eprintln!(
                "{} are not in {}: run `make` in the repository, or name their folder in {}",
                ARCHIVES.join(" and "),
                folders[0].display(),
                VARIABLE
            );
            exit(1);
        }
    }
}
