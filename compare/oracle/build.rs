//! Lays the Rust's twelve files and our shims side by side in `OUT_DIR`, so that they compile unchanged. The twelve are
//! held to their SHA-256: what is compared with is one source, and no other by mistake.

use std::path::{Path, PathBuf};
use std::process::Command;
use std::{env, fs, io};

const VARIABLE: &str = "FLURSYS_SRC";

/// Where the Rust stands unless the variable says otherwise, seen from `compare/`.
const DEFAULT: &str = "../../shared/docs/src";

const RUST: [&str; 12] = [
    "mod.rs",
    "solver.rs",
    "vector.rs",
    "multigrid/acceleration.rs",
    "multigrid/aggregation.rs",
    "multigrid/coarse.rs",
    "multigrid/cycle.rs",
    "multigrid/hierarchy.rs",
    "multigrid/matrix.rs",
    "multigrid/mod.rs",
    "multigrid/options.rs",
    "multigrid/smoother.rs",
];

/// A line for each of the twelve, as `sha256sum` in the folder `linear` writes it.
const SUMS: &str = "SHA256SUMS";

const SHIMS: [&str; 5] = [
    "csr.rs",
    "direct.rs",
    "flexible.rs",
    "preconditioner.rs",
    "profile.rs",
];

/// A parent of our own mounts these again, and calls what they show to a parent alone.
const PARTS: [&str; 4] = ["acceleration", "aggregation", "coarse", "cycle"];

fn main() {
    println!("cargo::rerun-if-env-changed={VARIABLE}");
    if let Err(sentence) = lay_out() {
        println!("cargo::error={sentence}");
    }
}

fn lay_out() -> Result<(), String> {
    let here = PathBuf::from(variable("CARGO_MANIFEST_DIR")?);
    let out = PathBuf::from(variable("OUT_DIR")?);
    let linear = out.join("linear");
    fs::create_dir_all(linear.join("multigrid")).map_err(|error| failed(&linear, &error))?;

    let source = source_folder(&here)?;
    for name in RUST {
        copy(&source.join(name), &linear.join(name))?;
    }
    hold_to_sums(&here.join(SUMS), &source, &linear)?;
    for name in SHIMS {
        copy(&here.join("shims").join(name), &linear.join(name))?;
    }
    write(&out.join("mount.rs"), &mount("linear", "linear/mod.rs"))?;
    let parts = PARTS.map(|name| mount(name, &format!("linear/multigrid/{name}.rs")));
    write(&out.join("mount_parts.rs"), &parts.concat())
}

/// The item that mounts a file. The Rust hands on more names than the oracle uses.
fn mount(name: &str, path: &str) -> String {
    let allowed = "dead_code, unused_imports, clippy::all";
    format!("#[allow({allowed})]\n#[path = \"{path}\"]\nmod {name};\n")
}

/// The folder of the Rust's `linear`; a relative name counts from `compare/`.
fn source_folder(here: &Path) -> Result<PathBuf, String> {
    let named = env::var(VARIABLE).ok().filter(|name| !name.is_empty());
    let named = named.unwrap_or_else(|| DEFAULT.to_string());
    let compare = here.parent().unwrap_or(here);
    let folder = compare.join(named).join("src/linear");
    if folder.is_dir() {
        Ok(folder)
    } else {
        Err(format!(
            "there is no folder {}: set {VARIABLE} to the folder that holds src/linear of the Rust",
            folder.display()
        ))
    }
}

/// Of the copies, which are what is compiled.
fn hold_to_sums(sums: &Path, source: &Path, copies: &Path) -> Result<(), String> {
    println!("cargo::rerun-if-changed={}", sums.display());
    let wanted = fs::read_to_string(sums)
        .map_err(|error| format!("{} cannot be read: {error}", sums.display()))?;
    let mut command = Command::new("sha256sum");
    let done = command.args(RUST).current_dir(copies).output();
    let done = done.map_err(|error| format!("sha256sum cannot be run: {error}"))?;
    let found = String::from_utf8_lossy(&done.stdout);
    if !done.status.success() || found.lines().count() != RUST.len() {
        let said = String::from_utf8_lossy(&done.stderr);
        return Err(format!("sha256sum gives no sums: {}", said.trim_end()));
    }
    let other = found
        .lines()
        .find(|line| !wanted.lines().any(|sum| sum == *line));
    if let Some((sum, name)) = other.and_then(|line| line.split_once("  ")) {
        return Err(format!(
            "{} is not the file that is compared with: its SHA-256 is {sum}, and {} has another",
            source.join(name).display(),
            sums.display()
        ));
    }
    Ok(())
}

fn copy(from: &Path, to: &Path) -> Result<(), String> {
    println!("cargo::rerun-if-changed={}", from.display());
    let text = fs::read_to_string(from).map_err(|error| {
        format!(
            "{} cannot be read ({error}): set {VARIABLE} to the folder that holds src/linear of the Rust",
            from.display()
        )
    })?;
    write(to, &text)
}

fn write(to: &Path, text: &str) -> Result<(), String> {
    fs::write(to, text).map_err(|error| failed(to, &error))
}

fn variable(name: &str) -> Result<String, String> {
    env::var(name).map_err(|error| format!("{name}: {error}"))
}

fn failed(path: &Path, error: &io::Error) -> String {
    format!("{} cannot be written: {error}", path.display())
}
