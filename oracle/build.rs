//! Links the proved library where the environment names one, and notes which functions it has and whether the original
//! was built.

use std::env;
use std::path::{Path, PathBuf};
use std::process::Command;

/// The functions that the library may have. Each that is there sets `entry_` and its name.
const FUNCTIONS: [&str; 9] = [
    "check_file",
    "reads_at",
    "writes_at",
    "storage_reads_at",
    "storage_writes_at",
    "effect_at",
    "live_of",
    "graph_of",
    "place_file",
];

fn main() {
    println!("cargo:rerun-if-changed=build.rs");
    println!("cargo:rustc-check-cfg=cfg(original)");
    for function in FUNCTIONS {
        println!("cargo:rustc-check-cfg=cfg(entry_{function})");
    }
    if env::var_os("DEP_ORIGINAL_BUILT").is_some() {
        println!("cargo:rustc-cfg=original");
    }
    link_entry();
}

/// `ENTRY_LIB` is the archive or the folder that holds `libentry.a`.
fn link_entry() {
    println!("cargo:rerun-if-env-changed=ENTRY_LIB");
    let Some(given) = env::var_os("ENTRY_LIB").filter(|value| !value.is_empty()) else {
        return;
    };
    let archive = archive_path(Path::new(&given));
    let name = archive
        .file_stem()
        .and_then(|stem| stem.to_str())
        .and_then(|stem| stem.strip_prefix("lib"));
    let name = name.expect("ENTRY_LIB names a file lib*.a or its folder");
    let folder = archive.parent().expect("an archive stands in a folder");
    println!("cargo:rerun-if-changed={}", archive.display());
    println!("cargo:rustc-link-search=native={}", folder.display());
    println!("cargo:rustc-link-lib=static={name}");
    let symbols = symbols_of(&archive);
    for function in FUNCTIONS {
        if symbols.iter().any(|symbol| symbol == function) {
            println!("cargo:rustc-cfg=entry_{function}");
        }
    }
}

fn archive_path(given: &Path) -> PathBuf {
    let path = if given.is_dir() {
        given.join("libentry.a")
    } else {
        given.to_path_buf()
    };
    path.canonicalize()
        .unwrap_or_else(|error| panic!("ENTRY_LIB {}: {error}", path.display()))
}

/// The names that the archive defines: the last word of each line of `nm`.
fn symbols_of(archive: &Path) -> Vec<String> {
    let mut command = Command::new("nm");
    let output = command.args(["-g", "--defined-only"]).arg(archive).output();
    let output = output.unwrap_or_else(|error| panic!("nm lists the library's functions: {error}"));
    assert!(output.status.success(), "nm cannot read {}", archive.display());
    let lines = String::from_utf8_lossy(&output.stdout).into_owned();
    let names = lines.lines().filter_map(|line| line.split_whitespace().last());
    names.map(str::to_string).collect()
}
