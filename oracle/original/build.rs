//! Copies the original sources, appends what opens their private entries, and writes the modules around them.

use std::path::{Path, PathBuf};
use std::{env, fs};

include!("../src/triples.rs");

/// The modules that every triple shares; the allocator is built once for each.
const SHARED: [&str; 3] = ["lir", "lir_analysis", "intrinsics"];
const ALLOCATOR: &str = "lir_allocate";
const DEFAULT_SOURCES: &str = "../../../shared/docs/src/src/wasm";

fn main() {
    for watched in ["build.rs", "ends", "src/stubs.rs", "../src/triples.rs"] {
        println!("cargo:rerun-if-changed={watched}");
    }
    println!("cargo:rustc-check-cfg=cfg(original)");
    println!("cargo:rerun-if-env-changed=WATERBEAR_SRC");
    let sources = PathBuf::from(env::var_os("WATERBEAR_SRC").unwrap_or_else(|| DEFAULT_SOURCES.into()));
    println!("cargo:rerun-if-changed={}", sources.display());
    if !sources.join("lir.rs").is_file() {
        println!("cargo:warning=no original sources in {}: built without them", sources.display());
        return;
    }
    write_modules(&sources);
    println!("cargo:rustc-cfg=original");
    println!("cargo:built=yes");
}

fn write_modules(sources: &Path) {
    let folder = PathBuf::from(env::var_os("OUT_DIR").expect("cargo sets OUT_DIR"));
    for module in SHARED.into_iter().chain([ALLOCATOR]) {
        copy_with_end(sources, &folder, module);
    }
    // The intrinsics declare this module, and the analysis needs nothing of it.
    write(&folder.join("header.rs"), "");
    write(&folder.join("all.rs"), &all_modules(&folder));
}

fn read(path: &Path) -> String {
    fs::read_to_string(path).unwrap_or_else(|error| panic!("{}: {error}", path.display()))
}

fn write(path: &Path, text: &str) {
    fs::write(path, text).unwrap_or_else(|error| panic!("{}: {error}", path.display()));
}

/// The source stays as it is; what opens a private entry stands after it.
fn copy_with_end(sources: &Path, folder: &Path, module: &str) {
    let name = format!("{module}.rs");
    let end = read(&Path::new("ends").join(&name));
    write(&folder.join(&name), &(read(&sources.join(&name)) + &end));
}

fn module(folder: &Path, name: &str) -> String {
    let path = folder.join(format!("{name}.rs"));
    format!("#[path = {:?}]\npub mod {name};\n", path.display().to_string())
}

/// One module with what is shared, one for each triple, and the choice among them.
fn all_modules(folder: &Path) -> String {
    let stubs = read(Path::new("src/stubs.rs"));
    let shared: String = SHARED.iter().map(|name| module(folder, name)).collect();
    let triples: String = TRIPLES.iter().map(|triple| triple_module(folder, *triple)).collect();
    let arms: String = TRIPLES
        .iter()
        .map(|(a, f, w)| format!("({a}, {f}, {w}) => a{a}_f{f}_w{w}::lir_allocate::place,\n"))
        .collect();
    format!(
        "pub mod shared {{\n{stubs}{shared}}}\n{triples}\
         pub type Placements = Vec<shared::lir::PhysicalPlacement>;\n\
         pub type Place = fn(&shared::lir::VirtualProgram) -> Result<(Placements, usize), (u32, usize)>;\n\
         pub fn allocator(triple: (u16, u16, u16)) -> Option<Place> {{\n\
         Some(match triple {{\n{arms}_ => return None,\n}})\n}}\n"
    )
}

fn triple_module(folder: &Path, (a, f, w): (u16, u16, u16)) -> String {
    let allocator = module(folder, ALLOCATOR);
    format!(
        "pub mod a{a}_f{f}_w{w} {{\n\
         pub use super::shared::{{lir, lir_analysis}};\n\
         pub mod target {{\n\
         pub const APPLICATION_RAM_BYTES: usize = {a};\n\
         pub const FIRST_ALLOCATABLE_APPLICATION_BYTE: usize = {f};\n\
         pub const WORK_RAM_BYTES: usize = {w};\n}}\n\
         pub mod lir_validate {{\n\
         pub fn validate_virtual<P>(_program: &super::lir::Program<P>) -> Result<(), String> {{ Ok(()) }}\n\
         pub use self::validate_virtual as validate_allocated;\n}}\n\
         {allocator}}}\n"
    )
}
