// Links the archive that `tools/archive` writes.
// BULMEGART_LIB_DIR names another folder that has libbulmegart.a. Where DOCS_RS is set nothing is linked: documents are made with no archive.
use std::env;
use std::path::PathBuf;
use std::process::exit;

fn main() {
    println!("cargo:rerun-if-env-changed=DOCS_RS");
    if env::var_os("DOCS_RS").is_some() {
        return;
    }
    let here = PathBuf::from(env::var("CARGO_MANIFEST_DIR").unwrap());
    let (folder, help) = match env::var("BULMEGART_LIB_DIR") {
        Ok(named) => (PathBuf::from(named), "BULMEGART_LIB_DIR names that folder; it must be one that has the archive."),
        Err(_) => (here.join("../../target/archive"), "`tools/archive` in the repository's root proves and writes it, or BULMEGART_LIB_DIR names a folder that has it."),
    };
    let archive = folder.join("libbulmegart.a");
    println!("cargo:rerun-if-env-changed=BULMEGART_LIB_DIR");
    println!("cargo:rerun-if-changed={}", archive.display());
    if !archive.is_file() {
        eprintln!("There is no {}, the library that this crate calls.", archive.display());
        eprintln!("{help}");
        eprintln!("The documents need none: DOCS_RS=1 cargo doc");
        exit(1);
    }
    println!("cargo:rustc-link-search=native={}", folder.display());
    println!("cargo:rustc-link-lib=static=bulmegart");
}
