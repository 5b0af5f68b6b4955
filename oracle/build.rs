// Finds the Rust that is compared with: BULMEGART_PEER names the folder that has the four files, else it is ../shared/docs/src beside the repository.
// Makes of its contexts.rs what docs/BENCH.md makes of it.
use std::env;
use std::fs;
use std::path::PathBuf;

fn main() {
    let here = PathBuf::from(env::var("CARGO_MANIFEST_DIR").unwrap());
    let folder = match env::var("BULMEGART_PEER") {
        Ok(named) => PathBuf::from(named),
        Err(_) => here.join("../../shared/docs/src"),
    };
    let Ok(folder) = folder.canonicalize() else {
        panic!("BULMEGART_PEER must name the folder of src--src--cabac--engine.rs.txt and its neighbours");
    };
    println!("cargo:rerun-if-env-changed=BULMEGART_PEER");
    println!("cargo:rerun-if-changed={}", folder.display());
    println!("cargo:rustc-env=PEER={}", folder.display());
    let contexts = fs::read_to_string(folder.join("src--src--cabac--contexts.rs.txt")).unwrap();
    let begun = contexts.find("#[derive(Clone, Copy, Debug)]\n#[repr(transparent)]").expect("CtxModel");
    let ended = contexts.find("/// All context models for I-slice residual coding").expect("ContextSet");
    let swapped = format!("pub use bulmegart::swap::contexts::CtxModel;\n{}bulmegart::residual_contexts!(ContextSet);\n", &contexts[ended..]);
    assert!(begun < ended);
    fs::write(PathBuf::from(env::var("OUT_DIR").unwrap()).join("contexts.rs"), swapped).unwrap();
}
