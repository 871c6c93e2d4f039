//! Makes the module `passes` from the original's own files, where they lie, and
//! with the feature `library` links the proved static library. What is missing is
//! said in one line.

use std::path::{Path, PathBuf};
use std::{env, fs};

/// Both folders may be given absolutely or from the root of the repository.
const DEFAULT_PASSES: &str = "../shared/docs/src/crates/sm-ir/src/passes";
const DEFAULT_LIBRARY: &str = "crates/capi/out";

fn main() {
    if let Err(missing) = prepare() {
        println!("cargo::error={missing}");
    }
}

fn prepare() -> Result<(), String> {
    let root = Path::new(&env::var("CARGO_MANIFEST_DIR").unwrap()).join("../..");
    let root = root.canonicalize().unwrap();

    let passes = folder(
        &root,
        "SM_IR_PASSES",
        DEFAULT_PASSES,
        &["mod.rs", "cleanup.rs", "crystalfold.rs"],
        "name the folder of the original's files (sm-ir/src/passes) in SM_IR_PASSES",
    )?;
    println!("cargo:rustc-env=SM_IR_PASSES_FOLDER={}", passes.display());
    let module = format!("#[path = {:?}]\npub mod passes;\n", passes.join("mod.rs"));
    let generated = PathBuf::from(env::var("OUT_DIR").unwrap()).join("passes.rs");
    fs::write(generated, module).unwrap();

    if env::var_os("CARGO_FEATURE_LIBRARY").is_some() {
        let library = folder(
            &root,
            "MATCHDESK_STATICLIB",
            DEFAULT_LIBRARY,
            &["libcapi.a"],
            "make it with `rt lib` in `crates/capi`, or name its folder in MATCHDESK_STATICLIB",
        )?;
        println!("cargo:rustc-link-search=native={}", library.display());
        println!("cargo:rustc-link-lib=static=capi");
    }
    Ok(())
}

/// The folder that the variable or else the default names, with all of these files in it.
fn folder(
    root: &Path,
    variable: &str,
    default: &str,
    files: &[&str],
    remedy: &str,
) -> Result<PathBuf, String> {
    println!("cargo:rerun-if-env-changed={variable}");
    let given = env::var_os(variable).map_or_else(|| PathBuf::from(default), PathBuf::from);
    let path = root.join(given);
    for file in files {
        println!("cargo:rerun-if-changed={}", path.join(file).display());
    }
    match files.iter().find(|file| !path.join(file).is_file()) {
        Some(file) => Err(format!("no {}: {remedy}", path.join(file).display())),
        None => Ok(path.canonicalize().unwrap()),
    }
}
