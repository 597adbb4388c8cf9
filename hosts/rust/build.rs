//! Links the library for hosts, which `tools/host-library` writes: from the directory `DOOR_LINK_LIB`, or from the repository's target/staticlib.

use std::env;
use std::path::{Path, PathBuf};
use std::process::ExitCode;

const LIBRARY: &str = "libdoor_link.a";

fn main() -> ExitCode {
    println!("cargo:rerun-if-env-changed=DOOR_LINK_LIB");
    println!("cargo:rerun-if-changed=build.rs");
    let here = PathBuf::from(env::var_os("CARGO_MANIFEST_DIR").unwrap_or_default());
    let directory = match env::var_os("DOOR_LINK_LIB").filter(|named| !named.is_empty()) {
        Some(named) => found(Path::new(&named), &here),
        None => here.join("../../target/staticlib"),
    };
    let library = directory.join(LIBRARY);
    println!("cargo:rerun-if-changed={}", library.display());
    let Ok(directory) = directory.canonicalize() else {
        return missing(&library);
    };
    if !library.is_file() {
        return missing(&library);
    }
    println!("cargo:rustc-link-search=native={}", directory.display());
    println!("cargo:rustc-link-lib=static=door_link");
    ExitCode::SUCCESS
}

/// The directory that `DOOR_LINK_LIB` names. Cargo runs this program in the crate's own directory; a relative name is meant from where cargo was called, which the
/// shell says, else from a directory around the target directory, such as the workspace's.
fn found(named: &Path, here: &Path) -> PathBuf {
    let called = env::var_os("PWD").map(PathBuf::from);
    let out = env::var_os("OUT_DIR")
        .map(PathBuf::from)
        .unwrap_or_default();
    let around = out.ancestors().map(Path::to_path_buf);
    let places = called.into_iter().chain(around).chain([here.to_path_buf()]);
    let mut found = places.map(|place| place.join(named));
    found
        .find(|directory| directory.join(LIBRARY).is_file())
        .unwrap_or_else(|| named.to_path_buf())
}

fn missing(library: &Path) -> ExitCode {
    eprintln!(
        "{} is not there: build it with `tools/host-library`, or set DOOR_LINK_LIB to its directory",
        library.display()
    );
    ExitCode::FAILURE
}
