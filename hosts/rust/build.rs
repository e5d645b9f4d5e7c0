//! Finds the static library that the package is linked with.

use std::{env, path::PathBuf};

const FOLDER_VARIABLE: &str = "EDI4_LIB_DIR";
const USUAL_FOLDER: &str = "../../crates/edi4_c/out";

fn main() {
    let folder = library_folder();
    println!("cargo:rerun-if-env-changed={FOLDER_VARIABLE}");
    println!(
        "cargo:rerun-if-changed={}",
        folder.join("libedi4_c.a").display()
    );
    println!("cargo:rustc-link-search=native={}", folder.display());
    println!("cargo:rustc-link-lib=static=edi4_c");
}

fn library_folder() -> PathBuf {
    env::var_os(FOLDER_VARIABLE).map_or_else(
        || PathBuf::from(env!("CARGO_MANIFEST_DIR")).join(USUAL_FOLDER),
        PathBuf::from,
    )
}
