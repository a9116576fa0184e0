//! Links the archive that `tools/build capi` builds: the one in UVIKTALIK_LIB_DIR, else this
//! repository's.

use std::env;
use std::path::{Path, PathBuf};
use std::process::exit;

const FOLDER: &str = "UVIKTALIK_LIB_DIR";

fn main() {
    println!("cargo:rerun-if-env-changed={FOLDER}");
    let package = env::var_os("CARGO_MANIFEST_DIR").expect("cargo names the package");
    let named = env::var_os(FOLDER).map(PathBuf::from);
    let folder = named.unwrap_or_else(|| Path::new(&package).join("../../target/staticlib"));
    let archive = folder.join("libcapi.a");
    println!("cargo:rerun-if-changed={}", archive.display());
    if !archive.is_file() {
        eprintln!(
            "{} is not there. `tools/build capi`, at the repository's root, proves it and builds \
             it into target/staticlib; {FOLDER} names another folder that has it.",
            archive.display()
        );
        exit(1);
    }
    println!("cargo:rustc-link-search=native={}", folder.display());
    println!("cargo:rustc-link-lib=static=capi");
}
