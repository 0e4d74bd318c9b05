//! Links the proved static library: the archive that `GEVTSOMI_ARCHIVE`
//! names, or the one that `tools/build gevtsomi` writes in the repository.

use std::path::PathBuf;
use std::{env, process};

const VARIABLE: &str = "GEVTSOMI_ARCHIVE";
const IN_THE_REPOSITORY: &str = "../target/staticlib/libgevtsomi.a";

fn main() {
    let package = PathBuf::from(env::var_os("CARGO_MANIFEST_DIR").expect("set by cargo"));
    let named = env::var_os(VARIABLE).unwrap_or_else(|| IN_THE_REPOSITORY.into());
    // A relative path starts at the package.
    let archive = package.join(named);
    println!("cargo:rerun-if-env-changed={VARIABLE}");
    println!("cargo:rerun-if-changed={}", archive.display());
    let (true, Some(folder), Some(file)) = (archive.is_file(), archive.parent(), archive.file_name()) else {
        eprintln!(
            "{} is not there: run `tools/build gevtsomi` at the repository's top, or name the archive in {VARIABLE}",
            archive.display()
        );
        process::exit(1);
    };
    println!("cargo:rustc-link-search=native={}", folder.display());
    println!("cargo:rustc-link-lib=static:+verbatim={}", file.to_string_lossy());
}
