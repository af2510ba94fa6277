//! Links the library's archive, from the folder that JUNDEFOLA_ARCHIVE names or from the usual one.

use std::env;
use std::path::{Path, PathBuf};

const VARIABLE: &str = "JUNDEFOLA_ARCHIVE";
const USUAL_FOLDER: &str = "../target/staticlib";
const ARCHIVE: &str = "libjundefola.a";

fn main() {
    println!("cargo::rerun-if-env-changed={VARIABLE}");
    let folder = archive_folder();
    let archive = folder.join(ARCHIVE);
    println!("cargo::rerun-if-changed={}", archive.display());
    if archive.is_file() {
        println!("cargo::rustc-link-search=native={}", folder.display());
        println!("cargo::rustc-link-lib=static=jundefola");
    } else {
        println!("cargo::error={}", advice(&archive));
    }
}

/// The folder of the archive; the variable may name the folder or the archive in it.
fn archive_folder() -> PathBuf {
    let named = env::var_os(VARIABLE).map_or_else(|| USUAL_FOLDER.into(), PathBuf::from);
    let folder = if named.ends_with(ARCHIVE) {
        named.parent().unwrap_or(Path::new("")).to_path_buf()
    } else {
        named
    };
    let crate_folder = env::var_os("CARGO_MANIFEST_DIR").expect("cargo names the crate's folder");
    Path::new(&crate_folder).join(folder)
}

fn advice(archive: &Path) -> String {
    format!(
        "the library's archive is not at {}: run `host/archive` at the root of the repository, \
         or name its folder in {VARIABLE}",
        archive.display()
    )
}
