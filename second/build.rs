//! Tells the linker where the library's archive lies.

use std::env;
use std::path::{Path, PathBuf};

const VARIABLE: &str = "JUNDEFOLA_ARCHIVE";
const USUAL_FOLDER: &str = "../target/staticlib";

fn main() {
    println!("cargo:rerun-if-env-changed={VARIABLE}");
    if env::var_os("CARGO_FEATURE_SELF").is_some() {
        return;
    }
    let folder = archive_folder();
    println!("cargo:rustc-link-search=native={}", folder.display());
    println!(
        "cargo:rerun-if-changed={}",
        folder.join("libjundefola.a").display()
    );
}

fn archive_folder() -> PathBuf {
    let named = env::var_os(VARIABLE).map_or_else(|| USUAL_FOLDER.into(), PathBuf::from);
    let folder = match named.extension() {
        Some(ending) if ending == "a" => named.parent().unwrap_or(Path::new("")).to_path_buf(),
        _ => named,
    };
    let crate_folder = env::var_os("CARGO_MANIFEST_DIR").expect("cargo names the crate's folder");
    Path::new(&crate_folder).join(folder)
}
