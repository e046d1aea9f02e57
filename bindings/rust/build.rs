//! Links the archive `libkifsang.a`, which `make` proves and writes to target/staticlib of the
//! repository. KIFSANG_ARCHIVE_FOLDER names another folder to take it from; a relative one counts from
//! the folder of this package, since cargo does not tell where it was called.

use std::env;
use std::path::PathBuf;
use std::process::exit;

const FOLDER: &str = "KIFSANG_ARCHIVE_FOLDER";

fn main() {
    // At run time: a build script that was compiled for another checkout may be used again here.
    let package = env::var_os("CARGO_MANIFEST_DIR").expect("cargo gives the package's folder");
    let package = PathBuf::from(package);
    let folder = match env::var_os(FOLDER) {
        Some(named) => package.join(named),
        None => package
            .ancestors()
            .nth(2)
            .expect("the repository")
            .join("target/staticlib"),
    };
    let folder = folder.canonicalize().unwrap_or(folder);
    let archive = folder.join("libkifsang.a");
    println!("cargo:rerun-if-env-changed={FOLDER}");
    println!("cargo:rerun-if-changed={}", archive.display());
    if !archive.is_file() {
        eprintln!(
            "There is no {}: run make first, in the repository of Kifsang.",
            archive.display()
        );
        eprintln!(
            "{FOLDER} names another folder; a relative one counts from {}.",
            package.display()
        );
        exit(1);
    }
    println!("cargo:rustc-link-search=native={}", folder.display());
    println!("cargo:rustc-link-lib=static=kifsang");
}
