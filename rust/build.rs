//! Links the proved library: `libdykeladder.a` as `make install` names it, or `libcapi.a` as `make build` leaves it.
//! It lies in the folder that DYKELADDER_LIB_DIR names, else in `../target/staticlib`.
use std::env;
use std::path::{Path, PathBuf};

fn library_folder() -> PathBuf {
    match env::var_os("DYKELADDER_LIB_DIR") {
        Some(folder) => PathBuf::from(folder),
        None => Path::new(env!("CARGO_MANIFEST_DIR")).join("../target/staticlib"),
    }
}

fn main() {
    println!("cargo:rerun-if-env-changed=DYKELADDER_LIB_DIR");
    let folder = library_folder();
    for name in ["dykeladder", "capi"] {
        let archive = folder.join(format!("lib{name}.a"));
        println!("cargo:rerun-if-changed={}", archive.display());
        if archive.is_file() {
            println!("cargo:rustc-link-search=native={}", folder.display());
            println!("cargo:rustc-link-lib=static={name}");
            return;
        }
    }
    panic!("no libdykeladder.a or libcapi.a in {}: run `make build`, or set DYKELADDER_LIB_DIR", folder.display());
}
