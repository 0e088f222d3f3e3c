//! Finds the archive: libveerycouch.a (or libcapi.a) in the folder that VEERYCOUCH_LIB names, else libcapi.a in target/staticlib of the repository, where
//! `tools/build-program --library capi` leaves it.
use std::env;
use std::path::{Path, PathBuf};

fn main() {
    println!("cargo:rerun-if-env-changed=VEERYCOUCH_LIB");
    let folder = match env::var_os("VEERYCOUCH_LIB") {
        Some(given) => PathBuf::from(given),
        None => Path::new(&env::var("CARGO_MANIFEST_DIR").unwrap()).join("../target/staticlib"),
    };
    let names = ["veerycouch", "capi"];
    let Some(name) = names.into_iter().find(|name| folder.join(format!("lib{name}.a")).is_file()) else {
        eprintln!("veerycouch: no archive in {}: run tools/build-program --library capi, or set VEERYCOUCH_LIB to its folder", folder.display());
        std::process::exit(1);
    };
    let archive = folder.join(format!("lib{name}.a"));
    println!("cargo:rerun-if-changed={}", archive.display());
    println!("cargo:rustc-link-search=native={}", folder.canonicalize().unwrap().display());
    println!("cargo:rustc-link-lib=static={name}");
}
