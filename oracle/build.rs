//! Finds the Rust source and writes the module tree that compiles it by path, unchanged.
use std::path::{Path, PathBuf};
use std::{env, fs};

/// The folder of the source: VEERYCOUCH_SOURCE, or `../../shared/docs/src` beside the repository.
fn source() -> PathBuf {
    match env::var_os("VEERYCOUCH_SOURCE") {
        Some(given) => PathBuf::from(given),
        None => Path::new(&env::var("CARGO_MANIFEST_DIR").unwrap()).join("../../shared/docs/src"),
    }
}

fn main() {
    println!("cargo:rerun-if-env-changed=VEERYCOUCH_SOURCE");
    println!("cargo:rerun-if-changed=build.rs");
    let given = source();
    let rcflib = given.join("crates/rcflib/src");
    let file = |name: &str| -> String {
        let path = rcflib.join(name);
        if !path.is_file() {
            eprintln!("oracle: the Rust source is not at {}", given.display());
            eprintln!("oracle: {} is missing", path.display());
            eprintln!("oracle: set VEERYCOUCH_SOURCE to the folder that holds crates/rcflib/src (Bing-su/krcf, commit 05b18fcda4)");
            std::process::exit(1);
        }
        println!("cargo:rerun-if-changed={}", path.display());
        format!("{:?}", fs::canonicalize(path).unwrap())
    };
    let access = |name: &str| -> String {
        let path = Path::new(&env::var("CARGO_MANIFEST_DIR").unwrap()).join("src/access").join(name);
        println!("cargo:rerun-if-changed={}", path.display());
        format!("{:?}", fs::canonicalize(path).unwrap())
    };
    let by_path = |module: &str, name: &str| format!("#[path = {}]\npub mod {module};\n", file(name));
    // Files whose private fields are read or set stand by include! in a module that also holds our access functions.
    let opened = |module: &str, name: &str| {
        format!("pub mod {module} {{\n    include!({});\n    include!({});\n}}\n", file(name), access(&format!("{module}.rs")))
    };
    let mut tree = String::new();
    tree += &by_path("errors", "errors.rs");
    tree += &by_path("types", "types.rs");
    tree += &by_path("util", "util.rs");
    tree += "pub mod common {\n";
    for name in ["deviation", "rangevector", "divector", "descriptor"] {
        tree += &by_path(name, &format!("common/{name}.rs"));
    }
    tree += "}\npub mod trcf {\n";
    tree += &by_path("types", "trcf/types.rs");
    tree += &opened("transformer", "trcf/transformer.rs");
    tree += &opened("preprocessor", "trcf/preprocessor.rs");
    tree += "}\n";
    fs::write(Path::new(&env::var("OUT_DIR").unwrap()).join("source.rs"), tree).unwrap();
}
