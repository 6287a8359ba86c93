//! Links libcobblehard.a and libcobblehard_speeds.a, from COBBLEHARD_LIB or from where `tools/build` lays them.
use std::env;
use std::path::{Path, PathBuf};

const LIBRARIES: [&str; 2] = ["cobblehard", "cobblehard_speeds"];

fn main() {
    println!("cargo:rerun-if-env-changed=COBBLEHARD_LIB");
    let here = env::var("CARGO_MANIFEST_DIR").expect("cargo sets CARGO_MANIFEST_DIR");
    let folder = match env::var_os("COBBLEHARD_LIB") {
        Some(folder) => PathBuf::from(folder),
        None => Path::new(&here).join("../../target/staticlib"),
    };
    println!("cargo:rustc-link-search=native={}", folder.display());
    for name in LIBRARIES {
        let library = folder.join(format!("lib{name}.a"));
        println!("cargo:rerun-if-changed={}", library.display());
        if !library.is_file() {
            panic!(
                "{} is not there: make it with `tools/build {name}` in the root of the repository, \
                 or set COBBLEHARD_LIB to the folder that has it",
                library.display()
            );
        }
        println!("cargo:rustc-link-lib=static={name}");
    }
}
