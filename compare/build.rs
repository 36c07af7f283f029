//! Finds the proved library and has it linked. JAVENDRIKY_LIB names its folder where that is not
//! ../target/staticlib.

use std::env;
use std::path::PathBuf;

fn main() {
    println!("cargo::rerun-if-env-changed=JAVENDRIKY_LIB");
    if env::var_os("CARGO_FEATURE_LIBRARY").is_none() {
        return;
    }
    let folder = match env::var_os("JAVENDRIKY_LIB") {
        Some(folder) => PathBuf::from(folder),
        None => PathBuf::from(env::var_os("CARGO_MANIFEST_DIR").expect("set by cargo")).join("../target/staticlib"),
    };
    let library = folder.join("libjavendriky.a");
    // A library built anew is linked anew.
    println!("cargo::rerun-if-changed={}", library.display());
    if !library.is_file() {
        println!(
            "cargo::error=the proved library {} is not there: build it with `tools/build javendriky`, or set JAVENDRIKY_LIB to its folder",
            library.display()
        );
        return;
    }
    println!("cargo::rustc-link-search=native={}", folder.display());
    println!("cargo::rustc-link-lib=static=javendriky");
}
