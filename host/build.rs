//! Finds the static libraries of the proved functions.

use std::env;
use std::path::Path;

const LIBRARIES: [&str; 2] = ["leaves", "player"];

fn main() {
    let host = env::var("CARGO_MANIFEST_DIR").unwrap();
    for name in LIBRARIES {
        let folder = Path::new(&host).join("../crates").join(name).join("out");
        println!("cargo::rustc-link-search=native={}", folder.display());
        let library = folder.join(format!("lib{name}.a"));
        println!("cargo::rerun-if-changed={}", library.display());
        if !library.exists() {
            panic!(
                "{} is not there: run `rt lib` in crates/{name}",
                library.display()
            );
        }
        println!("cargo::rustc-link-lib=static={name}");
    }
}
