//! Finds the static library and tells cargo to link it: in the directory that the environment variable `AJP13_LIB_DIR`
//! names, else where `rt lib` leaves it in this checkout, crates/ajp13/out.

use std::env;
use std::path::PathBuf;
use std::process::exit;

fn main() {
    println!("cargo:rerun-if-env-changed=AJP13_LIB_DIR");
    let dir = match env::var_os("AJP13_LIB_DIR") {
        Some(dir) => PathBuf::from(dir),
        None => {
            let root = env::var_os("CARGO_MANIFEST_DIR").expect("cargo sets CARGO_MANIFEST_DIR");
            PathBuf::from(root).join("../../crates/ajp13/out")
        }
    };
    let archive = dir.join("libajp13.a");
    println!("cargo:rerun-if-changed={}", archive.display());
    if !archive.is_file() {
        eprintln!("there is no {}", archive.display());
        eprintln!("run `bindings/archive` in the root of the checkout first,");
        eprintln!("or set AJP13_LIB_DIR to the directory that holds libajp13.a");
        exit(1);
    }
    // Where cargo links, a relative path would start elsewhere.
    let dir = dir.canonicalize().expect("the directory is there");
    println!("cargo:rustc-link-search=native={}", dir.display());
    println!("cargo:rustc-link-lib=static=ajp13");
}
