// Links the archive that `rt lib` writes in crates/quimdoral.
use std::{env, path::PathBuf, process::exit};

fn main() {
    let here = PathBuf::from(env::var("CARGO_MANIFEST_DIR").expect("cargo names the manifest's folder"));
    let folder = here.join("../crates/quimdoral/out");
    let archive = folder.join("libquimdoral.a");
    if !archive.exists() {
        eprintln!("the archive is not there: run `rt lib` in crates/quimdoral first");
        exit(1);
    }
    println!("cargo:rerun-if-changed={}", archive.display());
    println!("cargo:rustc-link-search=native={}", folder.display());
    println!("cargo:rustc-link-lib=static=quimdoral");
}
