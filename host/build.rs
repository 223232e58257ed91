//! Links the proved library, which `host/build` makes: from the folder that SOCKHURDLE_LIB names, else from target/host.

use std::env;
use std::path::{Path, PathBuf};

fn main() {
    println!("cargo::rerun-if-env-changed=SOCKHURDLE_LIB");
    let here = PathBuf::from(env::var("CARGO_MANIFEST_DIR").expect("cargo names this folder"));
    let folder = match env::var_os("SOCKHURDLE_LIB") {
        Some(folder) => PathBuf::from(folder),
        None => here.join("../target/host"),
    };
    let library = folder.join("libsockhurdle_host.a");
    println!("cargo::rerun-if-changed={}", library.display());
    if !Path::new(&library).is_file() {
        println!(
            "cargo::error=no {}: run host/build, which proves it, or name its folder by SOCKHURDLE_LIB",
            library.display()
        );
        return;
    }
    println!("cargo::rustc-link-search=native={}", folder.display());
    println!("cargo::rustc-link-lib=static=sockhurdle_host");
}
