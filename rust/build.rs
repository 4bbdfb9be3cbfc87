//! Finds the static library of the verified calls: in the folder that
//! WOVENROCK_LIBRARY names, else where `./build library` writes it. It is
//! `libwovenrock.a` where it was installed, `libexports.a` where it was built.

use std::env;
use std::path::PathBuf;
use std::process;

const NAMES: [&str; 2] = ["wovenrock", "exports"];

fn main() {
    println!("cargo:rerun-if-env-changed=WOVENROCK_LIBRARY");
    let package = PathBuf::from(env::var("CARGO_MANIFEST_DIR").expect("set by cargo"));
    let folder = match env::var_os("WOVENROCK_LIBRARY") {
        Some(folder) => PathBuf::from(folder),
        None => package.join("../target/staticlib"),
    };
    let archive = |name: &&str| folder.join(format!("lib{name}.a"));
    for name in &NAMES {
        println!("cargo:rerun-if-changed={}", archive(name).display());
    }
    let Some(name) = NAMES.iter().find(|name| archive(name).exists()) else {
        eprintln!(
            "neither libwovenrock.a nor libexports.a is in {}: run `./build library` in the \
             repository's root, or name the folder of an installed library in WOVENROCK_LIBRARY",
            folder.display()
        );
        process::exit(1);
    };
    println!("cargo:rustc-link-search=native={}", folder.display());
    println!("cargo:rustc-link-lib=static={name}");
}
