//! Finds libpuffsatchel.a, in the folder that PUFFSATCHEL_LIB names or in the repository's `out`; refuses a target that it is not built for.

use std::path::PathBuf;
use std::{env, process};

const FOLDER: &str = "PUFFSATCHEL_LIB";

fn target(part: &str) -> String {
    env::var(format!("CARGO_CFG_TARGET_{part}")).unwrap_or_default()
}

fn main() {
    if [target("ARCH"), target("POINTER_WIDTH"), target("OS")] != ["x86_64", "64", "linux"] {
        eprintln!("libpuffsatchel.a is always built for x86-64 Linux, so build for that too: --target x86_64-unknown-linux-gnu");
        process::exit(1);
    }

    let beside = || PathBuf::from(env!("CARGO_MANIFEST_DIR")).join("../../out");
    let folder = env::var_os(FOLDER).map_or_else(beside, PathBuf::from);
    let archive = folder.join("libpuffsatchel.a");

    println!("cargo:rerun-if-env-changed={FOLDER}");
    println!("cargo:rerun-if-changed={}", archive.display());

    if !archive.is_file() {
        eprintln!("no {}: bin/build-library makes it; {FOLDER} may name the folder that it is in", archive.display());
        process::exit(1);
    }

    println!("cargo:rustc-link-search=native={}", folder.display());
}
