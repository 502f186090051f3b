//! Links the archive of the proved library: in the folder that ASF_LIBRARY names, or where tools/library.sh leaves it.

use std::env;
use std::path::PathBuf;

fn main() {
    println!("cargo:rerun-if-env-changed=ASF_LIBRARY");
    let folder = match env::var_os("ASF_LIBRARY") {
        Some(folder) => PathBuf::from(folder),
        None => PathBuf::from(env::var_os("CARGO_MANIFEST_DIR").expect("cargo sets it"))
            .join("../../build/library"),
    };
    let archive = folder.join("libasf_c.a");
    println!("cargo:rerun-if-changed={}", archive.display());
    if env::var("CARGO_CFG_TARGET_ARCH").as_deref() != Ok("x86_64") {
        panic!("the archive is compiled for x86-64: build with --target x86_64-unknown-linux-gnu");
    }
    if !archive.exists() {
        panic!("no {}: run tools/library.sh", archive.display());
    }
    println!("cargo:rustc-link-search=native={}", folder.display());
    println!("cargo:rustc-link-lib=static=asf_c");
}
