//! Tells where `libsicklespan.a` is: in the folder SICKLESPAN_LIB, or in `lib`, where a packaged
//! crate has it, or where the repository builds it. The last two are for Linux on x86-64 alone.
use std::env;
use std::path::PathBuf;
use std::process::exit;

fn main() {
    println!("cargo:rerun-if-env-changed=SICKLESPAN_LIB");
    let folder = match env::var_os("SICKLESPAN_LIB") {
        Some(folder) => PathBuf::from(folder),
        None => own_folder(),
    };
    let archive = folder.join("libsicklespan.a");
    if !archive.exists() {
        println!("cargo:warning={} is not there", archive.display());
    }
    println!("cargo:rustc-link-search=native={}", folder.display());
    println!("cargo:rerun-if-changed={}", archive.display());
}

/// The folder of the library that is the crate's own, if it is for the target.
fn own_folder() -> PathBuf {
    let target = |name: &str| env::var(format!("CARGO_CFG_TARGET_{name}")).unwrap_or_default();
    let (os, arch, width) = (target("OS"), target("ARCH"), target("POINTER_WIDTH"));
    if (os.as_str(), arch.as_str(), width.as_str()) != ("linux", "x86_64", "64") {
        eprintln!(
            "sicklespan: the library of this crate is for Linux on x86-64, and not for {os} on \
             {arch} with {width} bits; SICKLESPAN_LIB names a folder with another one"
        );
        exit(1);
    }
    let here = PathBuf::from(env::var_os("CARGO_MANIFEST_DIR").unwrap());
    let packaged = here.join("lib");
    if packaged.exists() {
        packaged
    } else {
        here.join("../out")
    }
}
