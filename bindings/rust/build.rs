//! Links the static library `libcbor_edn.a`, from the folder that `CBOR_EDN_LIB` names, or else from `lib/` of this package.

use std::env;
use std::path::PathBuf;
use std::process::exit;

fn main() {
    let target = env::var("TARGET").unwrap();
    if !(target.starts_with("x86_64-") && target.contains("-linux")) {
        stop(&format!("libcbor_edn.a is made for Linux on x86-64, and not for {target}"));
    }
    println!("cargo:rerun-if-env-changed=CBOR_EDN_LIB");
    let folder = match env::var_os("CBOR_EDN_LIB") {
        Some(folder) => PathBuf::from(folder),
        None => PathBuf::from(env::var_os("CARGO_MANIFEST_DIR").unwrap()).join("lib"),
    };
    let archive = folder.join("libcbor_edn.a");
    println!("cargo:rerun-if-changed={}", archive.display());
    if !archive.exists() {
        stop(&format!(
            "{} is missing: build it by scripts/build/c.sh, or install libcbor-edn-dev, and set CBOR_EDN_LIB to its folder",
            archive.display()
        ));
    }
    println!("cargo:rustc-link-search=native={}", folder.display());
    println!("cargo:rustc-link-lib=static=cbor_edn");
}

fn stop(why: &str) -> ! {
    eprintln!("cbor-edn-verified: {why}");
    exit(1)
}
