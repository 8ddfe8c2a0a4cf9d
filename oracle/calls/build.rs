//! Links the archives in the folder that CALLS_ARCHIVES names, one for each face; without it there is nothing to time.

use std::env;
use std::path::Path;

fn main() {
    println!("cargo:rustc-check-cfg=cfg(archive)");
    println!("cargo:rerun-if-env-changed=CALLS_ARCHIVES");
    let Some(name) = env::var_os("CALLS_ARCHIVES") else { return };
    let folder = Path::new(&name).canonicalize().expect("CALLS_ARCHIVES names a folder");
    println!("cargo:rustc-cfg=archive");
    println!("cargo:rustc-link-search=native={}", folder.display());
    for face in ["rules", "inplace", "byvalue"] {
        println!("cargo:rerun-if-changed={}", folder.join(format!("lib{face}.a")).display());
        println!("cargo:rustc-link-lib=static={face}");
    }
}
