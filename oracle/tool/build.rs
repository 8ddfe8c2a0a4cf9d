//! Links the archive that SENDS_ARCHIVE names (a path that ends in libNAME.a); without one, or where it names nothing, the
//! stand-in is compiled in.

use std::env;
use std::path::Path;

fn main() {
    println!("cargo:rustc-check-cfg=cfg(archive)");
    println!("cargo:rerun-if-env-changed=SENDS_ARCHIVE");
    let Some(name) = env::var_os("SENDS_ARCHIVE").filter(|name| !name.is_empty()) else { return };
    let path = Path::new(&name).canonicalize().expect("SENDS_ARCHIVE names a file");
    let stem = path.file_stem().and_then(|stem| stem.to_str()).and_then(|stem| stem.strip_prefix("lib"));
    println!("cargo:rerun-if-changed={}", path.display());
    println!("cargo:rustc-cfg=archive");
    println!("cargo:rustc-link-search=native={}", path.parent().expect("a file is in a folder").display());
    println!("cargo:rustc-link-lib=static={}", stem.expect("an archive is called libNAME.a"));
}
