//! Links the archive of the proved crate: SENDS_ARCHIVE names it (`oracle/archive` makes one for this machine and prints its path).

use std::env;
use std::path::Path;

fn main() {
    println!("cargo:rerun-if-env-changed=SENDS_ARCHIVE");
    let name = env::var_os("SENDS_ARCHIVE").expect("SENDS_ARCHIVE is to name libtrace.a; oracle/archive makes one and prints its path");
    let path = Path::new(&name).canonicalize().expect("SENDS_ARCHIVE names a file");
    println!("cargo:rerun-if-changed={}", path.display());
    println!("cargo:rustc-link-search=native={}", path.parent().expect("a file is in a folder").display());
    println!("cargo:rustc-link-lib=static=trace");
}
