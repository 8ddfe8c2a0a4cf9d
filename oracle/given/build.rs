//! Finds the given Rust, checks the SHA-256 of each file, and writes the module file that names them where they lie.

mod sha256;

use std::path::{Path, PathBuf};
use std::{env, fs};

const LIST: &str = "../SOURCES.sha256";
/// Where the Rust is looked for when ZIGGURAT_SRC names no folder. Both are read from oracle/ on.
const DEFAULT: &str = "../../shared/docs/src";

/// Modules and their files. The three tables are brought in by the first.
const MODULES: [(&str, &str); 5] = [
    ("sends", "crates/ziggurat-zigbee/src/sends/mod.rs"),
    ("flat_map", "crates/ziggurat-zigbee/src/flat_map.rs"),
    ("time", "crates/ziggurat-zigbee/src/time.rs"),
    ("constants", "crates/ziggurat-zigbee/src/constants.rs"),
    ("types", "crates/ziggurat-ieee-802154/src/types.rs"),
];

fn root() -> PathBuf {
    let named = env::var_os("ZIGGURAT_SRC").filter(|name| !name.is_empty());
    let root = Path::new("..").join(named.unwrap_or_else(|| DEFAULT.into()));
    root.canonicalize()
        .unwrap_or_else(|_| panic!("the given Rust is not at {} (ZIGGURAT_SRC names its folder)", root.display()))
}

/// Every listed file has the listed hash, unless an edited copy was asked for by name.
fn check(root: &Path, edited: bool) {
    let list = fs::read_to_string(LIST).expect("SOURCES.sha256 is in the project");
    for line in list.lines() {
        let (wanted, name) = line.split_once("  ").expect("a hash, two blanks, a file");
        let file = root.join(name);
        println!("cargo:rerun-if-changed={}", file.display());
        let bytes = fs::read(&file).unwrap_or_else(|e| panic!("{}: {e}", file.display()));
        if !edited && sha256::hex(&bytes) != wanted {
            panic!("{name} is not the file at the commit: its SHA-256 differs from oracle/SOURCES.sha256");
        }
    }
}

fn main() {
    println!("cargo:rerun-if-changed={LIST}");
    println!("cargo:rerun-if-env-changed=ZIGGURAT_SRC");
    println!("cargo:rerun-if-env-changed=ORACLE_EDITED");
    let edited = env::var_os("ORACLE_EDITED").is_some();
    let root = root();
    check(&root, edited);
    let mut text = format!("pub const EDITED: bool = {edited};\n");
    for (module, name) in MODULES {
        text += &format!("#[path = {:?}]\npub mod {module};\n", root.join(name));
    }
    let out = PathBuf::from(env::var_os("OUT_DIR").expect("cargo names OUT_DIR"));
    fs::write(out.join("given.rs"), text).expect("OUT_DIR can be written");
}
