//! The program that counts copies is linked so that all calls that copy or allocate go through its own counters.

fn main() {
    println!("cargo:rerun-if-changed=build.rs");
    for name in ["memcpy", "memmove", "memset", "malloc", "calloc", "realloc"] {
        println!("cargo:rustc-link-arg-bin=copies=-Wl,--wrap={name}");
    }
}
