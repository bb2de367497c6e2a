//! Links the library that is tried: CABINET_LIB, or where the toolchain leaves it.
use std::path::Path;

fn main() {
    let lib = std::env::var("CABINET_LIB").unwrap_or_else(|_| "../../crates/cabinet/out/libcabinet.a".into());
    let path = Path::new(&lib).canonicalize().unwrap_or_else(|e| panic!("no library {lib}: {e}"));
    println!("cargo:rustc-link-arg-bins={}", path.display());
    println!("cargo:rerun-if-env-changed=CABINET_LIB");
    println!("cargo:rerun-if-changed={}", path.display());
}
