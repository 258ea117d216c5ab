//! Finds the static libraries of the crates `exported` and `exported_work`, which the comparing tests link.

use std::path::Path;

fn main() {
    println!("cargo::rustc-check-cfg=cfg(exported)");
    println!("cargo::rerun-if-changed=build.rs");
    let folder = Path::new(env!("CARGO_MANIFEST_DIR")).join("../target/staticlib");
    let libraries = ["libexported.a", "libexported_work.a"].map(|name| folder.join(name));
    for library in &libraries {
        println!("cargo::rerun-if-changed={}", library.display());
    }
    if libraries.iter().all(|library| library.exists()) {
        println!("cargo::rustc-cfg=exported");
        for library in &libraries {
            println!("cargo::rustc-link-arg-tests={}", library.display());
        }
    }
}
