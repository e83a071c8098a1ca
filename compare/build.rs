//! Where tests/turns.rs finds libturns_c.a, which `tools/proved turns_c` writes at the repository's root. The crate kivdrag links libkivdrag_c.a.

fn main() {
    let archives = std::path::Path::new(env!("CARGO_MANIFEST_DIR")).join("../target/staticlib");
    println!("cargo::rustc-link-search=native={}", archives.display());
    println!("cargo::rerun-if-changed={}", archives.join("libturns_c.a").display());
}
