//! Links libkivdrag_c.a out of the folder KIVDRAG_LIB_DIR (an absolute path), or else out of target/staticlib at the repository's root; and takes the
//! texts of refusals out of include/kivdrag_switch.h, so that they are the same in C and in Rust.

use std::path::{Path, PathBuf};

fn main() {
    let done = link().and_then(|()| write_texts());
    if let Err(message) = done {
        println!("cargo::error={message}");
    }
}

fn in_repository(path: &str) -> PathBuf {
    Path::new(env!("CARGO_MANIFEST_DIR")).join("..").join(path)
}

fn link() -> Result<(), String> {
    println!("cargo::rerun-if-env-changed=KIVDRAG_LIB_DIR");
    let folder = std::env::var_os("KIVDRAG_LIB_DIR").map_or_else(|| in_repository("target/staticlib"), PathBuf::from);
    if !folder.is_absolute() {
        return Err(format!("KIVDRAG_LIB_DIR is {}: set it to an absolute path", folder.display()));
    }
    let archive = folder.join("libkivdrag_c.a");
    println!("cargo::rerun-if-changed={}", archive.display());
    if !archive.is_file() {
        return Err(format!("{} is not there: `tools/proved kivdrag_c` writes it; or set KIVDRAG_LIB_DIR to its folder", archive.display()));
    }
    println!("cargo::rustc-link-search=native={}", folder.display());
    println!("cargo::rustc-link-lib=static=kivdrag_c");
    Ok(())
}

/// Writes the strings of kivdrag_refusal_text as an array: those of 0 to 15, and the one for other numbers.
fn write_texts() -> Result<(), String> {
    let header = in_repository("include/kivdrag_switch.h");
    println!("cargo::rerun-if-changed={}", header.display());
    let text = std::fs::read_to_string(&header).map_err(|e| format!("{}: {e}", header.display()))?;
    let function = text.split_once("*kivdrag_refusal_text(uint32_t number) {").and_then(|(_, rest)| rest.split_once("\n}"));
    let strings: Vec<&str> = function.map_or(vec![], |(body, _)| body.split('"').skip(1).step_by(2).collect());
    if strings.len() != 17 {
        return Err(format!("{} has {} texts in kivdrag_refusal_text, not 17: see rust/build.rs", header.display(), strings.len()));
    }
    let written = Path::new(&std::env::var_os("OUT_DIR").expect("cargo sets it")).join("texts.rs");
    std::fs::write(&written, format!("{strings:?}")).map_err(|e| format!("{}: {e}", written.display()))
}
