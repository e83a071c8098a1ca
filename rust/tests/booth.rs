//! The example prints what is stored beside it.

use std::process::Command;

#[test]
fn booth_prints_what_is_stored() {
    let manifest = concat!(env!("CARGO_MANIFEST_DIR"), "/Cargo.toml");
    let run = Command::new(env!("CARGO"))
        .args(["run", "--quiet", "--release", "--offline", "--manifest-path", manifest, "--example", "booth"])
        .output()
        .expect("cargo runs");
    assert!(run.status.success(), "{}", String::from_utf8_lossy(&run.stderr));
    assert_eq!(String::from_utf8_lossy(&run.stdout), include_str!("../examples/booth.out"));
}
