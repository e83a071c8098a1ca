//! What the tests share. They need the proved event program, which `tools/proved kivdrag` builds.
#![allow(dead_code)] // each test file uses a part of it

use std::fs;
use std::path::{Path, PathBuf};
use std::process::{Command, Output, Stdio};
use std::sync::atomic::{AtomicUsize, Ordering};

pub fn root() -> PathBuf {
    Path::new(env!("CARGO_MANIFEST_DIR")).join("..")
}

/// The proved event program.
pub fn program() -> PathBuf {
    let program = root().join("target/bin/kivdrag");
    assert!(program.is_file(), "{} is not built", program.display());
    program
}

/// What a program prints for an input.
pub fn printed(program: &Path, input: &[u8]) -> Vec<u8> {
    let mut child = Command::new(program).stdin(Stdio::piped()).stdout(Stdio::piped()).spawn().unwrap();
    let mut stdin = child.stdin.take().unwrap();
    std::thread::scope(|scope| {
        scope.spawn(move || std::io::Write::write_all(&mut stdin, input).unwrap());
        child.wait_with_output().unwrap().stdout
    })
}

/// A command of the program under test, with the proved event program.
pub fn command(name: &str, words: &[&str]) -> Command {
    let mut command = Command::new(env!("CARGO_BIN_EXE_rehearsal"));
    command.arg(name).arg("--program").arg(program()).args(words).stdin(Stdio::null());
    command
}

/// Status, standard output and standard error.
pub fn said(output: &Output) -> (i32, String, String) {
    let text = |bytes: &[u8]| String::from_utf8(bytes.to_vec()).unwrap();
    (output.status.code().unwrap(), text(&output.stdout), text(&output.stderr))
}

/// A random event file, with all kinds of mistakes in it.
pub fn trace(seed: u64, records: u64) -> Vec<u8> {
    let words = ["build", "--quiet", "--release", "--offline", "--bin", "traces", "--manifest-path"];
    let built = Command::new(env!("CARGO")).args(words).arg(root().join("second/Cargo.toml")).status();
    assert!(built.unwrap().success());
    let traces = root().join("second/target/release/traces");
    let output = Command::new(traces).args([seed.to_string(), records.to_string(), "any".to_string()]).output().unwrap();
    assert!(output.status.success());
    output.stdout
}

/// splitmix64
pub struct Random(pub u64);

impl Random {
    pub fn below(&mut self, limit: usize) -> usize {
        self.0 = self.0.wrapping_add(0x9E37_79B9_7F4A_7C15);
        let z = (self.0 ^ (self.0 >> 30)).wrapping_mul(0xBF58_476D_1CE4_E5B9);
        let z = (z ^ (z >> 27)).wrapping_mul(0x94D0_49BB_1331_11EB);
        ((z ^ (z >> 31)) % limit as u64) as usize
    }

    pub fn pick<'a, T: ?Sized>(&mut self, of: &[&'a T]) -> &'a T {
        of[self.below(of.len())]
    }

    /// Up to `most` parts in a row.
    pub fn join(&mut self, parts: &[&str], most: usize) -> Vec<u8> {
        (0..self.below(most + 1)).flat_map(|_| self.pick(parts).bytes()).collect()
    }
}

/// A folder of its own, removed with all that is in it.
pub struct Folder(PathBuf);

impl Folder {
    pub fn new() -> Folder {
        static MADE: AtomicUsize = AtomicUsize::new(0);
        let name = format!("rehearsal-test-{}-{}", std::process::id(), MADE.fetch_add(1, Ordering::Relaxed));
        let path = std::env::temp_dir().join(name);
        fs::create_dir(&path).unwrap();
        Folder(path)
    }

    pub fn path(&self, name: &str) -> PathBuf {
        self.0.join(name)
    }

    /// Writes a file there; its path as a word for a command.
    pub fn file(&self, name: &str, bytes: &[u8]) -> String {
        fs::write(self.path(name), bytes).unwrap();
        self.word(name)
    }

    /// Writes a shell script there that can be run. Another process does it: no child of another test can then hold the file open, which would make
    /// it too busy to run.
    pub fn script(&self, name: &str, script: &str) -> String {
        let path = self.word(name);
        let write = "printf '#!/bin/sh\n%s\n' \"$2\" >\"$1\" && chmod 755 \"$1\"";
        assert!(Command::new("sh").args(["-c", write, "sh", &path, script]).status().unwrap().success());
        path
    }

    pub fn word(&self, name: &str) -> String {
        self.path(name).into_os_string().into_string().unwrap()
    }

    /// The names of all files there, sorted.
    pub fn names(&self) -> Vec<String> {
        let mut names: Vec<String> = fs::read_dir(&self.0).unwrap().map(|entry| entry.unwrap().file_name().into_string().unwrap()).collect();
        names.sort();
        names
    }
}

impl Drop for Folder {
    fn drop(&mut self) {
        fs::remove_dir_all(&self.0).unwrap();
    }
}
