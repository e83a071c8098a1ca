//! What the tests of report and chart share beside `common`.

use crate::common::{command, root, said};
use std::io::Write;
use std::path::Path;
use std::process::Stdio;

pub struct Ended {
    pub status: i32,
    pub text: String,
    pub errors: String,
}

/// Runs a command in the repository's folder, fed the bytes.
pub fn kivdrag(words: &[&str], input: &[u8]) -> Ended {
    let mut command = command(words[0], &words[1..]);
    command.current_dir(root()).stdin(Stdio::piped()).stdout(Stdio::piped()).stderr(Stdio::piped());
    let mut child = command.spawn().unwrap();
    let mut pipe = child.stdin.take().unwrap();
    let output = std::thread::scope(|scope| {
        // Where the words are wrong nobody reads it.
        scope.spawn(move || drop(pipe.write_all(input)));
        child.wait_with_output().unwrap()
    });
    let (status, text, errors) = said(&output);
    Ended { status, text, errors }
}

/// The names of all examples, without `.csv`, sorted, each with the status of a command that runs it: 1 where something is refused.
pub fn examples() -> Vec<(String, i32)> {
    let folder = root().join("examples");
    let names = std::fs::read_dir(&folder).unwrap().map(|entry| entry.unwrap().file_name().into_string().unwrap());
    let mut names: Vec<String> = names.filter_map(|name| Some(name.strip_suffix(".csv")?.to_string())).collect();
    names.sort();
    let refused = |name: &str| std::fs::read_to_string(folder.join(format!("{name}.out"))).unwrap().contains("\nrefused,");
    names.into_iter().map(|name| (name.clone(), refused(&name) as i32)).collect()
}

/// The output is the stored one, byte for byte.
#[track_caller]
pub fn stored(name: &str, words: &[&str], status: i32) {
    let file = Path::new(env!("CARGO_MANIFEST_DIR")).join("tests/expected").join(name);
    let expected = std::fs::read_to_string(&file).unwrap_or_else(|error| panic!("{}: {error}", file.display()));
    let ended = kivdrag(words, b"");
    assert_eq!((ended.status, &ended.text[..]), (status, &expected[..]), "{name}");
}
