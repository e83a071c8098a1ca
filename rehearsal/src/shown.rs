//! How records and file names are shown to people.

/// The most characters of a record that are shown.
const SHOWN_MAX: usize = 64;

/// A record as it can be printed on one line: what is not printable is escaped, and a long one is cut.
pub fn shown(text: &[u8]) -> String {
    if text.len() <= SHOWN_MAX && text.iter().all(|byte| matches!(byte, b' '..=b'~')) {
        return String::from_utf8_lossy(text).into_owned();
    }
    let mut out = String::new();
    let mut characters = 0;
    for chunk in text.utf8_chunks() {
        let valid = chunk.valid().chars().map(escaped);
        for part in valid.chain(chunk.invalid().iter().map(|byte| format!("\\x{byte:02x}"))) {
            characters += 1;
            if characters > SHOWN_MAX {
                out.push('…');
                return out;
            }
            out.push_str(&part);
        }
    }
    out
}

fn escaped(character: char) -> String {
    match character {
        '"' | '\'' | '\\' => character.to_string(),
        _ => character.escape_debug().to_string(),
    }
}

/// A file's name as a word of a command that can be copied into a shell.
pub fn shell_word(name: &str) -> String {
    if !name.is_empty() && name.chars().all(|character| character.is_alphanumeric() || "._/-+=:,@%".contains(character)) {
        return name.to_string();
    }
    format!("'{}'", name.replace('\'', "'\\''"))
}
