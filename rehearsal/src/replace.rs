//! Writes files whole or not at all; a repaired one to a new place or in the place of the original, so that nothing is ever lost.

use crate::reason;
use std::ffi::OsString;
use std::fs::{self, File, Metadata, OpenOptions};
use std::io::{self, ErrorKind, Read};
use std::os::unix::fs::{chown, MetadataExt, OpenOptionsExt};
use std::path::{Path, PathBuf};

/// Puts the bytes in the place of a file, and keeps the original beside it; answers the name that it has now. A link is followed. Where it fails the
/// original stands.
pub fn replace(file: &Path, bytes: &[u8]) -> Result<PathBuf, String> {
    let failed = |error: io::Error| format!("{} could not be repaired and stands as it was: {}", file.display(), reason(&error));
    let real = if file.is_symlink() { file.canonicalize().map_err(failed)? } else { file.to_path_buf() };
    let model = real.metadata().map_err(failed)?;
    let temporary = beside(&real, &format!(".{}.tmp", std::process::id()));
    write_new(&temporary, bytes, Some(&model)).map_err(failed)?;
    let result = keep(&real, &model).and_then(|kept| match fs::rename(&temporary, &real) {
        Ok(()) => Ok(kept),
        Err(error) => {
            remove(&kept);
            Err(error)
        }
    });
    result.inspect_err(|_| remove(&temporary)).map_err(failed)
}

/// Puts the bytes in the place of a file, which need not be there; at no time has it a part of them. A device or a pipe is written to as it is.
pub fn put(file: &Path, bytes: &[u8]) -> Result<(), String> {
    let failed = |error: io::Error| format!("{} could not be written: {}", file.display(), reason(&error));
    let real = file.canonicalize().unwrap_or_else(|_| file.to_path_buf());
    let model = real.metadata().ok();
    if model.as_ref().is_some_and(|model| !model.is_file()) {
        return fs::write(&real, bytes).map_err(failed);
    }
    let temporary = beside(&real, &format!(".{}.tmp", std::process::id()));
    write_new(&temporary, bytes, model.as_ref()).map_err(failed)?;
    fs::rename(&temporary, &real).inspect_err(|_| remove(&temporary)).map_err(failed)
}

/// Takes back what was written. A file that cannot be removed is one too many, and nothing is lost by it.
fn remove(file: &Path) {
    let _ = fs::remove_file(file);
}

/// Writes the bytes to a file that must not be there yet.
pub fn write(file: &Path, bytes: &[u8]) -> Result<(), String> {
    write_new(file, bytes, None).map_err(|error| match error.kind() {
        ErrorKind::AlreadyExists => taken(file),
        _ => format!("{} could not be written: {}", file.display(), reason(&error)),
    })
}

pub fn taken(file: &Path) -> String {
    format!("{} is there already and is not overwritten; give another name", file.display())
}

/// Copies a file to the first free of the names FILE.orig, FILE.orig.2, FILE.orig.3 and so on.
fn keep(file: &Path, model: &Metadata) -> io::Result<PathBuf> {
    for number in 1.. {
        let copy = beside(file, &if number == 1 { ".orig".to_string() } else { format!(".orig.{number}") });
        match write_new(&copy, File::open(file)?, Some(model)) {
            Err(error) if error.kind() == ErrorKind::AlreadyExists => {}
            result => return result.map(|()| copy),
        }
    }
    unreachable!("there is always another number")
}

fn beside(file: &Path, end: &str) -> PathBuf {
    let mut name = OsString::from(file);
    name.push(end);
    PathBuf::from(name)
}

/// A new file, on disk when this returns, with the owner and the permissions of another one; where it fails there is none.
fn write_new(file: &Path, mut content: impl Read, model: Option<&Metadata>) -> io::Result<()> {
    // Until it has the other one's permissions, its owner alone can read it.
    let mode = if model.is_some() { 0o600 } else { 0o666 };
    let mut new = OpenOptions::new().write(true).create_new(true).mode(mode).open(file)?;
    let written = io::copy(&mut content, &mut new).and_then(|_| match model {
        // Only the superuser can give files to others; anyone else owns the new file.
        Some(model) => chown(file, Some(model.uid()), Some(model.gid())).or(Ok(())).and_then(|()| new.set_permissions(model.permissions())),
        None => Ok(()),
    });
    written.and_then(|()| new.sync_all()).inspect_err(|_| remove(file))
}
