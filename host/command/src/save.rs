//! Files that are written whole or not at all.
use crate::Trouble;
use std::fs::{self, OpenOptions, Permissions};
use std::io::{self, Write};
use std::path::{Path, PathBuf};

/// Writes a file beside the one that is meant, then gives it that one's name. A link stays a link, and what isn't a file (a device,
/// a pipe) is written as it is.
pub fn whole(path: &str, text: &str) -> Result<(), Trouble> {
    let target = fs::canonicalize(path).unwrap_or_else(|_| PathBuf::from(path));
    let done = match fs::metadata(path) {
        Ok(old) if !old.is_file() => fs::write(path, text),
        Ok(old) if old.permissions().readonly() => Err(io::Error::new(
            io::ErrorKind::PermissionDenied,
            "what stands there is read-only",
        )),
        Ok(old) => renamed(&target, text, Some(old.permissions())),
        Err(_) => renamed(&target, text, None),
    };
    done.map_err(|e| Trouble::writing(path, &e))
}

/// Whether two names lead to one and the same place.
pub fn one_file(one: &str, other: &str) -> bool {
    match (fs::canonicalize(one), fs::canonicalize(other)) {
        (Ok(one), Ok(other)) => one == other,
        _ => false,
    }
}

/// What was allowed with the old file is allowed with the new one.
fn renamed(path: &Path, text: &str, allowed: Option<Permissions>) -> io::Result<()> {
    let mut name = path.file_name().unwrap_or_default().to_os_string();
    name.push(format!(".{}.part", std::process::id()));
    let part: PathBuf = path.with_file_name(name);
    let mut file = OpenOptions::new()
        .write(true)
        .create_new(true)
        .open(&part)?;
    let done = file
        .write_all(text.as_bytes())
        .and_then(|()| allowed.map_or(Ok(()), |old| file.set_permissions(old)))
        .and_then(|()| file.sync_all())
        .and_then(|()| fs::rename(&part, path));
    if done.is_err() {
        let _ = fs::remove_file(&part);
    }
    done
}
