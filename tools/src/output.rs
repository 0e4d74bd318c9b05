//! What a command produces: bytes for standard output or a file, and messages
//! for standard error.

use std::ffi::OsString;
use std::fs::{self, Permissions};
use std::io::{self, Write};
use std::path::Path;
use std::process;

/// The output of a command. Plain bytes convert to an output that holds, with
/// no messages.
pub struct Output {
    pub bytes: Vec<u8>,
    /// Messages for standard error, after the output.
    pub told: Vec<String>,
    /// Whether what was asked holds: exit status 0 or 1.
    pub holds: bool,
}

impl From<Vec<u8>> for Output {
    fn from(bytes: Vec<u8>) -> Output {
        Output { bytes, told: Vec::new(), holds: true }
    }
}

impl From<String> for Output {
    fn from(text: String) -> Output {
        text.into_bytes().into()
    }
}

pub fn to_standard_output(bytes: &[u8]) -> io::Result<()> {
    let mut output = io::stdout().lock();
    output.write_all(bytes)?;
    output.flush()
}

/// Writes a file whole or not at all: first beside it, then moved into place. A
/// device or a pipe cannot be replaced and gets the bytes as they come.
pub fn to_file(name: &str, bytes: &[u8]) -> io::Result<()> {
    let path = Path::new(name);
    match fs::metadata(path) {
        Err(_) => replace(path, None, bytes),
        // A link stays; the file that it points to is replaced.
        Ok(found) if found.is_file() => replace(&path.canonicalize()?, Some(found.permissions()), bytes),
        Ok(found) if found.is_dir() => Err(io::Error::other("it is a folder")),
        Ok(_) => fs::OpenOptions::new().write(true).open(path)?.write_all(bytes),
    }
}

/// Replaces a file. The new one has the old one's permissions.
fn replace(path: &Path, permissions: Option<Permissions>, bytes: &[u8]) -> io::Result<()> {
    let Some(name) = path.file_name() else {
        return Err(io::Error::other("it is no name of a file"));
    };
    let mut beside = OsString::from(".");
    beside.push(name);
    beside.push(format!(".{}.part", process::id()));
    let beside = path.with_file_name(beside);
    let written = fs::write(&beside, bytes)
        .and_then(|()| permissions.map_or(Ok(()), |kept| fs::set_permissions(&beside, kept)))
        .and_then(|()| fs::rename(&beside, path));
    if written.is_err() {
        // The first error is the one to report.
        let _ = fs::remove_file(&beside);
    }
    written
}
