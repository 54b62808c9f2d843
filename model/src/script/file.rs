//! Image and sheet files that a script names.

use super::{Quoted, Reason, BYTES};
use std::ffi::OsStr;
use std::fs::{metadata, File};
use std::io::{self, Read};
use std::os::unix::ffi::OsStrExt;
use std::path::Path;

/// The bytes of a file, if they can be lent. A pipe or a device is not read: it might never end.
pub fn file_bytes(name: &[u8]) -> Result<Vec<u8>, Reason> {
    let quoted = || Quoted::new(name);
    let path = Path::new(OsStr::from_bytes(name));
    match metadata(path) {
        Err(error) if error.kind() == io::ErrorKind::NotFound => Err(Reason::NoFile(quoted())),
        Ok(about) if about.is_dir() => Err(Reason::Directory(quoted())),
        Ok(about) if about.is_file() => {
            let bytes = read(path).map_err(|_| Reason::Unreadable(quoted()))?;
            bytes.ok_or_else(|| Reason::LongFile(quoted()))
        }
        _ => Err(Reason::Unreadable(quoted())),
    }
}

/// The bytes of a file, or nothing if there are too many.
fn read(path: &Path) -> io::Result<Option<Vec<u8>>> {
    let mut bytes = Vec::new();
    File::open(path)?.take(BYTES + 1).read_to_end(&mut bytes)?;
    Ok(Some(bytes).filter(|bytes| bytes.len() as u64 <= BYTES))
}
