//! The lock of a file that is kept, so that one run at a time works on it.

use crate::replace::named_beside;
use crate::trouble::Trouble;
use std::fs::{File, OpenOptions};
use std::io::{self, ErrorKind};
use std::os::unix::fs::MetadataExt;
use std::path::Path;

/// The lock of the file, `NAME.lock`. It lasts until the program ends, however that is.
pub fn locked(file: &Path) -> Result<File, Trouble> {
    match file.metadata() {
        Ok(there) if there.is_dir() => return Err(Trouble::of_file(file, "Is a directory")),
        Ok(there) if !there.is_file() => return Err(Trouble::of_file(file, "is no plain file")),
        _ => (),
    }
    let name = named_beside(file, ".lock");
    loop {
        let lock = match OpenOptions::new().write(true).create(true).truncate(false).open(&name) {
            // Another's lock that may only be read can be held as well.
            Err(error) if error.kind() == ErrorKind::PermissionDenied => File::open(&name).map_err(|_| error),
            opened => opened,
        };
        let lock = lock.and_then(|lock| lock.lock().map(|()| lock));
        let same = lock.and_then(|lock| Ok((is_named(&lock, &name)?, lock)));
        match same {
            Ok((true, lock)) => return Ok(lock),
            // It was taken away while this run waited for it: others lock another.
            Ok((false, _)) => continue,
            Err(error) => return Err(Trouble::io(&name, error)),
        }
    }
}

/// Whether this is the file that the name names now.
fn is_named(file: &File, name: &Path) -> io::Result<bool> {
    let own = file.metadata()?;
    match name.metadata() {
        Ok(there) => Ok((there.dev(), there.ino()) == (own.dev(), own.ino())),
        Err(error) if error.kind() == ErrorKind::NotFound => Ok(false),
        Err(error) => Err(error),
    }
}
