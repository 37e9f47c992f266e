//! Writing a file so that at every moment it is whole: the old one or the new.

use crate::trouble::{reason, shown, Trouble};
use std::ffi::OsString;
use std::fs::{self, File, OpenOptions};
use std::io::{self, Write};
use std::os::unix::ffi::OsStrExt;
use std::os::unix::fs::{fchown, MetadataExt};
use std::path::{Path, PathBuf};

/// Behind a file's name: where its new bytes are written, before they are put in its place.
const NEW: &str = ".mill-new";

/// The name beside a file that one run at a time uses. What it holds is nobody's: a run that was stopped left it.
pub fn new_beside(file: &Path) -> PathBuf {
    named_beside(file, NEW)
}

/// Names that are used so, and so no name of a file to keep.
pub fn is_new(file: &Path) -> bool {
    file.as_os_str().as_bytes().ends_with(NEW.as_bytes())
}

/// A file's name with something behind it.
pub fn named_beside(file: &Path, suffix: &str) -> PathBuf {
    let mut name = OsString::from(file);
    name.push(suffix);
    PathBuf::from(name)
}

/// The file that a name leads to: where the name is a link, what it links to, which must be there.
pub fn real(file: &Path) -> Result<PathBuf, Trouble> {
    match file.symlink_metadata() {
        Ok(there) if there.is_symlink() => fs::canonicalize(file).map_err(|error| Trouble::io(file, error)),
        _ => Ok(file.to_path_buf()),
    }
}

/// The file of `-o`, which is there already only where it may be written over. What is no file and no folder, a device or a pipe,
/// is written as it is.
pub fn output(file: &Path, bytes: &[u8], over: bool) -> Result<(), Trouble> {
    let real = match fs::metadata(file) {
        Ok(there) if there.is_file() && !over => return Err(there_already(file)),
        Ok(there) if there.is_dir() => return Err(Trouble::of_file(file, "Is a directory")),
        Ok(there) if !there.is_file() => {
            let written = OpenOptions::new().write(true).open(file).and_then(|mut opened| opened.write_all(bytes));
            return written.map_err(|error| Trouble::io(file, error));
        }
        _ => real(file)?,
    };
    let beside = named_beside(&real, &format!("{NEW}-{}", std::process::id()));
    put(&real, &beside, bytes, if over { rename } else { link })
}

pub fn there_already(file: &Path) -> Trouble {
    Trouble::of_file(file, "is there already; --force writes over it")
}

/// Writes the bytes beside the file, flushes them to disk, puts them in its place and flushes the folder. Where this fails the
/// file is as it was, unless the line says otherwise.
pub fn replace(file: &Path, beside: &Path, bytes: &[u8]) -> Result<(), Trouble> {
    put(file, beside, bytes, rename)
}

fn rename(beside: &Path, file: &Path) -> Result<(), Trouble> {
    fs::rename(beside, file).map_err(|error| Trouble::of_file(file, format!("not written: {}", reason(&error))))
}

/// In the place of no file: another that came there meanwhile stays. Where a disk has no second names, only looking tells.
fn link(beside: &Path, file: &Path) -> Result<(), Trouble> {
    match fs::hard_link(beside, file) {
        Ok(()) => {
            let _ = fs::remove_file(beside);
            Ok(())
        }
        Err(error) if error.kind() == io::ErrorKind::AlreadyExists => Err(there_already(file)),
        Err(_) if file.symlink_metadata().is_ok() => Err(there_already(file)),
        Err(_) => rename(beside, file),
    }
}

fn put(file: &Path, beside: &Path, bytes: &[u8], place: fn(&Path, &Path) -> Result<(), Trouble>) -> Result<(), Trouble> {
    let written = write_beside(file, beside, bytes)
        .map_err(|error| Trouble::of_file(file, format!("not written: {}: {}", shown(beside), reason(&error))));
    if let Err(trouble) = written.and_then(|()| place(beside, file)) {
        let _ = fs::remove_file(beside);
        return Err(trouble);
    }
    let flushed = File::open(folder_of(file)).and_then(|folder| folder.sync_all());
    flushed.map_err(|error| {
        let folder = shown(folder_of(file));
        Trouble::of_file(file, format!("written, but its folder {folder} was not flushed to disk: {}", reason(&error)))
    })
}

fn write_beside(file: &Path, beside: &Path, bytes: &[u8]) -> io::Result<()> {
    // What an earlier run left there when it was stopped.
    match fs::remove_file(beside) {
        Err(error) if error.kind() != io::ErrorKind::NotFound => return Err(error),
        _ => (),
    }
    let mut written = OpenOptions::new().write(true).create_new(true).open(beside)?;
    if let Ok(there) = fs::metadata(file) {
        // Only a superuser can give a file away; what others write is theirs.
        let _ = fchown(&written, Some(there.uid()), Some(there.gid()));
        written.set_permissions(there.permissions())?;
    }
    written.write_all(bytes)?;
    written.sync_all()
}

pub fn folder_of(file: &Path) -> &Path {
    match file.parent() {
        Some(folder) if folder != Path::new("") => folder,
        _ => Path::new("."),
    }
}
