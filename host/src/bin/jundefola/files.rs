//! Files read whole, and written whole or not at all.

use std::ffi::OsString;
use std::fs::{self, File};
use std::io::{self, Write};
use std::path::{Path, PathBuf};
use std::process;

use crate::problem::Problem;

/// The bytes of a file.
pub fn read(file: &Path) -> Result<Vec<u8>, Problem> {
    fs::read(file).map_err(|error| Problem::in_file(file, error))
}

/// The text of a file.
pub fn read_text(file: &Path) -> Result<String, Problem> {
    String::from_utf8(read(file)?).map_err(|error| {
        let sound = &error.as_bytes()[..error.utf8_error().valid_up_to()];
        let line = 1 + sound.iter().filter(|&&byte| byte == b'\n').count();
        Problem::at_line(file.display(), line, "this is not text in UTF-8")
    })
}

/// Writes a file by way of one beside it, so that the target is either as it was or whole.
pub fn write_whole(target: &Path, bytes: &[u8]) -> Result<(), Problem> {
    let target_file = regular_target(target)?;
    let part = beside(&target_file);
    write_part(&part, bytes, &target_file).map_err(|error| Problem::in_file(target, error))
}

/// Writes the unfinished file and gives it the target's name, or removes it again.
fn write_part(part: &Path, bytes: &[u8], target: &Path) -> io::Result<()> {
    let mut file = File::create_new(part)?;
    let written = file
        .write_all(bytes)
        .and_then(|()| file.sync_all())
        .and_then(|()| fs::rename(part, target));
    if written.is_err() {
        // the first error is the one to tell
        let _ = fs::remove_file(part);
    }
    written
}

/// The file to write, links followed; what is there already has to be a plain file.
fn regular_target(target: &Path) -> Result<PathBuf, Problem> {
    match fs::metadata(target) {
        Ok(there) if !there.is_file() => Err(Problem::in_file(target, "this is not a plain file")),
        Ok(_) => fs::canonicalize(target).map_err(|error| Problem::in_file(target, error)),
        Err(_) => Ok(target.to_path_buf()),
    }
}

/// The name of the unfinished file beside its target.
fn beside(target: &Path) -> PathBuf {
    let mut name = OsString::from(".");
    name.push(target.file_name().unwrap_or_default());
    name.push(format!(".{}.part", process::id()));
    target.with_file_name(name)
}
