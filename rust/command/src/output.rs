//! Standard output, and files that are written whole or not at all.

use std::ffi::{OsStr, OsString};
use std::fs::{self, File, OpenOptions};
use std::io::{self, Write};
use std::os::unix::fs::MetadataExt;
use std::path::{Path, PathBuf};

use crate::failure::Failure;
use crate::input::io_told;

pub fn print(text: &str) -> Result<(), Failure> {
    print_bytes(text.as_bytes())
}

/// Writes all to standard output; what cannot be written is an error, a reader that has gone away too.
pub fn print_bytes(bytes: &[u8]) -> Result<(), Failure> {
    let mut output = io::stdout().lock();
    output.write_all(bytes).and_then(|()| output.flush()).map_err(|error| {
        let what = match error.kind() {
            io::ErrorKind::BrokenPipe => {
                "its reader has gone away before all was written: let it read on, or write to a file".to_string()
            }
            _ => io_told(&error, "written"),
        };
        Failure::of_file("standard output", what)
    })
}

/// Text for standard output, or for the file that `-o` names.
pub fn print_or_write(text: &str, to: Option<&OsStr>, inputs: &[&OsStr]) -> Result<(), Failure> {
    match to {
        Some(file) if file != "-" => write_file(file, text.as_bytes(), inputs),
        _ => print(text),
    }
}

/// Writes a file through another one beside it, which takes its place when all is on the disk.
pub fn write_file(file: &OsStr, bytes: &[u8], inputs: &[&OsStr]) -> Result<(), Failure> {
    let shown = file.to_string_lossy();
    let failed = |error: io::Error| Failure::of_file(&shown, io_told(&error, "written"));
    if let Some(input) = inputs.iter().find(|input| same_file(input, file)) {
        let message = format!("this is the file that is read, {}: name another one to write", input.to_string_lossy());
        return Err(Failure::of_file(&shown, message));
    }
    // What a link leads to is replaced, not the link.
    let target = fs::canonicalize(file).unwrap_or_else(|_| PathBuf::from(file));
    match fs::metadata(&target) {
        Ok(there) if there.is_dir() => Err(Failure::of_file(&shown, "this is a directory: name a file in it")),
        // A device or a pipe cannot be replaced.
        Ok(there) if !there.is_file() => {
            OpenOptions::new().write(true).open(&target).and_then(|mut file| file.write_all(bytes)).map_err(failed)
        }
        there => replace(&target, bytes, there.ok()).map_err(failed),
    }
}

fn replace(target: &Path, bytes: &[u8], before: Option<fs::Metadata>) -> io::Result<()> {
    let mut name = OsString::from(".");
    name.push(target.file_name().unwrap_or_default());
    name.push(format!(".{}.tmp", std::process::id()));
    let beside = target.with_file_name(name);
    let written = (|| {
        let mut file = OpenOptions::new().write(true).create_new(true).open(&beside)?;
        if let Some(before) = before {
            file.set_permissions(before.permissions())?;
        }
        file.write_all(bytes)?;
        file.sync_all()?;
        fs::rename(&beside, target)
    })();
    if written.is_err() {
        let _ = fs::remove_file(&beside);
    }
    written?;
    // The name is on the disk when its folder is; some file systems sync no folders.
    let folder = target.parent().filter(|folder| !folder.as_os_str().is_empty()).unwrap_or(Path::new("."));
    let _ = File::open(folder).and_then(|folder| folder.sync_all());
    Ok(())
}

fn same_file(one: &OsStr, other: &OsStr) -> bool {
    match (fs::metadata(one), fs::metadata(other)) {
        (Ok(one), Ok(other)) => one.is_file() && (one.dev(), one.ino()) == (other.dev(), other.ino()),
        _ => false,
    }
}
