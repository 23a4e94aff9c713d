//! Files as they are read: a case, or the text of one.

use std::ffi::OsStr;
use std::io::{self, Read};

use casefile::text::Fault;

use crate::failure::Failure;

/// No case is larger than 4 MiB; its text may be larger, but not without end.
const MOST_READ: u64 = 64 << 20;

/// The bytes of a file; `-` is standard input.
pub fn read(file: &OsStr) -> Result<Vec<u8>, Failure> {
    let failed = |error: io::Error| Failure::of_file(&shown(file), io_told(&error, "read"));
    let mut bytes = Vec::new();
    let read = if file == "-" {
        io::stdin().take(MOST_READ + 1).read_to_end(&mut bytes)
    } else {
        std::fs::File::open(file).map_err(failed)?.take(MOST_READ + 1).read_to_end(&mut bytes)
    };
    if read.map_err(failed)? as u64 > MOST_READ {
        return Err(Failure::of_file(&shown(file), "too large: no case, text of one or log has more than 64 MiB"));
    }
    Ok(bytes)
}

/// What a file is called in messages.
pub fn shown(file: &OsStr) -> String {
    if file == "-" {
        "standard input".to_string()
    } else {
        file.to_string_lossy().into_owned()
    }
}

/// An error of the system in plain words, with what to do.
pub fn io_told(error: &io::Error, done: &str) -> String {
    match error.kind() {
        io::ErrorKind::NotFound if done == "read" => {
            "there is no such file: look at its name and at the folder that you are in".to_string()
        }
        io::ErrorKind::NotFound => "its folder does not exist: make it first".to_string(),
        io::ErrorKind::PermissionDenied => format!("it must not be {done}: ask for the permission (chmod, chown)"),
        io::ErrorKind::IsADirectory => "this is a directory: name a file in it".to_string(),
        io::ErrorKind::StorageFull => "the disk is full: free some space and try again".to_string(),
        _ => format!("it cannot be {done}: {error}"),
    }
}

/// The text, if the bytes are meant as one: a case file begins with its edition, a byte that no text begins with.
pub fn as_text<'a>(file: &OsStr, bytes: &'a [u8]) -> Result<Option<&'a str>, Failure> {
    let Some(&first) = bytes.first() else {
        let message = "the file is empty: write the text of a case into it (docs/CASE-TEXT.md), or name another";
        return Err(Failure::of_file(&shown(file), message));
    };
    if first < b' ' && !b"\t\n\r".contains(&first) {
        return Ok(None);
    }
    let (at, message) = match (std::str::from_utf8(bytes), bytes.iter().position(|&byte| byte == 0)) {
        _ if bytes.starts_with(&[0xff, 0xfe]) || bytes.starts_with(&[0xfe, 0xff]) => {
            (0, "this is UTF-16: save the text as UTF-8".to_string())
        }
        (_, Some(at)) => {
            (at, "a NUL byte: the text is damaged here; take the byte out, or get the file anew".to_string())
        }
        (Ok(text), None) => return Ok(Some(text)),
        (Err(error), None) => {
            let at = error.valid_up_to();
            let byte = bytes[at];
            (
                at,
                format!("byte {byte:#04x} is no UTF-8, perhaps it is Latin-1: save the text as UTF-8 (iconv -t UTF-8)"),
            )
        }
    };
    let before = String::from_utf8_lossy(&bytes[..at]).into_owned();
    let line = before.matches('\n').count() + 1;
    let column = before.chars().rev().take_while(|&c| c != '\n').count() + 1;
    let text = String::from_utf8_lossy(bytes).into_owned();
    Err(Failure::Faults { file: shown(file), text, faults: vec![Fault { line, column, message }] })
}
