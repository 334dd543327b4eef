//! Where the bytes come from, and how names are shown.

use std::ffi::OsStr;
use std::fs::{self, File};
use std::io::{self, Read};
use std::os::unix::ffi::OsStrExt;
use std::path::Path;

/// More than any file may have; what is longer is refused as it is, whatever follows.
const MOST: u64 = 16 * 1024 * 1024;

/// The bytes of a file by its name, `-` for the standard input; or what went wrong, in words.
pub fn read(name: &OsStr) -> Result<Vec<u8>, String> {
    let bytes = if name == "-" { read_all(io::stdin().lock()) } else { read_path(Path::new(name)) };
    bytes.map_err(|error| format!("{} cannot be read: {}", shown(name), why(&error)))
}

/// The bytes of a regular file, so that no pipe or device is waited for; or why they cannot be read.
pub fn read_regular(path: &Path) -> Result<Vec<u8>, String> {
    match fs::metadata(path) {
        Ok(data) if data.is_dir() => Err(String::from("Is a directory")),
        Ok(data) if !data.is_file() => Err(String::from("Is no regular file")),
        Ok(_) => read_path(path).map_err(|error| why(&error)),
        Err(error) => Err(why(&error)),
    }
}

/// What went wrong, in words, without the number that the system has for it.
pub fn why(error: &io::Error) -> String {
    let words = error.to_string();
    words.split(" (os error").next().map_or(words.clone(), String::from)
}

/// The bytes of a file.
pub fn read_path(path: &Path) -> io::Result<Vec<u8>> {
    read_all(File::open(path)?)
}

fn read_all(source: impl Read) -> io::Result<Vec<u8>> {
    let mut bytes = Vec::new();
    source.take(MOST).read_to_end(&mut bytes)?;
    Ok(bytes)
}

/// The name of a file as it is shown: what is no text or no terminal should get is written by its bytes, as `\x1b`.
pub fn shown(name: &OsStr) -> String {
    if name == "-" { String::from("standard input") } else { escaped(name) }
}

/// A name as text of one line, with the bytes written out of what is no text or a control character.
pub fn escaped(name: &OsStr) -> String {
    let mut text = String::new();
    for chunk in name.as_bytes().utf8_chunks() {
        for c in chunk.valid().chars() {
            if is_shown(c) {
                text.push(c);
            } else {
                let mut bytes = [0; 4];
                c.encode_utf8(&mut bytes).bytes().for_each(|byte| text += &format!("\\x{byte:02x}"));
            }
        }
        chunk.invalid().iter().for_each(|byte| text += &format!("\\x{byte:02x}"));
    }
    text
}

/// Whether a character may stand in a line as it is: none that controls a terminal, ends a line or turns the direction of what follows.
pub fn is_shown(c: char) -> bool {
    !c.is_control()
        && !matches!(c, '\u{2028}' | '\u{2029}' | '\u{200e}' | '\u{200f}' | '\u{202a}'..='\u{202e}' | '\u{2066}'..='\u{2069}' | '\u{feff}')
}

#[cfg(test)]
mod tests {
    use super::*;

    #[test]
    fn names_are_shown_on_one_line() {
        for (name, wanted) in [
            (&b"K.txt"[..], "K.txt"),
            (b"-", "standard input"),
            ("Müllheim №3.txt".as_bytes(), "Müllheim №3.txt"),
            (b"a\x1b[31m\n.txt", "a\\x1b[31m\\x0a.txt"),
            (b"caf\xe9.txt", "caf\\xe9.txt"),
            ("\u{202e}txt.K".as_bytes(), "\\xe2\\x80\\xaetxt.K"),
        ] {
            assert_eq!(shown(OsStr::from_bytes(name)), wanted);
        }
    }
}
