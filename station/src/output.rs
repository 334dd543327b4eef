//! The file that the answer goes to.

use std::ffi::OsStr;
use std::fs::{self, File};
use std::io::{self, BufWriter, Write};
use std::os::unix::fs::MetadataExt;
use std::path::{Path, PathBuf};

/// A file that is made when the first of the answer is written, so that wrong use leaves a file of that name as it is.
pub struct Output {
    path: PathBuf,
    file: Option<BufWriter<File>>,
}

impl Output {
    pub fn to(name: &OsStr) -> Output {
        Output { path: PathBuf::from(name), file: None }
    }

    fn file(&mut self) -> io::Result<&mut BufWriter<File>> {
        match &mut self.file {
            Some(file) => Ok(file),
            none => Ok(none.insert(BufWriter::new(File::create(&self.path)?))),
        }
    }

    /// Makes the file of an empty answer too, and writes all.
    pub fn finish(&mut self) -> io::Result<()> {
        self.file()?.flush()
    }
}

impl Write for Output {
    fn write(&mut self, bytes: &[u8]) -> io::Result<usize> {
        self.file()?.write(bytes)
    }

    fn flush(&mut self) -> io::Result<()> {
        self.file.as_mut().map_or(Ok(()), Write::flush)
    }
}

/// What makes a file the same under several names; none where there is no such file.
pub fn identity(path: &Path) -> Option<(u64, u64)> {
    fs::metadata(path).ok().map(|data| (data.dev(), data.ino()))
}
