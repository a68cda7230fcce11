//! The file as it is found after a line, read whole each time.

use std::fs::File;
use std::io::ErrorKind;
use std::os::unix::fs::{FileExt, MetadataExt};
use std::path::{Path, PathBuf};

/// Keeps the open file and a buffer from one reading to the next.
pub struct Found {
    path: PathBuf,
    /// As long as it is open, no other file gets its number.
    open: Option<(File, (u64, u64))>,
    buffer: Vec<u8>,
}

impl Found {
    pub fn new(path: &Path) -> Self {
        Found {
            path: path.to_path_buf(),
            open: None,
            buffer: Vec::new(),
        }
    }

    /// All bytes of the file that has this name now; None: there is none.
    pub fn bytes(&mut self) -> Result<Option<&[u8]>, String> {
        let about = match std::fs::metadata(&self.path) {
            Ok(about) => about,
            Err(error) if error.kind() == ErrorKind::NotFound => return Ok(None),
            Err(error) => return Err(format!("{}: {error}", self.path.display())),
        };
        let number = (about.dev(), about.ino());
        let file = match self.open.take() {
            Some((file, known)) if known == number => Ok(file),
            _ => File::open(&self.path),
        };
        let read = file.and_then(|file| {
            let length = read_whole(&file, about.len() as usize, &mut self.buffer)?;
            self.open = Some((file, number));
            Ok(length)
        });
        let length = read.map_err(|error| format!("{}: {error}", self.path.display()))?;
        Ok(Some(&self.buffer[..length]))
    }
}

/// Reads until less comes than there is room for, and answers how many bytes came.
fn read_whole(file: &File, length: usize, buffer: &mut Vec<u8>) -> std::io::Result<usize> {
    let mut read = 0;
    loop {
        if buffer.len() <= length.max(read) {
            buffer.resize(length.max(read) + 1, 0);
        }
        let part = file.read_at(&mut buffer[read..], read as u64)?;
        read += part;
        if read < buffer.len() {
            return Ok(read);
        }
    }
}
