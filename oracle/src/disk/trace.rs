//! The calls that a program made, and those that lines ask of it.

use crate::disk::room::Change;
use crate::store::layout::BLOCK;
use std::os::unix::fs::MetadataExt;
use std::path::Path;

#[derive(Clone, PartialEq, Eq, Debug)]
pub struct Call {
    pub name: String,
    pub fd: i64,
    pub at: usize,
    pub length: usize,
}

impl std::fmt::Display for Call {
    fn fmt(&self, f: &mut std::fmt::Formatter) -> std::fmt::Result {
        let Call {
            name,
            fd,
            at,
            length,
        } = self;
        write!(f, "{name} on {fd} at {at} of {length} bytes")
    }
}

/// The descriptor to which the launcher wants the exit code.
const CODE: i64 = 8;

pub fn parse(text: &str) -> Result<Vec<Call>, String> {
    let calls = text.lines().map(|line| {
        let mut words = line.split(' ');
        let name = words.next()?.to_string();
        let fd = words.next()?.parse().ok()?;
        let at = words.next()?.parse().ok()?;
        let length = words.next()?.parse().ok()?;
        Some(Call {
            name,
            fd,
            at,
            length,
        })
    });
    let calls: Option<Vec<Call>> = calls.collect();
    calls.ok_or_else(|| format!("trace: {text}"))
}

/// The folder that a file is in.
pub fn folder_of(path: &Path) -> &Path {
    match path.parent() {
        Some(folder) if folder != Path::new("") => folder,
        _ => Path::new("."),
    }
}

/// Its number; 0 where there is none.
pub fn number_of(folder: &Path) -> usize {
    std::fs::metadata(folder).map_or(0, |about| about.ino() as usize)
}

/// Calls that matter: those on the medium that change it, and answers.
fn matters(call: &Call) -> bool {
    match call.name.as_str() {
        "open" | "pread" => false,
        "write" => call.fd != 2 && call.fd != CODE,
        _ => true,
    }
}

/// Reads the calls of a run of lines, and says which are missing or too many.
pub struct Reader<'a> {
    calls: Vec<&'a Call>,
    next: usize,
    /// The number of the folder that the file is in.
    folder: usize,
}

impl<'a> Reader<'a> {
    pub fn new(calls: &'a [Call], folder: usize) -> Self {
        let calls = calls.iter().filter(|call| matters(call)).collect();
        Reader {
            calls,
            next: 0,
            folder,
        }
    }

    fn take(&mut self, name: &str, at: usize, length: usize) -> Result<(), String> {
        let call = self.calls.get(self.next);
        self.next += 1;
        let right = |call: &Call| {
            let answers = call.fd == 1;
            call.name == name
                && call.at == at
                && call.length == length
                && answers == (name == "write")
        };
        match call {
            Some(call) if right(call) => Ok(()),
            Some(call) => Err(format!(
                "calls {call}, not {name} at {at} of {length} bytes"
            )),
            None => Err(format!("does not call {name} at {at} of {length} bytes")),
        }
    }

    /// All calls of one line: the stores that its change needs, and then its answer.
    pub fn line(&mut self, change: Change, answer: usize) -> Result<(), String> {
        match change {
            Change::Nothing => {}
            Change::Part { at, length } => {
                self.take("pwrite", at, length)?;
                self.take("fdatasync", 0, 0)?;
            }
            Change::Whole { length } => self.whole(length)?,
        }
        let mut told = 0;
        while told < answer {
            let length = match self.calls.get(self.next) {
                Some(call) if call.name == "write" => call.length,
                _ => answer - told,
            };
            self.take("write", 0, length)?;
            told += length;
        }
        match told == answer {
            true => Ok(()),
            false => Err(format!(
                "writes {told} bytes at once, not the {answer} of one answer"
            )),
        }
    }

    /// The file's name is stored in its folder; then the three steps of a formatting. The second may be
    /// one write or several.
    fn whole(&mut self, length: usize) -> Result<(), String> {
        self.take("fsync", self.folder, 0)?;
        self.take("pwrite", 0, BLOCK)?;
        self.take("ftruncate", 0, length)?;
        self.take("fdatasync", 0, 0)?;
        let mut at = BLOCK;
        while at < length {
            let part = self.calls.get(self.next).map_or(0, |call| call.length);
            self.take("pwrite", at, part.clamp(1, length - at))?;
            at += part;
        }
        self.take("fdatasync", 0, 0)?;
        self.take("pwrite", 0, BLOCK)?;
        self.take("fdatasync", 0, 0)
    }

    pub fn end(&self) -> Result<(), String> {
        match self.calls.get(self.next) {
            Some(call) => Err(format!("calls {call}, of which there is no need")),
            None => Ok(()),
        }
    }
}
