//! A script line by line through a program: answers, calls and the file's bytes after each.

use crate::disk::found::Found;
use crate::disk::process::{Process, Setup};
use crate::disk::room::{Change, Room, Turn};
use crate::disk::trace::{folder_of, number_of, Reader};
use crate::history::record_numbers::writes_high;
use crate::script::parse;
use std::path::{Path, PathBuf};

#[derive(Clone, Copy, Default)]
pub struct Counts {
    pub lines: u64,
    pub stores: u64,
    pub formats: u64,
    pub processes: u64,
    /// Lines that hand a flight over, and those of them that store.
    pub handovers: u64,
    pub handover_stores: u64,
    /// Versions of records from 256 on, and refusals 18.
    pub high_records: u64,
    pub no_records: u64,
}

impl Counts {
    pub fn add(&mut self, other: &Counts) {
        self.lines += other.lines;
        self.stores += other.stores;
        self.formats += other.formats;
        self.processes += other.processes;
        self.handovers += other.handovers;
        self.handover_stores += other.handover_stores;
        self.high_records += other.high_records;
        self.no_records += other.no_records;
    }
}

pub struct Session<'a> {
    setup: &'a Setup,
    pub path: PathBuf,
    /// The number of its folder.
    folder: usize,
    found: Found,
    pub room: Room,
    process: Process,
    /// All answers so far.
    pub printed: Vec<u8>,
    pub counts: Counts,
}

/// What a line must do: its text, its answer, its change.
struct Wanted<'a> {
    line: &'a [u8],
    answer: Vec<u8>,
    change: Change,
}

impl<'a> Session<'a> {
    pub fn new(setup: &'a Setup, path: &Path) -> Result<Self, String> {
        Ok(Session {
            setup,
            path: path.to_path_buf(),
            folder: number_of(folder_of(path)),
            found: Found::new(path),
            room: Room::load(std::fs::read(path).ok()),
            process: setup.start(setup.program(path))?,
            printed: Vec::new(),
            counts: Counts {
                processes: 1,
                ..Counts::default()
            },
        })
    }

    /// Hands over some lines at once and judges what they did. False: the run has ended with them.
    pub fn lines(&mut self, lines: &[&[u8]]) -> Result<bool, String> {
        let mut wanted = Vec::new();
        let mut goes_on = true;
        for line in lines {
            let mut answer = Vec::new();
            match self.room.play(line, &mut answer) {
                Turn::Ended | Turn::NoFile => {
                    goes_on = false;
                    break;
                }
                Turn::Played(change) => wanted.push(Wanted {
                    line,
                    answer,
                    change,
                }),
            }
        }
        let mut text = lines.join(&b'\n');
        text.push(b'\n');
        self.process.send(&text);
        self.judge(&wanted)?;
        match goes_on {
            true => Ok(true),
            false => self.end().map(|()| false),
        }
    }

    fn judge(&mut self, wanted: &[Wanted]) -> Result<(), String> {
        let count = wanted.iter().map(|wanted| wanted.answer.len()).sum();
        let mut got = Vec::new();
        self.process.receive(&mut got, count);
        let mut rest = &got[..];
        for wanted in wanted {
            rest = rest.strip_prefix(&wanted.answer[..]).ok_or_else(|| {
                let line = shown(wanted.line);
                let got = shown(&rest[..rest.len().min(wanted.answer.len().max(1))]);
                format!("{line}: expected {}, got {got}", shown(&wanted.answer))
            })?;
        }
        if !rest.is_empty() {
            return Err(format!("prints {} behind its answers", shown(rest)));
        }
        self.printed.extend_from_slice(&got);
        let calls = self.process.calls()?;
        let mut reader = Reader::new(&calls, self.folder);
        for wanted in wanted {
            let read = reader.line(wanted.change, wanted.answer.len());
            read.map_err(|text| format!("{}: {text}", shown(wanted.line)))?;
            self.count(wanted);
        }
        reader.end()?;
        self.compare()
    }

    fn count(&mut self, wanted: &Wanted) {
        self.counts.lines += 1;
        match wanted.change {
            Change::Nothing => {}
            Change::Part { .. } => self.counts.stores += 1,
            Change::Whole { .. } => self.counts.formats += 1,
        }
        if hands(wanted.line) {
            self.counts.handovers += 1;
            self.counts.handover_stores += u64::from(wanted.change != Change::Nothing);
        }
        let code = wanted.answer.split(|&byte| byte == b' ').nth(1);
        let high = parse(wanted.line).is_some_and(|line| writes_high(&line));
        self.counts.high_records += u64::from(high && code == Some(b"0"));
        self.counts.no_records += u64::from(code == Some(b"18"));
    }

    /// The file has the oracle's bytes.
    fn compare(&mut self) -> Result<(), String> {
        let found = self.found.bytes()?;
        difference(self.room.file.as_deref(), found).map_or(Ok(()), Err)
    }

    /// The input ends, and with it the process: it says and writes nothing more.
    pub fn end(&mut self) -> Result<(), String> {
        self.process.close();
        self.quiet_end()?;
        self.process.wait().map(|_| ())
    }

    fn quiet_end(&mut self) -> Result<(), String> {
        let mut got = Vec::new();
        self.process.receive(&mut got, usize::MAX);
        if !got.is_empty() {
            return Err(format!("prints {} at its end", shown(&got)));
        }
        let calls = self.process.calls()?;
        Reader::new(&calls, self.folder).end()?;
        self.compare()
    }

    /// A new process takes over, after the old one's end or its death.
    pub fn restart(&mut self, kill: bool) -> Result<(), String> {
        if kill {
            self.process.kill();
            self.quiet_end()?;
        } else {
            self.end()?;
        }
        self.room = Room::load(self.room.file.take());
        self.process = self.setup.start(self.setup.program(&self.path))?;
        self.counts.processes += 1;
        Ok(())
    }
}

/// Does a line hand a flight over?
pub fn hands(line: &[u8]) -> bool {
    line.starts_with(b"H ")
}

/// Where two files differ, in words.
pub fn difference(wanted: Option<&[u8]>, found: Option<&[u8]>) -> Option<String> {
    match (wanted, found) {
        (None, None) => None,
        (None, Some(_)) => Some("there is a file now".into()),
        (Some(_), None) => Some("the file is gone".into()),
        (Some(wanted), Some(found)) if wanted.len() != found.len() => Some(format!(
            "the file should have {} bytes and has {}",
            wanted.len(),
            found.len()
        )),
        (Some(wanted), Some(found)) if wanted == found => None,
        (Some(wanted), Some(found)) => {
            let mut pairs = wanted.iter().zip(found);
            let at = pairs.position(|(wanted, found)| wanted != found)?;
            let (wanted, found) = (wanted[at], found[at]);
            Some(format!(
                "byte {at} of the file should be {wanted:02x} and is {found:02x}"
            ))
        }
    }
}

/// Bytes for a message, not too many.
pub fn shown(bytes: &[u8]) -> String {
    let text = String::from_utf8_lossy(&bytes[..bytes.len().min(160)]);
    format!("{text:?}")
}
