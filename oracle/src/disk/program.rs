//! The stand-in: plays docs/STRIPROOM.md on the oracle's machine, soundly or spoilt on purpose.

use crate::disk::room::{Change, RoomOf, Turn};
use crate::disk::spoilt::Spoilt;
use crate::disk::trace::folder_of;
use crate::store::layout::{BLOCK, MAX_MEDIUM};
use crate::store::rules::{Rules, Sound};
use crate::store::widths::*;
use std::fs::{File, OpenOptions};
use std::io::{BufRead, ErrorKind, Write};
use std::os::fd::FromRawFd;
use std::os::unix::fs::FileExt;
use std::path::{Path, PathBuf};

const USAGE: &str = "\
striproom FILE    plays a script from standard input on the medium that FILE holds
`F L D` as its first line makes the file; docs/STRIPROOM.md has the rest.";

/// What goes wrong outside: the exit code and the message.
#[derive(Clone, Copy, PartialEq, Eq, Debug)]
pub struct Trouble(pub u8, pub &'static str);

pub const USED_WRONG: u8 = 2;
pub const NO_FILE: Trouble = Trouble(3, "no such file");
pub const NOT_REGULAR: Trouble = Trouble(4, "not a regular file");
pub const NO_ACCESS: Trouble = Trouble(5, "not readable or writable");
pub const TOO_LONG: Trouble = Trouble(6, "no medium is that long");
pub const NOT_READ: Trouble = Trouble(7, "not read");
pub const NOT_WRITTEN: Trouble = Trouble(8, "not written: the next opening finds what is stored");
pub const NOT_STORED: Trouble = Trouble(9, "not stored: the next opening finds what is stored");
pub const IN_USE: Trouble = Trouble(10, "in use by another striproom");

pub struct Program {
    path: PathBuf,
    pub file: Option<File>,
    pub spoilt: Option<Spoilt>,
    /// A spoilt program keeps these back: answers, and where a block was changed.
    pub kept_back: Vec<u8>,
    pub unwritten: Option<(usize, usize)>,
}

/// Plays the script on a medium, by the store that it is named for; answers the exit code.
type Player = fn(&mut Program) -> u8;

/// Stores that take record numbers wrongly, and the one that knew no others than of one byte.
pub const STORES: [(&str, Player); 7] = [
    ("before", Program::exit_code::<Before>),
    ("old-tag", Program::exit_code::<OldTag>),
    ("tag-one-refused", Program::exit_code::<TagOneRefused>),
    ("kind-as-high", Program::exit_code::<KindAsHigh>),
    ("high-not-written", Program::exit_code::<HighNotWritten>),
    ("high-not-read", Program::exit_code::<HighNotRead>),
    ("one-more-taken", Program::exit_code::<OneMoreTaken>),
];

/// `[--spoilt NAME] FILE [FD]`; answers the exit code.
pub fn run(words: &[String]) -> u8 {
    let (spoilt, player, words) = match words {
        [option, name, rest @ ..] if option == "--spoilt" => {
            let store = STORES.iter().find(|(store, _)| store == name);
            match (Spoilt::by_name(name), store) {
                (None, None) => return used_wrong(),
                (None, Some((_, player))) => (None, *player, rest),
                (spoilt, _) => (spoilt, Program::exit_code::<Sound> as Player, rest),
            }
        }
        _ => (None, Program::exit_code::<Sound> as Player, words),
    };
    let fd = match words {
        [file] if !file.is_empty() => None,
        [file, fd] if !file.is_empty() => match fd.parse::<i32>() {
            Ok(fd @ 3..=99) => Some(fd),
            _ => return used_wrong(),
        },
        _ => return used_wrong(),
    };
    let code = player(&mut Program::new(Path::new(&words[0]), spoilt));
    match fd {
        None => code,
        Some(fd) => {
            // A program in Rattle has no exit code of its own: the launcher takes it from here.
            let mut told = unsafe { File::from_raw_fd(fd) };
            u8::from(told.write_all(code.to_string().as_bytes()).is_err())
        }
    }
}

fn used_wrong() -> u8 {
    eprintln!("{USAGE}");
    USED_WRONG
}

impl Program {
    fn new(path: &Path, spoilt: Option<Spoilt>) -> Self {
        Program {
            path: path.to_path_buf(),
            file: None,
            spoilt,
            kept_back: Vec::new(),
            unwritten: None,
        }
    }

    pub fn is(&self, spoilt: Spoilt) -> bool {
        self.spoilt == Some(spoilt)
    }

    fn exit_code<R: Rules>(&mut self) -> u8 {
        match self.load::<R>().and_then(|mut room| self.play(&mut room)) {
            Ok(()) => 0,
            Err(Trouble(code, message)) => {
                if !self.is(Spoilt::MessageLost) {
                    eprintln!("striproom: {}: {message}", self.path.display());
                }
                code * u8::from(!self.is(Spoilt::CodeLost))
            }
        }
    }

    fn load<R: Rules>(&mut self) -> Result<RoomOf<R>, Trouble> {
        // A name that is no text is no file's; `main` reads words so that it has this character.
        if self.path.to_string_lossy().contains(char::REPLACEMENT_CHARACTER) {
            return Err(NO_ACCESS);
        }
        let mut options = OpenOptions::new();
        options.read(true).write(true);
        options.create(self.is(Spoilt::MadeAtStart));
        let file = match options.open(&self.path) {
            Ok(file) => file,
            Err(error) if error.kind() == ErrorKind::NotFound => return Ok(RoomOf::load(None)),
            Err(error) if error.kind() == ErrorKind::IsADirectory => return Err(NOT_REGULAR),
            Err(_) => return Err(NO_ACCESS),
        };
        let about = file.metadata().map_err(|_| NOT_READ)?;
        if !about.is_file() {
            return Err(NOT_REGULAR);
        }
        let mut length = about.len();
        if length > MAX_MEDIUM as u64 {
            if !self.is(Spoilt::TooLongTaken) {
                return Err(TOO_LONG);
            }
            length = MAX_MEDIUM as u64;
        }
        let mut bytes = vec![0; length as usize];
        match file.read_at(&mut bytes, 0) {
            Ok(count) if count == bytes.len() => {}
            Ok(_) if self.is(Spoilt::ShortReadTaken) => {}
            _ => return Err(NOT_READ),
        }
        self.file = Some(file);
        let mut room = RoomOf::load(Some(bytes));
        self.spoil_room(&mut room);
        Ok(room)
    }

    fn play<R: Rules>(&mut self, room: &mut RoomOf<R>) -> Result<(), Trouble> {
        let mut input = std::io::stdin().lock();
        let (mut line, mut text) = (Vec::new(), Vec::new());
        loop {
            line.clear();
            text.clear();
            // A read that fails counts as the end of the input.
            if input.read_until(b'\n', &mut line).unwrap_or(0) == 0 {
                return self.catch_up(room);
            }
            match room.play(line.strip_suffix(b"\n").unwrap_or(&line), &mut text) {
                Turn::Ended => return self.catch_up(room),
                Turn::NoFile => return self.no_file(&line),
                Turn::Played(change) => match self.spoilt {
                    None => {
                        self.store(room, change)?;
                        print(&text)?;
                    }
                    Some(_) => self.turn_spoilt(room, change, &line, &text)?,
                },
            }
        }
    }

    /// Stores what a line changed.
    pub fn store<R: Rules>(&mut self, room: &RoomOf<R>, change: Change) -> Result<(), Trouble> {
        match change {
            Change::Nothing => Ok(()),
            Change::Part { at, length } => {
                self.write(&room.machine.medium[at..at + length], at)?;
                self.sync()
            }
            Change::Whole { length } => {
                self.create()?;
                self.enter()?;
                self.make(&room.machine.medium, length)
            }
        }
    }

    /// A file that is missing is made only when a formatting was accepted.
    pub fn create(&mut self) -> Result<(), Trouble> {
        if self.file.is_none() {
            let mut options = OpenOptions::new();
            options.read(true).write(true).create_new(true);
            let file = options.open(&self.path).map_err(|_| NO_ACCESS)?;
            self.file = Some(file);
        }
        Ok(())
    }

    /// The file's name is stored in its folder.
    pub fn enter(&self) -> Result<(), Trouble> {
        let folder = match self.spoilt {
            Some(Spoilt::FolderUnsynced) => return Ok(()),
            Some(Spoilt::OwnFolder) => Path::new("."),
            _ => folder_of(&self.path),
        };
        let synced = File::open(folder).and_then(|folder| folder.sync_all());
        match synced {
            Err(_) if !self.is(Spoilt::FolderErrorIgnored) => Err(NOT_STORED),
            _ => Ok(()),
        }
    }

    /// The three steps of a formatting: until the last, no opening accepts the file.
    pub fn make(&mut self, medium: &[u8], length: usize) -> Result<(), Trouble> {
        self.write(&[0; BLOCK], 0)?;
        self.resize(length)?;
        self.sync()?;
        self.write(&medium[BLOCK..], BLOCK)?;
        self.sync()?;
        self.write(&medium[..BLOCK], 0)?;
        self.sync()
    }

    pub fn write(&self, bytes: &[u8], at: usize) -> Result<(), Trouble> {
        match self.file()?.write_at(bytes, at as u64) {
            Ok(count) if count == bytes.len() => Ok(()),
            _ => Err(NOT_WRITTEN),
        }
    }

    pub fn resize(&self, length: usize) -> Result<(), Trouble> {
        self.file()?.set_len(length as u64).map_err(|_| NOT_WRITTEN)
    }

    pub fn sync(&self) -> Result<(), Trouble> {
        self.file()?.sync_data().map_err(|_| NOT_STORED)
    }

    fn file(&self) -> Result<&File, Trouble> {
        self.file.as_ref().ok_or(NOT_WRITTEN)
    }
}

pub fn print(text: &[u8]) -> Result<(), Trouble> {
    let mut output = std::io::stdout().lock();
    let written = output.write_all(text).and_then(|()| output.flush());
    written.map_err(|_| NOT_WRITTEN)
}
