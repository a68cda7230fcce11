//! A program under test as a process: lines in, answers out, the calls it made.

use crate::disk::trace::{self, Call};
use std::fs::File;
use std::io::{Read, Write};
use std::os::fd::AsRawFd;
use std::path::{Path, PathBuf};
use std::process::{Child, ChildStdin, ChildStdout, Command, ExitStatus, Stdio};
use std::time::{Duration, Instant};

#[repr(C)]
struct PollFd {
    fd: i32,
    events: i16,
    revents: i16,
}

const READABLE: i16 = 1;
/// How much is read at once.
const PART: usize = 65536;

extern "C" {
    fn poll(fds: *mut PollFd, count: std::ffi::c_ulong, milliseconds: i32) -> i32;
}

/// What is tested, and where its files lie.
pub struct Setup {
    pub program: PathBuf,
    pub launcher: PathBuf,
    pub preload: PathBuf,
    /// A folder on a disk, and one in memory, where storing takes no time.
    pub disk: Folder,
    pub memory: Folder,
    /// How long an answer may take.
    pub patience: Duration,
}

/// A folder of its own, gone in the end.
pub struct Folder(pub PathBuf);

impl Folder {
    pub fn new(parent: &Path) -> Result<Folder, String> {
        let path = parent.join(format!("striproom-{}", std::process::id()));
        let path = (0..)
            .map(|n| path.with_extension(n.to_string()))
            .find(|path| !path.exists());
        let path = path.ok_or("no name left")?;
        std::fs::create_dir(&path).map_err(|error| format!("{}: {error}", path.display()))?;
        Ok(Folder(path))
    }

    pub fn join(&self, name: &str) -> PathBuf {
        self.0.join(name)
    }
}

impl Drop for Folder {
    fn drop(&mut self) {
        let _ = std::fs::remove_dir_all(&self.0);
    }
}

impl Setup {
    /// The program alone, with the library preloaded.
    pub fn program(&self, file: &Path) -> Command {
        let mut command = Command::new(&self.program);
        command.arg(file).env("LD_PRELOAD", &self.preload);
        command
    }

    pub fn start(&self, mut command: Command) -> Result<Process, String> {
        let notes = self.memory.join("trace");
        File::create(&notes).map_err(|error| error.to_string())?;
        let stderr = File::create(self.memory.join("stderr"));
        command
            .env("DISK_TRACE", &notes)
            .stdin(Stdio::piped())
            .stdout(Stdio::piped())
            .stderr(stderr.map_err(|error| error.to_string())?);
        let child = command.spawn();
        let mut child = child.map_err(|error| format!("{command:?}: {error}"))?;
        let (input, output) = (child.stdin.take(), child.stdout.take());
        Ok(Process {
            child,
            input,
            output: output.ok_or("no output")?,
            notes: File::open(&notes).map_err(|error| error.to_string())?,
            part: vec![0; PART],
            patience: self.patience,
        })
    }

    /// What the last process said on standard error.
    pub fn complaint(&self) -> String {
        let bytes = std::fs::read(self.memory.join("stderr")).unwrap_or_default();
        String::from_utf8_lossy(&bytes).into_owned()
    }
}

pub struct Process {
    child: Child,
    input: Option<ChildStdin>,
    output: ChildStdout,
    notes: File,
    /// What the last read brought.
    part: Vec<u8>,
    patience: Duration,
}

impl Process {
    pub fn id(&self) -> u32 {
        self.child.id()
    }

    /// Hands lines over. A program that has ended takes none, which its answers will show.
    pub fn send(&mut self, bytes: &[u8]) {
        if let Some(input) = &mut self.input {
            let _ = input.write_all(bytes);
        }
    }

    pub fn close(&mut self) {
        self.input = None;
    }

    /// Reads on until the answers have so many bytes; false at their end, or if none come.
    pub fn receive(&mut self, answers: &mut Vec<u8>, count: usize) -> bool {
        while answers.len() < count {
            match self.readable().then(|| self.output.read(&mut self.part)) {
                Some(Ok(length @ 1..)) => answers.extend_from_slice(&self.part[..length]),
                _ => return false,
            }
        }
        true
    }

    fn readable(&mut self) -> bool {
        let mut asked = PollFd {
            fd: self.output.as_raw_fd(),
            events: READABLE,
            revents: 0,
        };
        // One descriptor, which lives as long as the call.
        unsafe { poll(&mut asked, 1, self.patience.as_millis() as i32) == 1 }
    }

    /// The calls noted since the last time.
    pub fn calls(&mut self) -> Result<Vec<Call>, String> {
        let mut text = Vec::new();
        loop {
            let read = self.notes.read(&mut self.part);
            let length = read.map_err(|error| format!("trace: {error}"))?;
            text.extend_from_slice(&self.part[..length]);
            if length < self.part.len() {
                return trace::parse(&String::from_utf8_lossy(&text));
            }
        }
    }

    pub fn kill(&mut self) {
        let _ = self.child.kill();
    }

    /// Waits for the end, and ends a process that does not come to one.
    pub fn wait(&mut self) -> Result<ExitStatus, String> {
        let start = Instant::now();
        loop {
            if let Some(status) = self.child.try_wait().map_err(|error| error.to_string())? {
                return Ok(status);
            }
            if start.elapsed() > self.patience {
                self.kill();
                let _ = self.child.wait();
                return Err("does not end".into());
            }
            std::thread::sleep(Duration::from_micros(100));
        }
    }
}

impl Drop for Process {
    fn drop(&mut self) {
        self.kill();
        let _ = self.child.wait();
    }
}
