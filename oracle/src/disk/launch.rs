//! A whole run through the launcher, or through the program alone with a descriptor for its code.

use crate::disk::process::Setup;
use crate::disk::program::Trouble;
use crate::disk::session::{difference, shown};
use std::ffi::OsStr;
use std::os::unix::fs::PermissionsExt;
use std::path::{Path, PathBuf};
use std::process::Command;

/// Nobody's number, for what root may do all the same.
const NOBODY: &str = "65534";

#[derive(Clone, Copy, PartialEq, Eq, Debug)]
pub enum Way {
    /// The launcher as it is.
    Launcher,
    /// The launcher read by this shell.
    Shell(&'static str),
    /// Without it.
    Alone,
}

pub struct Launch<'a> {
    pub setup: &'a Setup,
    pub way: Way,
    /// The program with the library preloaded.
    wrapper: PathBuf,
    /// What the library is to let fail.
    pub fail: Option<String>,
    pub nobody: bool,
}

#[derive(Debug)]
pub struct Outcome {
    pub code: i32,
    pub printed: Vec<u8>,
    pub complaint: String,
    /// Calls that could change the file, and answers, in their order.
    pub calls: Vec<String>,
    /// The numbers of the folders that were stored.
    pub folders: Vec<usize>,
}

fn quoted(path: &Path) -> String {
    format!("'{}'", path.display().to_string().replace('\'', "'\\''"))
}

pub fn write_script(path: &Path, text: &str) -> Result<(), String> {
    let written = std::fs::write(path, text)
        .and_then(|()| std::fs::set_permissions(path, PermissionsExt::from_mode(0o755)));
    written.map_err(|error| format!("{}: {error}", path.display()))
}

impl<'a> Launch<'a> {
    pub fn new(setup: &'a Setup, way: Way) -> Result<Self, String> {
        let wrapper = setup.disk.join("preloaded");
        let (library, program) = (quoted(&setup.preload), quoted(&setup.program));
        let text = format!("#!/bin/sh\nLD_PRELOAD={library} exec {program} \"$@\"\n");
        write_script(&wrapper, &text)?;
        Ok(Launch {
            setup,
            way,
            wrapper,
            fail: None,
            nobody: false,
        })
    }

    pub fn command(&self, words: &[&OsStr]) -> Command {
        let mut line: Vec<&OsStr> = Vec::new();
        let nobody = [
            "setpriv",
            "--reuid",
            NOBODY,
            "--regid",
            NOBODY,
            "--clear-groups",
            "--",
        ];
        if self.nobody {
            line.extend(nobody.map(OsStr::new));
        }
        let code = self.setup.memory.join("code");
        let alone = "out=$1; program=$2; shift 2; exec \"$program\" \"$@\" 8 8>\"$out\"";
        match self.way {
            Way::Launcher => line.push(self.setup.launcher.as_os_str()),
            Way::Shell(shell) => line.extend([OsStr::new(shell), self.setup.launcher.as_os_str()]),
            Way::Alone => {
                line.extend(["sh", "-c", alone, "sh"].map(OsStr::new));
                line.extend([code.as_os_str(), self.wrapper.as_os_str()]);
            }
        }
        line.extend(words);
        let mut command = Command::new(line[0]);
        command
            .args(&line[1..])
            .env("STRIPROOM", &self.wrapper)
            .env_remove("DISK_FAIL");
        if let Some(fail) = &self.fail {
            command.env("DISK_FAIL", fail);
        }
        command
    }

    pub fn run(&self, words: &[&OsStr], script: &[u8]) -> Result<Outcome, String> {
        self.run_command(self.command(words), script)
    }

    pub fn run_command(&self, command: Command, script: &[u8]) -> Result<Outcome, String> {
        let mut process = self.setup.start(command)?;
        process.send(script);
        process.close();
        let mut printed = Vec::new();
        process.receive(&mut printed, usize::MAX);
        let calls = process.calls()?;
        let status = process.wait()?;
        let code = match self.way {
            Way::Alone => self.told_code(),
            _ => status.code().unwrap_or(-1),
        };
        let folders = calls.iter().filter(|call| call.name == "fsync");
        let folders = folders.map(|call| call.at).collect();
        let calls = calls.iter().filter(|call| match call.name.as_str() {
            "open" | "pread" => false,
            "write" => call.fd == 1,
            _ => true,
        });
        Ok(Outcome {
            code,
            printed,
            complaint: self.setup.complaint(),
            calls: calls.map(|call| call.name.clone()).collect(),
            folders,
        })
    }

    /// The code that the program wrote to its descriptor; nothing means 0.
    fn told_code(&self) -> i32 {
        let text = std::fs::read_to_string(self.setup.memory.join("code")).unwrap_or_default();
        match text.trim() {
            "" => 0,
            code => code.parse().unwrap_or(-1),
        }
    }

    /// Runs a script on a file and compares all that can be seen with what is wanted.
    pub fn expect(&self, path: &Path, script: &[u8], wanted: &Wanted) -> Result<Outcome, String> {
        let outcome = self.run(&[path.as_os_str()], script)?;
        wanted.compare(path, &outcome)?;
        Ok(outcome)
    }
}

pub struct Wanted {
    /// What goes wrong, if anything.
    pub trouble: Option<Trouble>,
    pub printed: Vec<u8>,
    pub file: Option<Vec<u8>>,
}

impl Wanted {
    pub fn compare(&self, path: &Path, outcome: &Outcome) -> Result<(), String> {
        let message = match self.trouble {
            Some(Trouble(_, message)) => format!("striproom: {}: {message}\n", path.display()),
            None => String::new(),
        };
        let code = self.trouble.map_or(0, |trouble| trouble.0.into());
        if outcome.code != code {
            let Outcome {
                code: got,
                complaint,
                ..
            } = outcome;
            return Err(format!(
                "expected exit code {code}, got {got} ({complaint:?})"
            ));
        }
        if outcome.complaint != message {
            return Err(format!("expected {message:?}, got {:?}", outcome.complaint));
        }
        if outcome.printed != self.printed {
            let (wanted, got) = (shown(&self.printed), shown(&outcome.printed));
            return Err(format!("expected the answers {wanted}, got {got}"));
        }
        let found = std::fs::read(path).ok();
        difference(self.file.as_deref(), found.as_deref()).map_or(Ok(()), Err)
    }
}
