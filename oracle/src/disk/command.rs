//! `oracle disk TEST PROGRAM LAUNCHER`: runs a test of `striproom` and prints what it counted.

use crate::disk::cores::cores;
use crate::disk::process::{Folder, Setup};
use crate::disk::{faults, kill, old, same, wrong};
use std::path::{Path, PathBuf};
use std::time::Duration;

pub const USAGE: &str = "oracle disk same|kill|faults PROGRAM LAUNCHER
oracle disk media PROGRAM LAUNCHER FOLDER
oracle disk spoilt PROGRAM LAUNCHER FOLDER [NAME]";

/// Long enough for a busy machine.
const PATIENCE: Duration = Duration::from_secs(30);

pub fn run(words: &[String]) -> Result<String, String> {
    let [test, program, launcher, rest @ ..] = words else {
        return Err(USAGE.into());
    };
    let own = || setup(Path::new(program), Path::new(launcher), PATIENCE);
    let setup = own()?;
    match test.as_str() {
        "same" => same::run(
            &(0..cores()).map(|_| own()).collect::<Result<Vec<_>, _>>()?,
            // The histories of `.ci/scripts`, whole.
            &same::Effort {
                seeds: 450,
                calls: 2500,
                damaged: 225,
                damaged_calls: 800,
                restarts: 2,
                odd: 60,
            },
        ),
        "kill" => kill::run(
            &setup,
            &kill::Effort {
                random: 300,
                exact: 300,
            },
        ),
        "faults" => faults::run(
            &setup,
            &faults::Effort {
                damaged: 12,
                ways: faults::ways(),
            },
        ),
        _ => with_folder(test, &setup, rest),
    }
}

/// The tests that need the folder of old media.
fn with_folder(test: &str, setup: &Setup, rest: &[String]) -> Result<String, String> {
    let (Some(folder), only) = (rest.first().map(Path::new), rest.get(1)) else {
        return Err(USAGE.into());
    };
    match test {
        "media" => old::run(
            setup,
            folder,
            &old::Effort {
                seeds: 60,
                each: 20,
                calls: 150,
            },
        ),
        "spoilt" => wrong::run(&setup.launcher, folder, only.map(String::as_str)),
        _ => Err(USAGE.into()),
    }
}

pub fn setup(program: &Path, launcher: &Path, patience: Duration) -> Result<Setup, String> {
    let whole = |path: &Path| {
        let found = path.canonicalize();
        found.map_err(|error| format!("{}: {error}", path.display()))
    };
    let own = std::env::current_exe().map_err(|error| error.to_string())?;
    let shared = Path::new("/dev/shm");
    let memory = match shared.is_dir() {
        true => shared.to_path_buf(),
        false => std::env::temp_dir(),
    };
    Ok(Setup {
        program: whole(program)?,
        launcher: whole(launcher)?,
        preload: whole(&beside(&own, "libpreload.so"))?,
        disk: Folder::new(&std::env::temp_dir())?,
        memory: Folder::new(&memory)?,
        patience,
    })
}

fn beside(path: &Path, name: &str) -> PathBuf {
    path.with_file_name(name)
}
