//! One writer at a time.

use crate::disk::launch::{Launch, Wanted, Way};
use crate::disk::process::{Folder, Process, Setup};
use crate::disk::program::IN_USE;
use crate::disk::unfit::{modelled, place};
use std::os::unix::fs::symlink;
use std::path::{Path, PathBuf};
use std::process::Command;
use std::time::{Duration, Instant};

const MADE: &[u8] = b"F 2 1\nO 0\n";

pub fn run(setup: &Setup, ways: &[Way]) -> Result<String, String> {
    let mut count = 0;
    for &way in ways {
        if way == Way::Alone {
            continue;
        }
        let launch = Launch::new(setup, way)?;
        count += one(&launch).map_err(|text| format!("lock, {way:?}: {text}"))?;
    }
    Ok(format!("{count} while another had the file"))
}

fn one(launch: &Launch) -> Result<u64, String> {
    let folder = Folder::new(&launch.setup.disk.0)?;
    let path = folder.join("room");
    let names = names(&folder, &path)?;
    // The lock's name may be that of a medium, which it must leave alone.
    let neighbour = modelled(None, MADE).file;
    place(&folder.join("room.lock"), neighbour.as_deref())?;
    let mut first = holder(launch, &path)?;
    let mut refusals = 0;
    for name in &names {
        refused(launch, name)?;
        refusals += 1;
    }
    first.close();
    first.wait()?;
    for name in &names {
        accepted(launch, name)?;
    }

    // The program dies: the lock is free.
    let first = holder(launch, &path)?;
    end_program(first, &path)?;
    accepted(launch, &path)?;

    // The launcher dies: the lock holds as long as the program runs.
    let mut first = holder(launch, &path)?;
    first.kill();
    first.wait()?;
    refused(launch, &path)?;
    first.close();
    let start = Instant::now();
    while let Err(text) = accepted(launch, &path) {
        if start.elapsed() > Duration::from_secs(10) {
            return Err(text);
        }
        std::thread::sleep(Duration::from_millis(20));
    }
    place(&path, None)?;
    match std::fs::read(folder.join("room.lock")).ok() == neighbour {
        true => Ok(refusals + 1),
        false => Err("the file that has the lock's name was changed".into()),
    }
}

/// Other names of the file: through a link, and through a link to its folder.
fn names(folder: &Folder, path: &Path) -> Result<Vec<PathBuf>, String> {
    let (link, round) = (folder.join("link"), folder.join("round"));
    let made = symlink(path, &link).and_then(|()| symlink(&folder.0, &round));
    made.map_err(|error| error.to_string())?;
    Ok(vec![
        path.to_path_buf(),
        link,
        round.join("room"),
        folder.0.join("./room"),
    ])
}

/// A launcher whose program has the file and waits for lines.
fn holder(launch: &Launch, path: &Path) -> Result<Process, String> {
    place(path, None)?;
    let mut process = launch.setup.start(launch.command(&[path.as_os_str()]))?;
    process.send(MADE);
    let wanted = modelled(None, MADE).printed;
    let mut got = Vec::new();
    process.receive(&mut got, wanted.len());
    match got == wanted {
        true => Ok(process),
        false => Err(format!("{got:?}, not {wanted:?}")),
    }
}

fn refused(launch: &Launch, path: &Path) -> Result<(), String> {
    let wanted = Wanted {
        trouble: Some(IN_USE),
        printed: Vec::new(),
        file: modelled(None, MADE).file,
    };
    let done = launch.expect(path, b"F 3 3\nO 0\n", &wanted);
    done.map(|_| ())
        .map_err(|text| format!("{}: {text}", path.display()))
}

fn accepted(launch: &Launch, path: &Path) -> Result<(), String> {
    let script = b"O 0\n";
    let wanted = modelled(modelled(None, MADE).file, script);
    let done = launch.expect(path, script, &wanted);
    done.map(|_| ())
        .map_err(|text| format!("{}: {text}", path.display()))
}

/// Ends the program below a launcher by SIGKILL; the launcher then ends with the code for that.
fn end_program(mut first: Process, path: &Path) -> Result<(), String> {
    let program = descendant(first.id()).ok_or("the program is not found")?;
    let killed = Command::new("kill")
        .args(["-9", &program.to_string()])
        .status();
    if !killed.is_ok_and(|status| status.success()) {
        return Err(format!("kill {program} failed, for {}", path.display()));
    }
    let status = first.wait()?;
    match status.code() {
        Some(137) => Ok(()),
        _ => Err(format!(
            "the program was killed, the launcher ended with {status}"
        )),
    }
}

/// The process at the end of a line of children.
fn descendant(process: u32) -> Option<u32> {
    let mut last = None;
    let mut parent = process;
    while let Some(child) = child_of(parent) {
        last = Some(child);
        parent = child;
    }
    last
}

fn child_of(parent: u32) -> Option<u32> {
    let entries = std::fs::read_dir("/proc").ok()?;
    let mut numbers = entries.filter_map(|entry| entry.ok()?.file_name().to_str()?.parse().ok());
    numbers.find(|number: &u32| {
        let text = std::fs::read_to_string(format!("/proc/{number}/stat")).unwrap_or_default();
        // The name, in brackets, may hold anything; the state and the parent follow it.
        let behind = text.rsplit_once(')').map_or("", |(_, behind)| behind);
        behind.split(' ').nth(2) == Some(&parent.to_string())
    })
}
