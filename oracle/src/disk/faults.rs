//! What goes wrong outside: the message, the exit code, and the file as it was.

use crate::disk::launch::{Launch, Wanted, Way};
use crate::disk::process::{Folder, Setup};
use crate::disk::program::*;
use crate::disk::trace::{folder_of, number_of};
use crate::disk::unfit::{medium, modelled, place};
use crate::disk::{locks, stores, unfit};
use crate::store::layout::*;
use std::ffi::OsStr;
use std::os::unix::ffi::OsStrExt;
use std::os::unix::fs::{symlink, MetadataExt, PermissionsExt};
use std::path::Path;
use std::process::Command;

pub struct Effort {
    /// Media that are cut, lengthened and damaged.
    pub damaged: u64,
    pub ways: Vec<Way>,
}

pub fn run(setup: &Setup, effort: &Effort) -> Result<String, String> {
    let mut cases = 0;
    for &way in &effort.ways {
        let mut launch = Launch::new(setup, way)?;
        let most = if way == Way::Launcher { u64::MAX } else { 5 };
        let count = all(&mut launch, effort.damaged.min(most));
        cases += count.map_err(|text| format!("{way:?}, {text}"))?;
    }
    let permissions = permissions(setup)?;
    let full = stores::full_disk(setup)?;
    let locked = locks::run(setup, &effort.ways)?;
    Ok(format!(
        "faults: {cases} refusals and failures (by the launcher as it is, in bash, in dash, and without it): \
         message, exit code, answers and the file's bytes as they must be; {permissions}; {full}; {locked}"
    ))
}

pub fn ways() -> Vec<Way> {
    let found = |shell: &str| {
        let tried = Command::new(shell).args(["-c", ":"]).status();
        tried.is_ok_and(|status| status.success())
    };
    let shells = ["bash", "dash"].into_iter().filter(|shell| found(shell));
    let mut ways: Vec<Way> = shells.map(Way::Shell).collect();
    ways.extend([Way::Launcher, Way::Alone]);
    ways
}

fn all(launch: &mut Launch, damaged: u64) -> Result<u64, String> {
    Ok(usage(launch)?
        + missing(launch)?
        + not_regular(launch)?
        + no_access(launch)?
        + lengths(launch)?
        + not_read(launch)?
        + names(launch)?
        + no_text(launch)?
        + unfit::files(launch, damaged)?
        + unfit::scripts(launch, 5 * damaged)?
        + stores::failing(launch)?)
}

fn usage(launch: &Launch) -> Result<u64, String> {
    let wrong: [&[&str]; 3] = [&[], &["one", "two"], &[""]];
    // Alone, a second word is the descriptor.
    let wrong = if launch.way == Way::Alone {
        &[][..]
    } else {
        &wrong[..]
    };
    for words in wrong {
        let words: Vec<&OsStr> = words.iter().map(OsStr::new).collect();
        let outcome = launch.run(&words, b"F 2 1\n")?;
        let lines = outcome.complaint.lines().count();
        let told = outcome.printed.is_empty() && (1..=10).contains(&lines);
        if outcome.code != USED_WRONG.into() || !told || !outcome.complaint.contains("striproom") {
            return Err(format!("arguments {words:?}: {outcome:?}"));
        }
    }
    Ok(wrong.len() as u64)
}

fn missing(launch: &Launch) -> Result<u64, String> {
    let path = launch.setup.memory.join("missing");
    let scripts = [
        "",
        "O 0\n",
        "O 0",
        "X\n",
        "Z 0 00\n",
        "what\n",
        "\n",
        "F 1 1\n",
        "F 2 65\nF 2 1\n",
        "F 2 1 \n",
        "F 2 1\n",
        "F 2 1",
        "F 2 1\nO 0\n",
        "F 2 1\nF 1 1\n",
        "F 2 1\nF 1 1\nF 3 1\n",
        "F 2 1\nF 1 1\nO 0\n",
    ];
    for script in scripts {
        place(&path, None)?;
        let wanted = modelled(None, script.as_bytes());
        let outcome = launch.run(&[path.as_os_str()], script.as_bytes())?;
        let compared = wanted.compare(&path, &outcome);
        compared.map_err(|text| format!("missing file, script {script:?}: {text}"))?;
    }
    place(&path, None)?;
    Ok(scripts.len() as u64)
}

fn refused(launch: &Launch, path: &Path, trouble: Trouble) -> Result<(), String> {
    let outcome = launch.run(&[path.as_os_str()], b"F 2 1\nO 0\n")?;
    let message = format!("striproom: {}: {}\n", path.display(), trouble.1);
    let as_wanted = outcome.code == trouble.0.into() && outcome.complaint == message;
    match as_wanted && outcome.printed.is_empty() && outcome.calls.is_empty() {
        true => Ok(()),
        false => Err(format!(
            "{}: expected {trouble:?}, got {outcome:?}",
            path.display()
        )),
    }
}

fn not_regular(launch: &Launch) -> Result<u64, String> {
    let folder = Folder::new(&launch.setup.disk.0)?;
    let (fifo, link) = (folder.join("fifo"), folder.join("link"));
    let made = Command::new("mkfifo").arg(&fifo).status();
    if !made.is_ok_and(|status| status.success()) {
        return Err("mkfifo failed".into());
    }
    symlink(&folder.0, &link).map_err(|error| error.to_string())?;
    let paths = [
        &folder.0,
        &fifo,
        &link,
        Path::new("/dev/null"),
        Path::new("/dev/full"),
    ];
    for path in paths {
        refused(launch, path, NOT_REGULAR)?;
    }
    Ok(paths.len() as u64)
}

/// The system refuses to open the file; and none can be made where there is no folder.
fn no_access(launch: &mut Launch) -> Result<u64, String> {
    let path = launch.setup.memory.join("closed");
    let bytes = medium(3).medium;
    for (file, fail) in [
        (Some(&bytes), "open 1 13"),
        (Some(&bytes), "open 1 30"),
        (None, "open 2 28"),
    ] {
        place(&path, file.map(|bytes| &bytes[..]))?;
        let wanted = Wanted {
            trouble: Some(NO_ACCESS),
            printed: Vec::new(),
            file: file.cloned(),
        };
        launch.fail = Some(fail.into());
        let done = launch.expect(&path, b"F 2 1\nO 0\n", &wanted);
        launch.fail = None;
        done.map_err(|text| format!("{fail}: {text}"))?;
    }
    place(&path, None)?;
    let nowhere = launch.setup.memory.join("no/room");
    let outcome = launch.run(&[nowhere.as_os_str()], b"F 2 1\n")?;
    let message = format!("striproom: {}: {}", nowhere.display(), NO_ACCESS.1);
    match outcome.code == NO_ACCESS.0.into() && outcome.complaint.starts_with(&message) {
        true => Ok(4),
        false => Err(format!("no folder: {outcome:?}")),
    }
}

fn lengths(launch: &Launch) -> Result<u64, String> {
    let path = launch.setup.memory.join("long");
    let longest = medium_of(MAX_LOG_BLOCKS, MAX_PAGES);
    for more in [1, 511, 512, 1 << 30] {
        place(&path, Some(&longest))?;
        let file = std::fs::OpenOptions::new().write(true).open(&path);
        let length = (longest.len() + more) as u64;
        let grown = file.and_then(|file| file.set_len(length));
        grown.map_err(|error| error.to_string())?;
        refused(launch, &path, TOO_LONG)
            .map_err(|text| format!("{more} bytes too long: {text}"))?;
        let after = std::fs::metadata(&path).map_err(|error| error.to_string())?;
        if after.len() != length {
            return Err(format!(
                "{more} bytes too long: the refusal changed the file"
            ));
        }
    }
    place(&path, Some(&longest))?;
    let script = b"O 0\n";
    launch.expect(&path, script, &modelled(Some(longest), script))?;
    place(&path, None)?;
    Ok(5)
}

fn medium_of(log_blocks: usize, pages: usize) -> Vec<u8> {
    let mut medium = vec![0; medium_bytes(log_blocks, pages)];
    medium[..BLOCK].copy_from_slice(&master((log_blocks, pages), 1, 1, 0));
    medium
}

fn not_read(launch: &mut Launch) -> Result<u64, String> {
    let path = launch.setup.memory.join("unread");
    let bytes = medium(4).medium;
    let fails = [
        "pread 1 5",
        "pread 1 short 0",
        "pread 1 short 512",
        "pread 1 short 3071",
    ];
    for fail in fails {
        place(&path, Some(&bytes))?;
        launch.fail = Some(fail.into());
        let done = refused(launch, &path, NOT_READ);
        launch.fail = None;
        done.map_err(|text| format!("{fail}: {text}"))?;
        if std::fs::read(&path).ok().as_ref() != Some(&bytes) {
            return Err(format!("{fail}: the refusal changed the file"));
        }
    }
    place(&path, None)?;
    Ok(fails.len() as u64)
}

/// Names with spaces and signs, from the folder that the file is in, and with folders before them.
fn names(launch: &Launch) -> Result<u64, String> {
    let folder = Folder::new(&launch.setup.disk.0)?;
    let inner = std::fs::create_dir(folder.join("inner"));
    inner.map_err(|error| error.to_string())?;
    let names = [
        "a room",
        "-n",
        "--help",
        "$HOME",
        "a'b\"c",
        "room.lock",
        "\u{e9}*",
        "./room",
        "inner/room",
        "inner//another",
        "inner/../one more",
    ];
    for name in names {
        let script = b"F 2 1\nO 0\nB 1\n";
        let mut command = launch.command(&[OsStr::new(name)]);
        command.current_dir(&folder.0);
        let outcome = launch.run_command(command, script)?;
        let wanted = modelled(None, script);
        let compared = wanted.compare(&folder.join(name), &outcome);
        compared.map_err(|text| format!("file name {name:?}: {text}"))?;
        let within = number_of(folder_of(&folder.join(name)));
        if outcome.folders != [within] {
            let stored = &outcome.folders;
            return Err(format!(
                "file name {name:?}: stores the folders {stored:?}, not {within}"
            ));
        }
    }
    Ok(names.len() as u64)
}

/// A name that is no UTF-8 text is no file's for the program: it makes none, and leaves one of that name alone.
fn no_text(launch: &Launch) -> Result<u64, String> {
    let folder = Folder::new(&launch.setup.disk.0)?;
    let path = folder.0.join(OsStr::from_bytes(b"room \xff"));
    refused(launch, &path, NO_ACCESS)?;
    if path.exists() {
        return Err("a name that is no text: a file was made".into());
    }
    let bytes = medium(5).medium;
    place(&path, Some(&bytes))?;
    refused(launch, &path, NO_ACCESS)?;
    match std::fs::read(&path).ok() == Some(bytes) {
        true => Ok(2),
        false => Err("a name that is no text: the refusal changed the file".into()),
    }
}

/// Modes of a file and its folder, as nobody.
fn permissions(setup: &Setup) -> Result<String, String> {
    let folder = Folder::new(&setup.disk.0)?;
    let mut launch = Launch::new(setup, Way::Launcher)?;
    let mode = |path: &Path, mode: u32| {
        let set = std::fs::set_permissions(path, PermissionsExt::from_mode(mode));
        set.map_err(|error| format!("{}: {error}", path.display()))
    };
    mode(&folder.0, 0o777)?;
    launch.nobody = is_root(&folder.0);
    let bytes = medium(5).medium;
    let path = folder.join("room");
    place(&path, Some(&bytes))?;
    mode(&path, 0o666)?;
    let script = b"O 0\n";
    let wanted = modelled(Some(bytes.clone()), script);
    if launch.expect(&path, script, &wanted).is_err() {
        return Ok("permissions not tried, for nobody can start the program".into());
    }
    for bits in [0o000, 0o222, 0o444] {
        mode(&path, bits)?;
        refused(&launch, &path, NO_ACCESS).map_err(|text| format!("mode {bits:o}: {text}"))?;
        mode(&path, 0o666)?;
        if std::fs::read(&path).ok().as_ref() != Some(&bytes) {
            return Err(format!("mode {bits:o}: the refusal changed the file"));
        }
    }
    let new = folder.join("new");
    mode(&folder.0, 0o555)?;
    let outcome = launch.run(&[new.as_os_str()], b"F 2 1\n")?;
    mode(&folder.0, 0o777)?;
    if outcome.code != NO_ACCESS.0.into() || new.exists() {
        return Err(format!("a folder that may not be written: {outcome:?}"));
    }
    // The system does not say that a new name is stored in a folder that may not be read.
    mode(&folder.0, 0o333)?;
    let wanted = Wanted {
        trouble: Some(NOT_STORED),
        printed: Vec::new(),
        file: Some(Vec::new()),
    };
    let done = launch.expect(&new, b"F 2 1\nO 0\n", &wanted);
    mode(&folder.0, 0o777)?;
    done.map_err(|text| format!("a folder that may not be read: {text}"))?;
    Ok("5 without permission".into())
}

pub fn is_root(own: &Path) -> bool {
    std::fs::metadata(own).is_ok_and(|about| about.uid() == 0)
}
