//! Stores that fail: by injected errors, on a disk that is full, and answers that cannot be written.

use crate::disk::faults::is_root;
use crate::disk::launch::{Launch, Wanted, Way};
use crate::disk::process::Setup;
use crate::disk::program::*;
use crate::disk::room::{Change, Room, Turn};
use crate::disk::session::difference;
use crate::disk::unfit::{medium, modelled, place};
use crate::history::scripts::{script_from, Options};
use crate::random::Random;
use crate::script::machine::Machine;
use crate::script::words::lines;
use crate::store::layout::*;
use std::path::{Path, PathBuf};
use std::process::Command;

/// A line that stores a block: the answers before it, and the file before and after.
struct Store {
    printed: Vec<u8>,
    before: Vec<u8>,
    after: Vec<u8>,
    at: usize,
}

/// Each way in which a write or a sync may fail.
const FAILURES: [&str; 13] = [
    "pwrite 28",
    "pwrite 5",
    "pwrite 122",
    "pwrite 27",
    "pwrite short 0",
    "pwrite short 1",
    "pwrite short 100",
    "pwrite short 256",
    "pwrite short 511",
    "fdatasync 5",
    "fdatasync 28",
    "fdatasync 122",
    "fdatasync 9",
];

pub fn failing(launch: &mut Launch) -> Result<u64, String> {
    let mut cases = 0;
    for (number, failure) in FAILURES.iter().enumerate() {
        let (file, text, stores) = stores_of(number as u64);
        let random = &mut Random::new(number as u64);
        for _ in 0..3 {
            let n = random.below(stores.len() as u64) as usize;
            let (name, how) = failure.split_once(' ').unwrap_or((failure, ""));
            let call = format!("{name} {} {how}", n + 1);
            let done = fails(launch, &call, &file, &text, &stores[n]);
            done.map_err(|complaint| format!("{call}: {complaint}"))?;
            cases += 1;
        }
    }
    for existing in [false, true] {
        cases += failing_format(launch, existing)?;
    }
    output_full(launch)?;
    Ok(cases + 1)
}

/// A file, a script that only stores blocks, and its stores.
fn stores_of(seed: u64) -> (Vec<u8>, Vec<u8>, Vec<Store>) {
    for seed in (0..).map(|more| seed + 100 * more) {
        let file = medium(seed).medium;
        let machine = Machine::loaded(file.clone());
        let text = script_from(machine, &Options::plain(seed, 60));
        let stores = list_stores(&file, &text);
        if stores.len() > 2 && !text.contains(&b'F') {
            return (file, text, stores);
        }
    }
    unreachable!("some seed stores blocks")
}

fn list_stores(file: &[u8], text: &[u8]) -> Vec<Store> {
    let mut room = Room::load(Some(file.to_vec()));
    let (mut stores, mut printed) = (Vec::new(), Vec::new());
    for line in lines(text) {
        let (before, answers) = (room.file.clone(), printed.clone());
        if let Turn::Played(Change::Part { at, .. }) = room.play(line, &mut printed) {
            stores.push(Store {
                printed: answers,
                before: before.unwrap_or_default(),
                after: room.file.clone().unwrap_or_default(),
                at,
            });
        }
    }
    stores
}

/// The file where a call fails: as before it, or with the first bytes of the write.
fn left(call: &str, before: &[u8], after: &[u8], at: usize) -> Vec<u8> {
    let words: Vec<&str> = call.split(' ').collect();
    let mut left = before.to_vec();
    match words[..] {
        ["fdatasync", ..] => left = after.to_vec(),
        [_, _, "short", count] => {
            let end = at + count.parse::<usize>().unwrap_or(0);
            left.resize(left.len().max(end), 0);
            left[at..end].copy_from_slice(&after[at..end]);
        }
        _ => {}
    }
    left
}

fn trouble(call: &str) -> Trouble {
    match call.split(' ').next() {
        Some("fsync" | "fdatasync") => NOT_STORED,
        _ => NOT_WRITTEN,
    }
}

fn fails(
    launch: &mut Launch,
    call: &str,
    file: &[u8],
    text: &[u8],
    store: &Store,
) -> Result<(), String> {
    let path = launch.setup.memory.join("failing");
    place(&path, Some(file))?;
    let file = left(call, &store.before, &store.after, store.at);
    let wanted = Wanted {
        trouble: Some(trouble(call)),
        printed: store.printed.clone(),
        file: Some(file.clone()),
    };
    stopped(launch, &path, call, text, &wanted)?;
    opens_next(launch, &path, file)
}

/// The run stops at the call that failed, without an answer or a further call.
fn stopped(
    launch: &mut Launch,
    path: &Path,
    call: &str,
    text: &[u8],
    wanted: &Wanted,
) -> Result<(), String> {
    launch.fail = Some(call.into());
    let outcome = launch.expect(path, text, wanted);
    launch.fail = None;
    let calls = outcome?.calls;
    let mut words = call.split(' ');
    let name = words.next().unwrap_or_default();
    let number = words.next().and_then(|word| word.parse().ok());
    let made = calls.iter().filter(|made| *made == name).count();
    if calls.last().map(String::as_str) != Some(name) || Some(made) != number {
        let last = &calls[calls.len().saturating_sub(5)..];
        return Err(format!("does not stop there but calls .. {last:?}"));
    }
    Ok(())
}

/// The next opening finds what is stored.
fn opens_next(launch: &Launch, path: &Path, file: Vec<u8>) -> Result<(), String> {
    let script = b"O 0\nQ 1 1\n";
    let next = launch.expect(path, script, &modelled(Some(file), script));
    next.map_err(|text| format!("the next opening: {text}"))?;
    place(path, None)
}

/// Each call of a format fails, on a missing file and on one with a history.
fn failing_format(launch: &mut Launch, existing: bool) -> Result<u64, String> {
    let path = launch.setup.memory.join("failing");
    let old = existing.then(|| medium(6).medium);
    let script = b"F 2 9\nO 0\nB 1\n";
    let new = modelled(None, b"F 2 9\n").file.unwrap_or_default();
    let mut zeroed = old.clone().unwrap_or_default();
    zeroed.resize(zeroed.len().max(BLOCK), 0);
    zeroed[..BLOCK].fill(0);
    let mut resized = zeroed.clone();
    resized.resize(new.len(), 0);
    let mut emptied = new.clone();
    emptied[..BLOCK].fill(0);
    let old_bytes = old.clone().unwrap_or_default();
    let steps = [
        ("fsync 1 5", 0, &old_bytes, &old_bytes),
        ("pwrite 1 28", 0, &old_bytes, &zeroed),
        ("pwrite 1 short 100", 0, &old_bytes, &zeroed),
        ("ftruncate 1 28", 0, &zeroed, &resized),
        ("ftruncate 1 27", 0, &zeroed, &resized),
        ("fdatasync 1 5", 0, &zeroed, &resized),
        ("pwrite 2 28", BLOCK, &resized, &emptied),
        ("pwrite 2 short 1000", BLOCK, &resized, &emptied),
        ("fdatasync 2 28", 0, &resized, &emptied),
        ("pwrite 3 5", 0, &emptied, &new),
        ("pwrite 3 short 20", 0, &emptied, &new),
        ("fdatasync 3 5", 0, &emptied, &new),
    ];
    for (call, at, before, after) in steps {
        place(&path, old.as_deref())?;
        let file = left(call, before, after, at);
        let wanted = Wanted {
            trouble: Some(trouble(call)),
            printed: Vec::new(),
            file: Some(file.clone()),
        };
        let name = |text| format!("format, existing file: {existing}, {call}: {text}");
        stopped(launch, &path, call, script, &wanted).map_err(name)?;
        opens_next(launch, &path, file).map_err(name)?;
    }
    Ok(steps.len() as u64)
}

/// An answer that cannot be written out: no further line is played.
fn output_full(launch: &Launch) -> Result<(), String> {
    let path = launch.setup.memory.join("unheard");
    place(&path, None)?;
    let text = "F 2 1\nO 0\nB 1\nW 1 1 00112233445566778899aabbccddeeff\nC 1 5\nS\nK\n";
    let inner = launch.command(&[path.as_os_str()]);
    let mut command = Command::new("sh");
    command.args(["-c", "\"$@\" >/dev/full", "sh"]);
    command.arg(inner.get_program()).args(inner.get_args());
    for (name, value) in inner.get_envs() {
        match value {
            Some(value) => command.env(name, value),
            None => command.env_remove(name),
        };
    }
    launch.run_command(command, text.as_bytes())?;
    let wanted = modelled(None, b"F 2 1\n").file;
    let found = std::fs::read(&path).ok();
    let differs = difference(wanted.as_deref(), found.as_deref());
    place(&path, None)?;
    let complaint = |text| {
        Err(format!(
            "played on though no answer could be written: {text}"
        ))
    };
    differs.map_or(Ok(()), complaint)
}

/// A mounted folder, unmounted in the end.
struct Mounted(PathBuf);

impl Drop for Mounted {
    fn drop(&mut self) {
        let _ = Command::new("umount").arg(&self.0).status();
    }
}

/// A real disk of 32 KB.
pub fn full_disk(setup: &Setup) -> Result<String, String> {
    let folder = setup.disk.join("small");
    std::fs::create_dir_all(&folder).map_err(|error| error.to_string())?;
    let mut mount = Command::new("mount");
    mount.args(["-t", "tmpfs", "-o", "size=32k", "tmpfs"]);
    let mounted = is_root(&folder) && {
        let tried = mount.arg(&folder).output();
        tried.is_ok_and(|output| output.status.success())
    };
    if !mounted {
        return Ok("no disk to fill (mount is not allowed)".into());
    }
    let mounted = Mounted(folder);
    let launch = Launch::new(setup, Way::Launcher)?;
    fill(&launch, &mounted.0).map_err(|text| format!("full disk: {text}"))?;
    Ok("3 on a full disk".into())
}

fn fill(launch: &Launch, folder: &Path) -> Result<(), String> {
    let path = folder.join("room");
    let unwritten = |bytes: usize| Wanted {
        trouble: Some(NOT_WRITTEN),
        printed: Vec::new(),
        file: Some(vec![0; bytes]),
    };
    // It does not fit: the first block of zeros and the length are there, and no opening accepts them.
    launch.expect(&path, b"F 32 64\nO 0\n", &unwritten(MAX_MEDIUM))?;
    let opening = modelled(Some(vec![0; MAX_MEDIUM]), b"O 0\n");
    launch.expect(&path, b"O 0\n", &opening)?;
    // One that fits; a disk that others fill takes its stores all the same.
    let text = b"F 2 9\nO 0\nB 1\nW 1 1 00112233445566778899aabbccddeeff\nC 1 5\nS\nP 0\nK\nK\nK\n";
    launch.expect(&path, b"F 2 9\n", &modelled(None, b"F 2 9\n"))?;
    let mut filler = Vec::new();
    while std::fs::write(folder.join("filler"), &filler).is_ok() {
        filler.resize(filler.len() + 4096, 1);
    }
    launch.expect(&path, text, &modelled(None, text))?;
    // No room for a first block.
    launch.expect(&folder.join("another"), b"F 2 1\n", &unwritten(0))?;
    Ok(())
}
