//! The tests on wrong programs and wrong launchers: a test that cannot fail is none.

use crate::disk::command::setup;
use crate::disk::faults;
use crate::disk::kill;
use crate::disk::launch::{write_script, Way};
use crate::disk::old;
use crate::disk::process::{Folder, Setup};
use crate::disk::program::STORES;
use crate::disk::same;
use crate::disk::spoilt::ALL;
use std::path::{Path, PathBuf};
use std::time::Duration;

/// Short, for some wrong programs never answer.
const PATIENCE: Duration = Duration::from_secs(4);

/// Edits of the launcher: a name, what it says, what it says instead.
const LAUNCHERS: [(&str, &str, &str); 6] = [
    ("no lock", "! flock -n 9", "false"),
    ("a lock by the given name", "readlink -f --", "echo"),
    ("a lock that the program lacks", "7>&-)", "7>&- 9>&-)"),
    ("a lock that empties a file", "9>>", "9>"),
    ("no exit code", "exit \"${code:-0}\"", "exit 0"),
    ("no end by a signal", "|| exit \"$ended\"", "|| exit 1"),
];

/// Wrong programs that the kills must find by themselves.
const BY_KILL: [&str; 6] = [
    "answer-first",
    "late-write",
    "half-block",
    "two-halves",
    "first-block-first",
    "no-zeros",
];

/// A test with little effort.
type Test = (&'static str, fn(&Setup, &Path) -> Result<String, String>);

const SAME: Test = ("same", |setup, _| {
    let effort = same::Effort {
        seeds: 15,
        calls: 60,
        damaged: 1,
        damaged_calls: 15,
        restarts: 6,
        odd: 30,
    };
    same::run(std::slice::from_ref(setup), &effort)
});

const FAULTS: Test = ("faults", |setup, _| {
    let effort = faults::Effort {
        damaged: 1,
        ways: vec![Way::Launcher],
    };
    faults::run(setup, &effort)
});

const KILL: Test = ("kill", |setup, _| {
    let effort = kill::Effort {
        random: 3,
        exact: 10,
    };
    kill::run(setup, &effort)
});

const MEDIA: Test = ("media", |setup, folder| {
    let effort = old::Effort {
        seeds: 1,
        each: 2,
        calls: 30,
    };
    old::run(setup, folder, &effort)
});

/// Wrong stores that no new medium shows, so that the old ones must.
const BY_MEDIA: [&str; 2] = ["tag-one-refused", "kind-as-high"];

/// Which test finds the fault, and what it says.
fn found(setup: &Setup, media: &Path, tests: &[Test]) -> Option<(&'static str, String)> {
    let mut results = tests.iter().map(|(test, run)| (*test, run(setup, media)));
    results.find_map(|(test, result)| Some((test, result.err()?)))
}

/// All wrong programs and launchers, or those of one name.
pub fn run(launcher: &Path, media: &Path, only: Option<&str>) -> Result<String, String> {
    let folder = Folder::new(&std::env::temp_dir())?;
    let sound = stand_in(&folder, "sound", "")?;
    let all = [SAME, FAULTS, KILL, MEDIA];
    if let Some((test, text)) = found(&setup(&sound, launcher, PATIENCE * 4)?, media, &all) {
        return Err(format!("the sound stand-in fails {test}: {text}"));
    }
    let wanted = |name: &str| only.is_none_or(|only| only == name);
    let (mut counts, mut said) = ([0; 4], String::new());
    let mut count = |name: &str, setup: &Setup, tests: &[Test]| {
        let found = found(setup, media, tests).ok_or_else(|| format!("no test finds: {name}"))?;
        for (count, (test, _)) in counts.iter_mut().zip(all) {
            *count += u64::from(test == found.0);
        }
        if only.is_some() {
            said += &format!("{name}: {}: {}\n", found.0, found.1);
        }
        Ok::<(), String>(())
    };
    for (_, name) in ALL.iter().filter(|(_, name)| wanted(name)) {
        let program = stand_in(&folder, name, &format!("--spoilt {name}"))?;
        let tests = if BY_KILL.contains(name) {
            &all[2..3]
        } else {
            &all[..3]
        };
        count(name, &setup(&program, launcher, PATIENCE)?, tests)?;
    }
    for (name, _) in STORES.iter().filter(|(name, _)| wanted(name)) {
        let program = stand_in(&folder, name, &format!("--spoilt {name}"))?;
        let setup = setup(&program, launcher, PATIENCE)?;
        count(name, &setup, &[MEDIA])?;
        if !BY_MEDIA.contains(name) && found(&setup, media, &[SAME]).is_none() {
            return Err(format!("same does not find: {name}"));
        }
    }
    for (name, old, new) in LAUNCHERS.iter().filter(|(name, ..)| wanted(name)) {
        let wrong = edited(&folder, launcher, old, new)?;
        count(name, &setup(&sound, &wrong, PATIENCE)?, &[FAULTS])?;
    }
    let _ = std::fs::remove_file(same::saved());
    let [same, faults, kill, media] = counts;
    if counts == [0; 4] {
        return Err("there is none of that name".into());
    }
    Ok(format!(
        "{said}spoilt: {} wrong programs and launchers, each found out ({same} by same, {faults} by faults, {kill} by kill, \
         {media} by media)",
        counts.iter().sum::<u64>()
    ))
}

/// The stand-in as a program of its own.
fn stand_in(folder: &Folder, name: &str, options: &str) -> Result<PathBuf, String> {
    let own = std::env::current_exe().map_err(|error| error.to_string())?;
    let path = folder.join(name);
    let text = format!(
        "#!/bin/sh\nexec '{}' striproom {options} \"$@\"\n",
        own.display()
    );
    write_script(&path, &text)?;
    Ok(path)
}

fn edited(folder: &Folder, launcher: &Path, old: &str, new: &str) -> Result<PathBuf, String> {
    let text = std::fs::read_to_string(launcher).map_err(|error| error.to_string())?;
    if !text.contains(old) {
        return Err(format!("the launcher has no {old:?} to edit"));
    }
    let path = folder.join("launcher");
    write_script(&path, &text.replace(old, new))?;
    Ok(path)
}
