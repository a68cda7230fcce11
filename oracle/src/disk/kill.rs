//! Ended by SIGKILL at any moment, and exactly at a call: nothing that was answered is lost.

use crate::disk::handed;
use crate::disk::process::{Process, Setup};
use crate::disk::room::{Change, Room, Turn};
use crate::disk::same::save;
use crate::disk::session::{difference, shown};
use crate::disk::verdict::{Allowed, Chain, Fate};
use crate::history::profiles::by_seed;
use crate::history::scripts::{script_from, Options};
use crate::random::Random;
use crate::script::machine::Machine;
use crate::script::words::lines;
use std::path::Path;
use std::time::{Duration, Instant};

/// Kills of one file, one after another, before the next file.
const ROUNDS: u64 = 10;

pub struct Effort {
    pub random: u64,
    pub exact: u64,
}

#[derive(Default)]
struct Tally {
    random: u64,
    between: u64,
    before: u64,
    formats: u64,
    inside_checkpoint: u64,
    /// While a flight was handed over, at a random moment or a store's call, and in `handed`.
    in_handover: u64,
    handovers: u64,
    done: u64,
    not_done: u64,
    versions: u64,
    answers: u64,
}

/// When the process is ended.
pub enum Moment {
    /// So long after so many bytes of answers.
    After(usize, Duration),
    /// As the preloaded library is told, and what that allows.
    At(String, Allowed),
}

pub fn run(setup: &Setup, effort: &Effort) -> Result<String, String> {
    let mut tally = Tally::default();
    let mut seed = 0;
    while tally.random < effort.random {
        chain(setup, seed, false, &mut tally)?;
        seed += 1;
    }
    while tally.between < effort.exact {
        chain(setup, seed, true, &mut tally)?;
        seed += 1;
    }
    for existing in [false, true] {
        formats(setup, existing, &mut tally)?;
    }
    tally.handovers = handed::run(setup)?;
    Ok(format!(
        "kill: {} runs ended at a random moment (the call under way {} times done, {} times not, else without \
         a store), {} between the pwrite and the answer, {} before a pwrite, {} at a call of a format; \
         {} of all inside a checkpoint, {} while a flight was handed over, and {} more at a call of a handover or \
         of the store behind it; never half, {} stored versions found again and {} answers given \
         again, nothing lost",
        tally.random,
        tally.done,
        tally.not_done,
        tally.between,
        tally.before,
        tally.formats,
        tally.inside_checkpoint,
        tally.in_handover,
        tally.handovers,
        tally.versions,
        tally.answers
    ))
}

/// One file through some kills, each followed by a new process that looks at what is left.
fn chain(setup: &Setup, seed: u64, exact: bool, tally: &mut Tally) -> Result<(), String> {
    let random = &mut Random::new(seed ^ 0x5119);
    // On a disk most moments lie within a sync, in memory most lie elsewhere.
    let on_disk = seed % 3 == 0;
    let folder = if on_disk { &setup.disk } else { &setup.memory };
    let path = folder.join("room");
    let _ = std::fs::remove_file(&path);
    let mut chain = Chain::default();
    for round in 0..ROUNDS {
        let calls = if on_disk { 60 } else { 250 };
        let options = Options {
            profile: by_seed(seed),
            ..Options::plain(seed * ROUNDS + round, calls)
        };
        let machine = Machine::loaded(chain.file.clone().unwrap_or_default());
        let text = script_from(machine, &options);
        let moment = match exact {
            true => exact_moment(&chain.file, &text, random),
            false => Some(random_moment(&chain.file, &text, on_disk, random)),
        };
        let Some(moment) = moment else { continue };
        let fate = round_of(setup, &path, &mut chain, &text, &moment, random, tally);
        let fate = fate.map_err(|complaint| {
            let saved = save(&text);
            format!("seed {seed}, kill {round}, {moment}, {saved}: {complaint}")
        })?;
        if fate == Fate::Unopenable {
            break;
        }
    }
    tally.answers += chain.asked_again;
    Ok(())
}

impl std::fmt::Display for Moment {
    fn fmt(&self, f: &mut std::fmt::Formatter) -> std::fmt::Result {
        match self {
            Moment::After(bytes, time) => write!(f, "{time:?} after {bytes} bytes of answers"),
            Moment::At(call, _) => f.write_str(call),
        }
    }
}

/// Any moment, more often one near a line that stores.
fn random_moment(
    file: &Option<Vec<u8>>,
    text: &[u8],
    on_disk: bool,
    random: &mut Random,
) -> Moment {
    let mut room = Room::load(file.clone());
    let (mut answers, mut stores) = (Vec::new(), Vec::new());
    for line in lines(text) {
        let begin = answers.len();
        let turn = room.play(line, &mut answers);
        if !matches!(turn, Turn::Played(Change::Nothing)) {
            stores.push(begin);
        }
    }
    let anywhere = random.below(answers.len() as u64) as usize;
    let bytes = match random.pick(&stores) {
        Some(&store) if random.percent(60) => store,
        _ => anywhere,
    };
    let longest = if on_disk { 5_000 } else { 120 };
    Moment::After(bytes, Duration::from_micros(random.below(longest)))
}

/// A moment at a call that stores a block, if the script has one.
fn exact_moment(file: &Option<Vec<u8>>, text: &[u8], random: &mut Random) -> Option<Moment> {
    let mut room = Room::load(file.clone());
    let (mut stores, mut changing) = (0, Vec::new());
    for (number, line) in lines(text).enumerate() {
        match room.play(line, &mut Vec::new()) {
            Turn::Played(Change::Part { .. }) => stores += 1,
            Turn::Played(Change::Whole { .. }) => stores += 3,
            _ => continue,
        }
        changing.push(number as u64 + 1);
    }
    let answer = *random.pick(&changing)?;
    let store = 1 + random.below(stores);
    let (call, allowed) = match random.below(6) {
        0 => (format!("before pwrite {store}"), Allowed::NotDone),
        1 => (format!("after pwrite {store}"), Allowed::Done),
        2 => (format!("before fdatasync {store}"), Allowed::Done),
        3 => (format!("after fdatasync {store}"), Allowed::Done),
        _ => (format!("before write {answer}"), Allowed::Done),
    };
    Some(Moment::At(call, allowed))
}

/// Runs the script until the kill, judges the file, and asks a new process what it finds.
fn round_of(
    setup: &Setup,
    path: &Path,
    chain: &mut Chain,
    text: &[u8],
    moment: &Moment,
    random: &mut Random,
    tally: &mut Tally,
) -> Result<Fate, String> {
    let printed = run_until(setup, path, text, moment)?;
    let lines: Vec<&[u8]> = lines(text).collect();
    let allowed = match moment {
        Moment::After(..) => Allowed::Either,
        Moment::At(_, allowed) => *allowed,
    };
    let fate = chain.killed(&lines, &printed, std::fs::read(path).ok(), allowed)?;
    tally.inside_checkpoint += u64::from(chain.inside_checkpoint() && fate != Fate::Idle);
    tally.in_handover += u64::from(chain.in_handover);
    match (moment, fate) {
        (_, Fate::Idle) => {}
        (Moment::After(..), _) => {
            tally.random += 1;
            tally.done += u64::from(fate == Fate::Done);
            tally.not_done += u64::from(fate == Fate::NotDone);
        }
        (_, Fate::Unopenable) => tally.formats += 1,
        (_, Fate::NotDone) => tally.before += 1,
        (_, Fate::Done) => tally.between += 1,
        (_, Fate::Unchanging) => {}
    }
    if fate == Fate::Unopenable || chain.file.is_none() {
        refuses(setup, path)?;
    } else {
        finds(setup, path, chain, random)?;
        tally.versions += chain.versions();
    }
    Ok(fate)
}

pub fn run_until(
    setup: &Setup,
    path: &Path,
    text: &[u8],
    moment: &Moment,
) -> Result<Vec<u8>, String> {
    let mut command = setup.program(path);
    if let Moment::At(call, _) = moment {
        command.env("DISK_KILL", call);
    }
    let mut process = setup.start(command)?;
    process.send(text);
    let mut printed = Vec::new();
    if let Moment::After(bytes, wait) = moment {
        process.receive(&mut printed, *bytes);
        let start = Instant::now();
        while start.elapsed() < *wait {
            std::hint::spin_loop();
        }
        process.kill();
    }
    process.receive(&mut printed, usize::MAX);
    killed(&mut process).map(|()| printed)
}

fn killed(process: &mut Process) -> Result<(), String> {
    use std::os::unix::process::ExitStatusExt;
    process.close();
    let status = process.wait()?;
    match status.signal() {
        Some(9) => Ok(()),
        _ => Err(format!("was not killed but ended, {status}")),
    }
}

/// A new process finds what the book says, and leaves the file alone.
pub fn finds(
    setup: &Setup,
    path: &Path,
    chain: &mut Chain,
    random: &mut Random,
) -> Result<(), String> {
    let (text, wanted) = chain.questions(random)?;
    let got = ask(setup, path, &text)?;
    if got != wanted {
        let pairs = wanted
            .split(|&b| b == b'\n')
            .zip(got.split(|&b| b == b'\n'));
        let differ = pairs.into_iter().find(|(wanted, got)| wanted != got);
        let (wanted, got) = differ.unwrap_or((&wanted, &got));
        return Err(format!(
            "a new process answers {}, the book {}",
            shown(got),
            shown(wanted)
        ));
    }
    let found = std::fs::read(path).ok();
    difference(chain.file.as_deref(), found.as_deref()).map_or(Ok(()), Err)
}

fn refuses(setup: &Setup, path: &Path) -> Result<(), String> {
    let got = ask(setup, path, b"O 0\n")?;
    let missing = !path.exists() && got.is_empty();
    match missing || got == b"O 1 -\n" || got == b"O 3 -\n" {
        true => Ok(()),
        false => Err(format!("an opening answers {}", shown(&got))),
    }
}

pub fn ask(setup: &Setup, path: &Path, text: &[u8]) -> Result<Vec<u8>, String> {
    let mut process = setup.start(setup.program(path))?;
    let mut got = Vec::new();
    process.send(text);
    process.close();
    process.receive(&mut got, usize::MAX);
    process.wait()?;
    Ok(got)
}

/// Each call of a format, on a missing file and on one with a history.
fn formats(setup: &Setup, existing: bool, tally: &mut Tally) -> Result<(), String> {
    let calls = [
        ("fsync", 1),
        ("pwrite", 3),
        ("fdatasync", 3),
        ("ftruncate", 1),
        ("write", 1),
    ];
    for (name, count) in calls {
        for number in 1..=count {
            for when in ["before", "after"] {
                let call = format!("{when} {name} {number}");
                format_at(setup, existing, &call, tally)
                    .map_err(|text| format!("format, existing file: {existing}, {call}: {text}"))?;
            }
        }
    }
    Ok(())
}

fn format_at(setup: &Setup, existing: bool, call: &str, tally: &mut Tally) -> Result<(), String> {
    let path = setup.disk.join("formatted");
    let _ = std::fs::remove_file(&path);
    let mut chain = Chain::default();
    let random = &mut Random::new(1);
    if existing {
        let text = b"F 3 4\nO 0\nB 1\nW 1 7 00112233445566778899aabbccddeeff\nC 1 5\nS\n";
        let got = ask(setup, &path, text)?;
        let lines: Vec<&[u8]> = lines(text).collect();
        chain.killed(&lines, &got, std::fs::read(&path).ok(), Allowed::Either)?;
        finds(setup, &path, &mut chain, random)?;
    }
    let moment = Moment::At(call.to_string(), Allowed::Either);
    let text = b"F 2 9\nO 0\n";
    let printed = run_until(setup, &path, text, &moment)?;
    let lines: Vec<&[u8]> = lines(text).collect();
    let fate = chain.killed(&lines, &printed, std::fs::read(&path).ok(), Allowed::Either)?;
    let wanted = match call {
        "before fsync 1" | "after fsync 1" | "before pwrite 1" => {
            vec![Fate::NotDone, Fate::Unopenable]
        }
        "after pwrite 3" => vec![Fate::Done, Fate::Unopenable],
        "before fdatasync 3" | "after fdatasync 3" | "before write 1" => vec![Fate::Done],
        "after write 1" => vec![Fate::Unchanging],
        _ => vec![Fate::Unopenable],
    };
    if !wanted.contains(&fate) {
        return Err(format!("{fate:?}, not {:?}", wanted[0]));
    }
    tally.formats += 1;
    match fate {
        Fate::Unopenable => refuses(setup, &path),
        _ if chain.file.is_none() => refuses(setup, &path),
        _ => finds(setup, &path, &mut chain, random),
    }
}
