//! The oracle's commands.

use oracle::bench::commits::{self, Way};
use oracle::bench::{self, filler, growth, sql, turns};
use oracle::damage::{self, Tally};
use oracle::disk::{command, program};
use oracle::fuzz::{self, Reached};
use oracle::history::profiles::{self, Profile, FULL, PROFILES};
use oracle::history::scripts::{self, Options};
use oracle::judge::Strictness;
use oracle::relief::freed::{self, WayOut};
use oracle::relief::{room, rooms, same};
use oracle::script::stripbook;
use oracle::store::layout::{MAX_LOG_BLOCKS, MAX_PAGES, MAX_SLOTS};
use oracle::store::rules::Sound;
use oracle::{media, script, shorten};
use std::io::{Read, Write};
use std::path::Path;
use std::process::ExitCode;

const USAGE: &str = "\
oracle run                     runs a script from standard input and prints what it answers
oracle stripbook               the same for the stripbook language
oracle expect [--stripbook]    the output that a script must print
oracle script --seed S --calls N [--profile NAME] [--no-checkpoint] [--plain]
oracle script --stripbook --seed S --calls N [--bad-end]
oracle script --rooms --seed S --calls N
oracle script --commits N      N rooms filled by commits that are each stored at once
oracle script --growth LETTER --log L --pages D --chain C --calls N
oracle sql [--told]            a script's history as SQL for the shell of SQLite
oracle sql --update|--insert LEVEL    its commits, a transaction each, with this synchronous
oracle turns FOLDER ROOMS PROGRAM..    commits on a disk, by striproom and SQLite in turns
oracle fuzz --seeds A-B [--calls N] [--profile NAME]
oracle damage --seeds A-B
oracle relief --seeds A-B [--calls N] [--profile NAME]    ways out of a full log
oracle relief rooms --seeds A-B    rooms for the program relief
oracle relief expect           what it must print for the rooms of standard input
oracle relief same PROGRAM --seeds A-B    compares the program with that
oracle shorten                 what the program shorten must print for a script
oracle shorten same PROGRAM --seeds A-B    compares the program with that
oracle striproom [--spoilt NAME] FILE [FD]    the stand-in for striproom
oracle disk same|kill|faults PROGRAM LAUNCHER    tests of striproom
oracle disk media|spoilt PROGRAM LAUNCHER FOLDER    the same with the folder of old media
oracle media slots FILE        what an opening finds in the medium's slots
oracle media probe FILE        a script that opens and reads it
oracle profiles                lists the profiles, by the seeds that take them";

struct Arguments(Vec<String>);

impl Arguments {
    fn has(&self, option: &str) -> bool {
        self.0.iter().any(|word| word == option)
    }

    fn value(&self, option: &str) -> Option<&str> {
        let at = self.0.iter().position(|word| word == option)?;
        self.0.get(at + 1).map(String::as_str)
    }

    fn number(&self, option: &str, default: Option<u64>) -> Result<u64, String> {
        match self.value(option) {
            Some(word) => word.parse().map_err(|_| format!("{option}: {word}?")),
            None => default.ok_or(format!("{option} is missing")),
        }
    }

    fn seeds(&self) -> Result<std::ops::RangeInclusive<u64>, String> {
        let word = self.value("--seeds").ok_or("--seeds is missing")?;
        let (first, last) = word.split_once('-').unwrap_or((word, word));
        match (first.parse(), last.parse()) {
            (Ok(first), Ok(last)) => Ok(first..=last),
            _ => Err(format!("--seeds: {word}?")),
        }
    }

    fn profile(&self, seed: u64) -> Result<&'static Profile, String> {
        match self.value("--profile") {
            // Damage is done to histories of every profile.
            None | Some("damage") => Ok(profiles::by_seed(seed)),
            Some(name) => profiles::by_name(name).ok_or(format!("no profile {name}")),
        }
    }
}

fn main() -> ExitCode {
    // a word that is no text has the replacement character in it
    let words = std::env::args_os().skip(1);
    let mut words = words.map(|word| word.to_string_lossy().into_owned());
    let command = words.next().unwrap_or_default();
    let arguments = Arguments(words.collect());
    if command == "striproom" {
        return ExitCode::from(program::run(&arguments.0));
    }
    let done = match command.as_str() {
        "run" => run(script::run),
        "stripbook" => run(stripbook::run),
        "expect" if arguments.has("--stripbook") => run(stripbook::run),
        "expect" => run(script::run),
        "sql" => run_sql(&arguments),
        "turns" => run_turns(&arguments.0),
        "script" => write_script(&arguments),
        "fuzz" => run_fuzz(&arguments),
        "damage" => run_damage(&arguments),
        "relief" => run_relief(&arguments),
        "shorten" => run_shorten(&arguments),
        "disk" => command::run(&arguments.0).and_then(|text| print(format!("{text}\n").as_bytes())),
        "media" => run_media(&arguments.0),
        "profiles" => list_profiles(),
        _ => Err(USAGE.into()),
    };
    match done {
        Ok(()) => ExitCode::SUCCESS,
        Err(text) => {
            eprintln!("{text}");
            ExitCode::FAILURE
        }
    }
}

fn print(bytes: &[u8]) -> Result<(), String> {
    let written = std::io::stdout().write_all(bytes);
    written.map_err(|error| error.to_string())
}

fn run(language: impl Fn(&[u8], &mut Vec<u8>)) -> Result<(), String> {
    let (mut text, mut out) = (Vec::new(), Vec::new());
    let read = std::io::stdin().read_to_end(&mut text);
    read.map_err(|error| error.to_string())?;
    language(&text, &mut out);
    print(&out)
}

fn run_sql(arguments: &Arguments) -> Result<(), String> {
    for (option, way) in [("--update", Way::Update), ("--insert", Way::Insert)] {
        if let Some(level) = arguments.value(option) {
            return run(|script, out| commits::sql(way, level, script, out));
        }
    }
    run(match arguments.has("--told") {
        true => sql::told,
        false => sql::asked,
    })
}

fn run_turns(words: &[String]) -> Result<(), String> {
    let [folder, rooms, program @ ..] = words else {
        return Err(USAGE.into());
    };
    let rooms = rooms.parse().map_err(|_| format!("{rooms} rooms?"))?;
    if program.is_empty() {
        return Err(USAGE.into());
    }
    print(turns::run(Path::new(folder), rooms, program)?.as_bytes())
}

fn write_script(arguments: &Arguments) -> Result<(), String> {
    if arguments.has("--commits") {
        let rooms = arguments.number("--commits", None)?;
        return print(&commits::commits_script(rooms));
    }
    let calls = arguments.number("--calls", None)?;
    if let Some(letter) = arguments.value("--growth") {
        return write_growth_script(arguments, letter, calls);
    }
    let seed = arguments.number("--seed", None)?;
    if arguments.has("--stripbook") {
        let bad_end = arguments.has("--bad-end");
        return print(&scripts::stripbook_script(seed, calls, bad_end));
    }
    if arguments.has("--rooms") {
        return print(&bench::rooms::rooms_script(seed, calls));
    }
    print(&scripts::script(&Options {
        seed,
        calls,
        profile: arguments.profile(seed)?,
        checkpoints: !arguments.has("--no-checkpoint"),
        shows: !arguments.has("--plain"),
        damage: arguments.value("--profile") == Some("damage"),
        restarts: 0,
    }))
}

fn write_growth_script(arguments: &Arguments, letter: &str, calls: u64) -> Result<(), String> {
    let number = |option, range: std::ops::RangeInclusive<usize>| {
        let number = arguments.number(option, None)? as usize;
        range
            .contains(&number)
            .then_some(number)
            .ok_or(format!("{option}: {number}?"))
    };
    let size = filler::Size {
        log_blocks: number("--log", 2..=MAX_LOG_BLOCKS)?,
        pages: number("--pages", 1..=MAX_PAGES)?,
        chain: number("--chain", 4..=MAX_SLOTS)?,
    };
    let script = growth::growth_script(size, letter.bytes().next().unwrap_or(0), calls);
    print(&script.ok_or(format!("--growth: {letter}?"))?)
}

fn run_fuzz(arguments: &Arguments) -> Result<(), String> {
    let calls = arguments.number("--calls", Some(1500))?;
    let mut all = Reached::default();
    for seed in arguments.seeds()? {
        let profile = arguments.profile(seed)?;
        match fuzz::run_seed::<Sound>(seed, profile, calls, Strictness::All) {
            Ok(reached) => all.add(&reached),
            Err(found) => return Err(fuzz::report::<Sound>(seed, &found, Strictness::All)),
        }
    }
    println!("{all:#?}\n{}", all.handovers);
    Ok(())
}

fn run_damage(arguments: &Arguments) -> Result<(), String> {
    let mut all = Tally::default();
    for seed in arguments.seeds()? {
        all.add(&damage::run_seed(seed)?);
    }
    println!("accepted: {}", all.accepted);
    for (condition, count) in all.refused.iter().enumerate().skip(1) {
        println!("condition {condition}: {count}");
    }
    if all.every_condition_failed() {
        Ok(())
    } else {
        Err("not every condition occurred".into())
    }
}

fn run_relief(arguments: &Arguments) -> Result<(), String> {
    let words: Vec<&str> = arguments.0.iter().map(String::as_str).collect();
    match words[..] {
        ["rooms", ..] => {
            for sample in arguments.seeds()?.flat_map(rooms::rooms) {
                let mut room = Vec::new();
                sample.room.put(&mut room);
                print(&room)?;
            }
        }
        ["expect"] => run(room::expect)?,
        ["same", program, ..] => {
            let counts = same::run(Path::new(program), arguments.seeds()?)?;
            println!("{counts}");
        }
        _ => println!("{}", tally_relief(arguments)?),
    }
    Ok(())
}

/// Histories of the profile that is named, or of the one of each seed and of small full logs.
fn tally_relief(arguments: &Arguments) -> Result<freed::Tally, String> {
    let calls = arguments.number("--calls", Some(1500))?;
    let mut all = freed::Tally::default();
    for seed in arguments.seeds()? {
        let profile = arguments.profile(seed)?;
        all.add(&freed::run_seed::<Sound>(
            seed,
            profile,
            calls,
            &WayOut::SOUND,
        )?);
        if arguments.value("--profile").is_none() {
            all.add(&freed::run_seed::<Sound>(
                seed,
                &FULL,
                calls,
                &WayOut::SOUND,
            )?);
        }
    }
    Ok(all)
}

fn run_shorten(arguments: &Arguments) -> Result<(), String> {
    let words: Vec<&str> = arguments.0.iter().map(String::as_str).collect();
    match words[..] {
        ["same", program, ..] => {
            let counts = shorten::same::compare(Path::new(program), arguments.seeds()?)?;
            println!("{counts}");
            Ok(())
        }
        _ => run(shorten::run),
    }
}

fn run_media(words: &[String]) -> Result<(), String> {
    let [what, file] = words else {
        return Err(USAGE.into());
    };
    let medium = std::fs::read(file).map_err(|error| format!("{file}: {error}"))?;
    match what.as_str() {
        "slots" => print(media::slots(medium).as_bytes()),
        "probe" => print(&media::probe(medium)),
        _ => Err(USAGE.into()),
    }
}

fn list_profiles() -> Result<(), String> {
    for (seed, profile) in PROFILES.iter().enumerate() {
        println!("{seed} {}", profile.name);
    }
    Ok(())
}
