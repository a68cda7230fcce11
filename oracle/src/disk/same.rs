//! The same answers and bytes as the oracle, in one process and in many.

use crate::disk::cores::deal;
use crate::disk::odd::odd;
use crate::disk::process::Setup;
use crate::disk::session::{Counts, Session};
use crate::history::scripts::{script, Options, NEW_PROCESS};
use crate::random::Random;
use crate::script;
use crate::script::words::lines;
use std::path::PathBuf;

/// How the lines of a script reach the program.
#[derive(Clone, Copy, PartialEq, Eq, Debug)]
enum Way {
    /// One process, a line when the last is answered.
    OneProcess,
    /// The same lines, with a new process wherever it takes nothing away: the answers are the same.
    SameAnswers,
    /// With new processes between any two lines; the script knows of them and opens the file again.
    NewProcesses,
    /// Many lines at once, and new processes.
    AtOnce,
}

const WAYS: [Way; 4] = [
    Way::OneProcess,
    Way::SameAnswers,
    Way::NewProcesses,
    Way::AtOnce,
];

pub struct Effort {
    /// Seeds of histories, from 1 on; a seed takes the profile at its rest by 15.
    pub seeds: u64,
    pub calls: u64,
    /// Seeds of histories with damage, and their calls.
    pub damaged: u64,
    pub damaged_calls: u64,
    /// After so many calls in a hundred a new process goes on, in batches after half of them.
    pub restarts: u64,
    pub odd: u64,
}

/// A script that a worker plays.
enum Job {
    History { seed: u64, damage: bool, way: Way },
    Odd { seed: u64 },
}

impl Effort {
    fn jobs(&self) -> Vec<Job> {
        let sound = (1..=self.seeds).map(|seed| (seed, false));
        let damaged = (1..=self.damaged).map(|seed| (seed, true));
        let ways = |(seed, damage)| WAYS.map(|way| Job::History { seed, damage, way });
        let histories = sound.chain(damaged).flat_map(ways);
        let odd = (0..self.odd).map(|seed| Job::Odd { seed });
        histories.chain(odd).collect()
    }
}

/// What a worker counted: in each of the ways, and with odd files.
#[derive(Default)]
struct Tally {
    ways: [Counts; WAYS.len()],
    odd: Counts,
}

/// Each setup is a worker's own.
pub fn run(setups: &[Setup], effort: &Effort) -> Result<String, String> {
    let jobs = effort.jobs();
    let work = |setup: &Setup, job: usize, tally: &mut Tally| {
        match jobs[job] {
            Job::History { seed, damage, way } => {
                tally.ways[way as usize].add(&history(setup, effort, seed, damage, way)?);
            }
            Job::Odd { seed } => tally.odd.add(&odd_file(setup, seed)?),
        }
        Ok(())
    };
    let mut all = Tally::default();
    for tally in deal(setups, jobs.len(), work)? {
        all.odd.add(&tally.odd);
        for (sum, counts) in all.ways.iter_mut().zip(&tally.ways) {
            sum.add(counts);
        }
    }
    Ok(all.told(effort))
}

impl Tally {
    fn told(&self, effort: &Effort) -> String {
        let scripts = effort.seeds + effort.damaged;
        let [one, again, any, batches] = &self.ways;
        // The first process of a script takes over from none.
        let new = |counts: &Counts| counts.processes - scripts;
        let mut all = self.odd;
        self.ways.iter().for_each(|counts| all.add(counts));
        format!(
            "same: {scripts} scripts whole, {} lines in one process and again with {} new ones that change no answer; {} lines \
             with {} new ones between any two; {} lines in batches, with {} new ones; {} odd files: answers, calls and \
             the file's bytes after each line or batch as the oracle's; {} stores of one block, {} formats; {} handovers, \
             {} with a store; {} versions of records from 256 on, {} refusals 18",
            one.lines,
            new(again),
            any.lines,
            new(any),
            batches.lines,
            new(batches),
            effort.odd,
            all.stores,
            all.formats,
            all.handovers,
            all.handover_stores,
            all.high_records,
            all.no_records
        )
    }
}

/// A seed's history in one of the ways.
fn history(
    setup: &Setup,
    effort: &Effort,
    seed: u64,
    damage: bool,
    way: Way,
) -> Result<Counts, String> {
    let calls = match damage {
        true => effort.damaged_calls,
        false => effort.calls,
    };
    let text = script(&Options {
        shows: true,
        damage,
        restarts: match way {
            Way::OneProcess | Way::SameAnswers => 0,
            Way::NewProcesses => effort.restarts,
            Way::AtOnce => effort.restarts / 2,
        },
        ..Options::plain(seed, calls)
    });
    // Storing on a disk takes time, so most files lie in memory.
    let on_disk = seed % 15 == 1 && !damage;
    let folder = if on_disk { &setup.disk } else { &setup.memory };
    let mut player = Player {
        session: Session::new(setup, &folder.join("room"))?,
        way,
        may_end: false,
        random: Random::new(seed),
    };
    let played = player.play(&text);
    played.map_err(|text| format!("seed {seed}, {way:?}, damage {damage}, {text}"))
}

fn odd_file(setup: &Setup, seed: u64) -> Result<Counts, String> {
    let (file, text) = odd(seed);
    let path = setup.memory.join("odd");
    std::fs::write(&path, &file).map_err(|error| error.to_string())?;
    let mut player = Player {
        session: Session::new(setup, &path)?,
        way: Way::NewProcesses,
        may_end: true,
        random: Random::new(seed),
    };
    let played = player.play(&text);
    played.map_err(|text| format!("odd file {seed} of {} bytes, {text}", file.len()))
}

struct Player<'a> {
    session: Session<'a>,
    way: Way,
    /// A line may end the run.
    may_end: bool,
    random: Random,
}

impl Player<'_> {
    fn play(&mut self, text: &[u8]) -> Result<Counts, String> {
        let lines: Vec<&[u8]> = lines(text).collect();
        let mut at = 0;
        while at < lines.len() {
            let complaint = match self.step(&lines[at..]) {
                Ok(0) if self.may_end => break,
                Ok(0) => "the run ends".into(),
                Ok(count) => {
                    at += count;
                    continue;
                }
                Err(complaint) => complaint,
            };
            return Err(format!("line {} of {}: {complaint}", at + 1, save(text)));
        }
        let ended = self.session.end();
        ended.map_err(|text| format!("at the end: {text}"))?;
        if matches!(self.way, Way::OneProcess | Way::SameAnswers) {
            self.replayed(text)?;
        }
        std::fs::remove_file(&self.session.path).map_err(|error| error.to_string())?;
        Ok(self.session.counts)
    }

    /// Plays the next line, or some, or starts a new process where they say so; answers how many that were, 0 if the
    /// run has ended.
    fn step(&mut self, lines: &[&[u8]]) -> Result<usize, String> {
        if lines[0] == NEW_PROCESS {
            self.session.restart(self.random.percent(50))?;
            return Ok(1);
        }
        let count = match self.way {
            Way::AtOnce => self.random.within((1, 40)) as usize,
            _ => 1,
        };
        if self.way == Way::SameAnswers && self.session.room.needs_no_past(lines[0]) {
            self.session.restart(self.random.percent(50))?;
        }
        let mut parts = lines[..lines.len().min(count)].split(|line| *line == NEW_PROCESS);
        let batch = parts.next().unwrap_or_default();
        match self.session.lines(batch)? {
            true => Ok(batch.len()),
            false => Ok(0),
        }
    }

    /// All answers were those that `replay` gives to the script, to its end.
    fn replayed(&self, text: &[u8]) -> Result<(), String> {
        let mut answers = Vec::new();
        script::run(text, &mut answers);
        match answers == self.session.printed {
            true => Ok(()),
            false => Err(format!("other answers than to {} at once", save(text))),
        }
    }
}

pub fn saved() -> PathBuf {
    std::env::temp_dir().join(format!("striproom-failed-{}", std::process::id()))
}

/// Keeps the script of a failure.
pub fn save(text: &[u8]) -> String {
    match std::fs::write(saved(), text) {
        Ok(()) => saved().display().to_string(),
        Err(_) => "the script".into(),
    }
}
