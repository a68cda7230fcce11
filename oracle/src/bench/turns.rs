//! Commits on a disk by programs that take turns: a batch each, so that all meet the same disk,
//! whatever else it is doing.

use crate::bench::commits::{self, Commit, Way};
use crate::script;
use crate::store::layout::{RecordNumber, BLOCK, MAX_SLOTS};
use std::fs::File;
use std::io::{ErrorKind, Read, Write};
use std::os::fd::AsRawFd;
use std::os::unix::fs::FileExt;
use std::path::{Path, PathBuf};
use std::process::{Child, ChildStdin, ChildStdout, Command, Stdio};
use std::time::{Duration, Instant};

/// Commits of a batch; ten batches fill a room, none is short.
const BATCH: usize = 96;
/// How often answers are looked for. Nobody waits for single ones, so printing them wakes nobody.
const PAUSE: Duration = Duration::from_micros(50);
const PATIENCE: Duration = Duration::from_secs(120);
/// SQLite twice, and striproom.
const PLAYERS: usize = 3;
/// What SQLite prints behind a batch.
const DONE: &str = "done\n";
/// The blocks of the file that is written by itself.
const BLOCKS: usize = 96;

/// F_SETFL, O_NONBLOCK.
const SET_FLAGS: i32 = 4;
const AT_ONCE: i32 = 0o4000;

extern "C" {
    fn fcntl(fd: i32, command: i32, number: i32) -> i32;
}

/// Lines handed over together, and what must be printed for them.
struct Batch {
    lines: Vec<u8>,
    answers: Vec<u8>,
}

struct Player {
    name: &'static str,
    batches: Vec<Batch>,
    child: Child,
    input: Option<ChildStdin>,
    output: ChildStdout,
}

/// Plays so many rooms in the folder. A line for each batch: who, in which room (the `first`, in
/// which SQLite's log grows, or a `later` one), the batch's number, its commits and its seconds.
pub fn run(folder: &Path, rooms: u64, program: &[String]) -> Result<String, String> {
    let script = commits::commits_script(rooms);
    let commits = commits::commits(&script);
    let [room, strips, versions, alone] =
        ["room", "strips.db", "versions.db", "alone"].map(|name| folder.join(name));
    let mut players: [Player; PLAYERS] = [
        Player::start("update", sqlite(&strips), updates(Way::Update, &commits))?,
        Player::start("insert", sqlite(&versions), updates(Way::Insert, &commits))?,
        Player::start("striproom", striproom(program, &room), batches(&script))?,
    ];
    let alone = Alone::new(&alone)?;
    let mut text = String::new();
    for turn in 0..commits.len() / BATCH {
        let room = ["first", "later"][usize::from(turn * BATCH >= MAX_SLOTS)];
        // Another one begins each time, so that nobody always comes behind the same one.
        for n in (turn..=turn + PLAYERS).map(|n| n % (PLAYERS + 1)) {
            let (name, seconds) = match players.get_mut(n) {
                Some(player) => (player.name, player.play(turn)?),
                None => ("alone", alone.play()?),
            };
            text += &format!("{name} {room} {turn} {BATCH} {seconds:.6}\n");
        }
    }
    for player in &mut players {
        player.end()?;
    }
    check(program, &room, [&strips, &versions], &commits)?;
    Ok(text)
}

fn striproom(program: &[String], room: &Path) -> Command {
    let mut command = Command::new(&program[0]);
    command.args(&program[1..]).arg(room);
    command
}

/// SQLite's shell, which prints a line as soon as it is whole.
fn sqlite(file: &Path) -> Command {
    let mut command = Command::new("stdbuf");
    command.args(["-oL", "sqlite3"]).arg(file);
    command
}

/// A script cut before each begin of a batch's first commit.
fn batches(script: &[u8]) -> Vec<Batch> {
    let mut answers = Vec::new();
    script::run(script, &mut answers);
    let answers = answers.split_inclusive(|&byte| byte == b'\n');
    let (mut batches, mut begins) = (Vec::<Batch>::new(), 0);
    for (line, answer) in script.split_inclusive(|&byte| byte == b'\n').zip(answers) {
        let begin = line.starts_with(b"B");
        if batches.is_empty() || begin && begins > 0 && begins % BATCH == 0 {
            batches.push(Batch {
                lines: Vec::new(),
                answers: Vec::new(),
            });
        }
        begins += usize::from(begin);
        if let Some(batch) = batches.last_mut() {
            batch.lines.extend_from_slice(line);
            batch.answers.extend_from_slice(answer);
        }
    }
    batches
}

fn updates(way: Way, commits: &[Commit]) -> Vec<Batch> {
    let batches = commits.chunks(BATCH).enumerate().map(|(n, commits)| {
        let (mut lines, mut answers) = match n {
            0 => (commits::preamble(way, "FULL"), String::from("wal\n2\n")),
            _ => Default::default(),
        };
        for commit in commits {
            lines += &commits::statement(way, commit);
        }
        lines += &format!("SELECT '{}';\n", DONE.trim_end());
        answers += DONE;
        Batch {
            lines: lines.into_bytes(),
            answers: answers.into_bytes(),
        }
    });
    batches.collect()
}

impl Player {
    fn start(
        name: &'static str,
        mut command: Command,
        batches: Vec<Batch>,
    ) -> Result<Self, String> {
        command.stdin(Stdio::piped()).stdout(Stdio::piped());
        let child = command.spawn();
        let mut child = child.map_err(|error| format!("{command:?}: {error}"))?;
        let (input, output) = (child.stdin.take(), child.stdout.take());
        let output = output.ok_or("no output")?;
        // A descriptor of our own.
        unsafe { fcntl(output.as_raw_fd(), SET_FLAGS, AT_ONCE) };
        Ok(Player {
            name,
            batches,
            child,
            input,
            output,
        })
    }

    /// Answers the seconds from the first line to the last answer.
    fn play(&mut self, turn: usize) -> Result<f64, String> {
        let batch = &self.batches[turn];
        let mut answers = vec![0; batch.answers.len()];
        let (mut count, start) = (0, Instant::now());
        let input = self.input.as_mut().ok_or("no input")?;
        let sent = input.write_all(&batch.lines);
        sent.map_err(|error| format!("{}: {error}", self.name))?;
        while count < answers.len() {
            match self.output.read(&mut answers[count..]) {
                Ok(0) => return Err(format!("{} has ended", self.name)),
                Ok(more) => count += more,
                Err(error) if error.kind() == ErrorKind::WouldBlock => std::thread::sleep(PAUSE),
                Err(error) => return Err(format!("{}: {error}", self.name)),
            }
            if start.elapsed() > PATIENCE {
                return Err(format!("{} does not answer", self.name));
            }
        }
        let seconds = start.elapsed().as_secs_f64();
        match answers == batch.answers {
            true => Ok(seconds),
            false => Err(format!("{}: other answers in batch {turn}", self.name)),
        }
    }

    fn end(&mut self) -> Result<(), String> {
        self.input = None;
        let status = self.child.wait().map_err(|error| error.to_string())?;
        match status.success() {
            true => Ok(()),
            false => Err(format!("{}: {status}", self.name)),
        }
    }
}

impl Drop for Player {
    fn drop(&mut self) {
        let _ = self.child.kill();
        let _ = self.child.wait();
    }
}

/// The disk by itself: one block written in place and stored for each commit.
struct Alone(File);

impl Alone {
    fn new(path: &Path) -> Result<Self, String> {
        let file = File::create(path).and_then(|file| {
            file.write_all_at(&[1; BLOCK * BLOCKS], 0)?;
            file.sync_all()?;
            Ok(file)
        });
        file.map(Alone).map_err(|error| error.to_string())
    }

    fn play(&self) -> Result<f64, String> {
        let start = Instant::now();
        for n in 0..BATCH {
            let at = (n % BLOCKS * BLOCK) as u64;
            let stored = self.0.write_all_at(&[n as u8; BLOCK], at);
            let stored = stored.and_then(|()| self.0.sync_data());
            stored.map_err(|error| error.to_string())?;
        }
        Ok(start.elapsed().as_secs_f64())
    }
}

/// Programs started anew must find what was committed last.
fn check(
    program: &[String],
    room: &Path,
    files: [&PathBuf; 2],
    commits: &[Commit],
) -> Result<(), String> {
    let newest: std::collections::BTreeMap<RecordNumber, String> = commits
        .iter()
        .map(|commit| (commit.record, commit.hex()))
        .collect();
    let (mut script, mut answers, mut rows) = (String::from("O 0\n"), String::new(), String::new());
    let last = commits.last().map_or(0, |commit| commit.time);
    answers += &format!("O 0 {last}\n");
    for (record, value) in newest {
        script += &format!("Q {record} {last}\n");
        answers += &format!("Q 0 {value}\n");
        rows += &format!("{record} {value}\n");
    }
    let found = ask(striproom(program, room), &script)?;
    let [updated, inserted] = files;
    let tables = [(updated, Way::Update), (inserted, Way::Insert)]
        .map(|(file, way)| ask(sqlite(file), commits::question(way)));
    if found != answers {
        return Err("striproom started anew finds something else".into());
    }
    for table in tables {
        if table? != rows {
            return Err("SQLite started anew finds something else".into());
        }
    }
    Ok(())
}

fn ask(mut command: Command, text: &str) -> Result<String, String> {
    let child = command.stdin(Stdio::piped()).stdout(Stdio::piped()).spawn();
    let mut child = child.map_err(|error| format!("{command:?}: {error}"))?;
    let mut input = child.stdin.take().ok_or("no input")?;
    let sent = input.write_all(text.as_bytes());
    sent.map_err(|error| error.to_string())?;
    drop(input);
    let output = child.wait_with_output();
    let output = output.map_err(|error| error.to_string())?;
    Ok(String::from_utf8_lossy(&output.stdout).into_owned())
}
