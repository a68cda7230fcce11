//! The bench's commits, each stored before the next begins: as a script, and as SQL with a
//! transaction to a commit.

use crate::bench::filler::{Filler, Size};
use crate::script::machine::{Line, Machine, Reply};
use crate::script::parse;
use crate::script::words::{lines, put_hex};
use crate::store::layout::*;
use crate::store::rules::Sound;

const SIZE: Size = Size {
    log_blocks: MAX_LOG_BLOCKS,
    pages: MAX_PAGES,
    chain: 16,
};

/// So many rooms, one after the other, each filled to its last slot. Pages are stored when they
/// are full, and checkpoints made when the log is.
pub fn commits_script(rooms: u64) -> Vec<u8> {
    let mut filler = Filler::new(SIZE);
    for _ in 0..rooms {
        filler.format();
        for n in 0..filler.slots() {
            if !filler.has_room() {
                filler.make_room();
            }
            filler.commit(n);
            filler.store_log();
            if n % PAGE_SLOTS == PAGE_SLOTS - 1 {
                filler.store_changed_page(n / PAGE_SLOTS);
            }
        }
    }
    filler.out
}

pub struct Commit {
    pub slot: u64,
    pub record: RecordNumber,
    pub value: Value,
    pub time: u64,
}

impl Commit {
    pub fn hex(&self) -> String {
        let mut hex = Vec::new();
        put_hex(&mut hex, &self.value);
        String::from_utf8_lossy(&hex).into_owned()
    }
}

/// A script's commits, of one version each.
pub fn commits(script: &[u8]) -> Vec<Commit> {
    let mut machine = Machine::<Sound>::default();
    let (mut commits, mut written) = (Vec::new(), None);
    for line in lines(script).map_while(parse) {
        let Reply::Answer(answer) = machine.call(&line) else {
            continue;
        };
        match line {
            Line::Write { record, value, .. } => written = Some((answer, record, value)),
            Line::Commit { .. } => {
                commits.extend(written.take().map(|(slot, record, value)| Commit {
                    slot,
                    record,
                    value,
                    time: answer,
                }))
            }
            _ => {}
        }
    }
    commits
}

/// How SQLite keeps a commit.
#[derive(Clone, Copy, PartialEq, Eq, Debug)]
pub enum Way {
    /// In a table of the records' values as they are now.
    Update,
    /// In a table of versions, emptied where a room begins.
    Insert,
}

/// Makes the table, with SQLite's log before the file, and prints `wal` and the level's number.
pub fn preamble(way: Way, level: &str) -> String {
    let table = match way {
        Way::Update => {
            "CREATE TABLE strips(record INTEGER PRIMARY KEY,value TEXT);\n\
             WITH RECURSIVE n(record) AS (SELECT 0 UNION ALL SELECT record+1 FROM n WHERE \
             record<255) INSERT INTO strips SELECT record,'' FROM n;"
        }
        Way::Insert => {
            "CREATE TABLE versions(slot INTEGER PRIMARY KEY,record INTEGER,kind INTEGER,value \
             TEXT,time INTEGER);\nCREATE INDEX versions_of_record ON versions(record);"
        }
    };
    let pragmas = format!("PRAGMA journal_mode=WAL;PRAGMA synchronous={level};");
    format!("{pragmas}PRAGMA synchronous;\n{table}\n")
}

/// A transaction of its own.
pub fn statement(way: Way, commit: &Commit) -> String {
    let (record, hex) = (commit.record, commit.hex());
    match way {
        Way::Update => format!("UPDATE strips SET value='{hex}' WHERE record={record};\n"),
        Way::Insert => {
            let Commit { slot, time, .. } = commit;
            let empty = ["", "DELETE FROM versions;\n"][usize::from(*slot == 0)];
            format!("{empty}INSERT INTO versions VALUES({slot},{record},0,'{hex}',{time});\n")
        }
    }
}

/// Asks for the newest value of each record that has one, a line `record value` for each.
pub fn question(way: Way) -> &'static str {
    match way {
        Way::Update => "SELECT record||' '||value FROM strips WHERE value<>'' ORDER BY record;\n",
        Way::Insert => {
            "SELECT record||' '||value FROM (SELECT record,value,max(slot) FROM versions GROUP BY \
             record) ORDER BY record;\n"
        }
    }
}

/// A script's commits as SQL, and at last the question.
pub fn sql(way: Way, level: &str, script: &[u8], out: &mut Vec<u8>) {
    out.extend_from_slice(preamble(way, level).as_bytes());
    for commit in commits(script) {
        out.extend_from_slice(statement(way, &commit).as_bytes());
    }
    out.extend_from_slice(question(way).as_bytes());
}
