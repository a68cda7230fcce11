//! Ended by SIGKILL exactly at a call of a handover, or of the store behind it: an opening finds the
//! whole handover or none of it.

use crate::disk::kill::{ask, finds, run_until, Moment};
use crate::disk::process::Setup;
use crate::disk::session::shown;
use crate::disk::verdict::{Allowed, Chain, Fate};
use crate::random::Random;
use crate::script::words::lines;

/// A script whose last line stores a block, and what an opening finds where that line is done and where
/// it is not: the last time, and the owner of flight 7.
struct Case {
    name: &'static str,
    text: String,
    done: (u64, u8),
    not_done: (u64, u8),
}

/// Flight 7 of owner 1 at this time, stored, and then so many versions of number 2.
fn start(time: u64, versions: u8) -> String {
    let strip = "01".repeat(16);
    let mut text = format!("F 4 3\nO 0\nB 1\nW 1 7 {strip}\nC 1 {time}\nS\nB 2\n");
    text.extend((0..versions).map(|n| format!("W 2 {} {}\n", 100 + n, "09".repeat(16))));
    text
}

fn cases() -> [Case; 4] {
    let (last, other, hand) = (u64::MAX, "09".repeat(16), "H 7 1 2 20 20\n");
    [
        Case {
            name: "its version begins the next block",
            text: start(10, 13) + hand,
            done: (10, 1),
            not_done: (10, 1),
        },
        Case {
            name: "its commit begins the next block",
            text: start(10, 10) + &format!("B 3\nW 3 500 {other}\nC 2 11\nC 3 12\n{hand}"),
            done: (12, 1),
            not_done: (10, 1),
        },
        Case {
            name: "its version begins the next block and its commit is refused",
            text: start(last, 13) + hand,
            done: (last, 1),
            not_done: (last, 1),
        },
        Case {
            name: "the log is stored behind it",
            text: start(10, 3) + hand + "S\n",
            done: (20, 2),
            not_done: (10, 1),
        },
    ]
}

/// Answers how many kills there were.
pub fn run(setup: &Setup) -> Result<u64, String> {
    let mut kills = 0;
    for case in cases() {
        let answer = lines(case.text.as_bytes()).count();
        // A format stores three times, and the log is stored once before the last line.
        for (call, allowed) in [
            ("before pwrite 5".to_string(), Allowed::NotDone),
            ("after pwrite 5".to_string(), Allowed::Done),
            ("before fdatasync 5".to_string(), Allowed::Done),
            ("after fdatasync 5".to_string(), Allowed::Done),
            (format!("before write {answer}"), Allowed::Done),
        ] {
            let killed = kill(setup, &case, &Moment::At(call.clone(), allowed), allowed);
            killed.map_err(|text| format!("handover, {}, {call}: {text}", case.name))?;
            kills += 1;
        }
    }
    Ok(kills)
}

fn kill(setup: &Setup, case: &Case, moment: &Moment, allowed: Allowed) -> Result<(), String> {
    let path = setup.disk.join("handed");
    let _ = std::fs::remove_file(&path);
    let text = case.text.as_bytes();
    let printed = run_until(setup, &path, text, moment)?;
    let lines: Vec<&[u8]> = lines(text).collect();
    let mut chain = Chain::default();
    let fate = chain.killed(&lines, &printed, std::fs::read(&path).ok(), allowed)?;
    let (last, owner) = match fate {
        Fate::Done => case.done,
        Fate::NotDone => case.not_done,
        _ => return Err(format!("{fate:?}")),
    };
    finds(setup, &path, &mut chain, &mut Random::new(1))?;
    let got = ask(setup, &path, format!("O 0\nQ 7 {last}\n").as_bytes())?;
    let wanted = format!("O 0 {last}\nQ 0 {owner:02x}{}\n", "01".repeat(15));
    match got == wanted.as_bytes() {
        true => Ok(()),
        false => Err(format!("{fate:?}: finds {}, not {wanted:?}", shown(&got))),
    }
}
