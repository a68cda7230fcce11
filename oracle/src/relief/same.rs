//! The program `relief` beside the oracle: what it prints for rooms, and for inputs that end within a
//! room.

use super::next;
use super::room::*;
use super::rooms::{rooms, Sample};
use crate::judge::{demand, Verdict};
use crate::random::Random;
use crate::store::layout::*;
use crate::store::rules::Sound;
use std::fmt;
use std::io::{Read, Write};
use std::path::Path;
use std::process::{Command, Stdio};

/// What was compared.
#[derive(Clone, Copy, Default, Debug)]
pub struct Counts {
    pub rooms: u64,
    /// Rooms right after a refusal 8.
    pub full: u64,
    pub calls: u64,
    /// The most calls of one room.
    pub longest: usize,
}

impl fmt::Display for Counts {
    fn fmt(&self, out: &mut fmt::Formatter) -> fmt::Result {
        let (rooms, full, calls) = (self.rooms, self.full, self.calls);
        let longest = self.longest;
        write!(
            out,
            "{rooms} rooms, {full} right after an 8, {calls} calls, longest list {longest}"
        )
    }
}

/// Compares the program with the oracle on the rooms of these seeds, or finds the first difference.
pub fn run(program: &Path, seeds: impl Iterator<Item = u64>) -> Verdict<Counts> {
    let mut counts = Counts::default();
    let mut play = |input: Vec<u8>, step| output(program, input, step);
    for seed in seeds {
        compare(&rooms(seed), &mut play, &mut counts)?;
    }
    compare_ends(&mut play)?;
    Ok(counts)
}

/// Plays rooms by a program, which is given them in parts of some length.
pub fn compare(
    samples: &[Sample],
    play: &mut impl FnMut(Vec<u8>, usize) -> Verdict<Vec<u8>>,
    counts: &mut Counts,
) -> Verdict<()> {
    let mut input = Vec::new();
    for sample in samples {
        sample.room.put(&mut input);
    }
    // Parts that end anywhere in a room.
    let step = 1000 + Random::new(input.len() as u64).below(60_000) as usize;
    let output = play(input, step)?;
    let mut rest = &output[..];
    for sample in samples {
        let mut wanted = Vec::new();
        let calls = sample.room.clone().free(next::<Sound>, &mut wanted);
        let (printed, others) = rest.split_at(wanted.len().min(rest.len()));
        rest = others;
        demand(*printed == wanted, || {
            let text = wanted.len() - room_bytes(&sample.room);
            format!("{}: {}", sample.origin, difference(&wanted, printed, text))
        })?;
        counts.rooms += 1;
        counts.full += u64::from(sample.full);
        counts.calls += calls as u64;
        counts.longest = counts.longest.max(calls);
    }
    let more = rest.len();
    demand(more == 0, || format!("{more} bytes behind the last room"))
}

fn room_bytes(room: &Room) -> usize {
    HEADER + 8 * WORDS + BLOCK + room.medium.len() + room.cache.len()
}

/// The bytes of the two lengths.
const HEADER: usize = 16;

/// How many bytes at the front are the same.
fn same_bytes(wanted: &[u8], printed: &[u8]) -> usize {
    let pairs = wanted.iter().zip(printed);
    let same = pairs.take_while(|(wanted, printed)| wanted == printed);
    same.count()
}

/// Says what the first byte that differs belongs to; so many bytes are text.
fn difference(wanted: &[u8], printed: &[u8], text: usize) -> String {
    let at = same_bytes(wanted, printed);
    if at < text {
        let newline = wanted[..at].iter().rposition(|&byte| byte == b'\n');
        let start = newline.map_or(0, |newline| newline + 1);
        let line = |bytes: &[u8]| {
            let lines = bytes[start..].split(|&byte| byte == b'\n');
            let line: Vec<u8> = lines.take(1).flatten().take(40).copied().collect();
            line.escape_ascii().to_string()
        };
        return format!("the line '{}' and not '{}'", line(printed), line(wanted));
    }
    if at == printed.len() {
        return format!("the output ends {} bytes too early", wanted.len() - at);
    }
    let (wanted_byte, printed_byte) = (wanted[at], printed[at]);
    let medium = get64(wanted, text) as usize;
    let part = part_of(at - text, medium);
    format!("{part} has {printed_byte} and not {wanted_byte}")
}

/// Names a byte of a room.
fn part_of(at: usize, medium: usize) -> String {
    let tail = HEADER + 8 * WORDS;
    if at < HEADER {
        return format!("byte {at} of the lengths");
    }
    if at < tail {
        return format!("byte {} of word {}", at % 8, (at - HEADER) / 8);
    }
    let (name, at) = match at - tail {
        at @ 0..BLOCK => ("tail", at),
        at if at < BLOCK + medium => ("medium", at - BLOCK),
        at => ("cache", at - BLOCK - medium),
    };
    format!("{name}, byte {} of block {}", at % BLOCK, at / BLOCK)
}

/// Inputs that end within a room or name one that is too long: the rooms before are played, and no more.
/// They come byte by byte.
pub fn compare_ends(play: &mut impl FnMut(Vec<u8>, usize) -> Verdict<Vec<u8>>) -> Verdict<()> {
    for (name, input) in ends() {
        let mut wanted = Vec::new();
        expect(&input, &mut wanted);
        let printed = play(input, 1)?;
        demand(printed == wanted, || {
            let (at, length) = (same_bytes(&wanted, &printed), wanted.len());
            format!("{name}: the output is wrong from byte {at} on, of {length}")
        })?;
    }
    Ok(())
}

fn ends() -> Vec<(String, Vec<u8>)> {
    let mut whole = Vec::new();
    let samples = rooms(0).into_iter().filter(|sample| sample.full);
    let smallest = samples.map(|sample| sample.room).min_by_key(room_bytes);
    let room = smallest.expect("a log runs full");
    room.put(&mut whole);
    let mut ends = vec![("no room".to_string(), Vec::new())];
    let medium = HEADER + 8 * WORDS + BLOCK;
    let cache = medium + room.medium.len();
    for cut in [1, 8, 15, 16, 17, medium - BLOCK, medium, cache, whole.len()] {
        for cut in [cut - 1, cut] {
            let input = [&whole[..], &whole[..cut]].concat();
            ends.push((format!("a room and {cut} bytes"), input));
        }
    }
    let lengths = [(0, MAX_MEDIUM), (8, MAX_CACHE)];
    for (at, most) in lengths {
        for length in [most as u64 + 1, 1 << 32, 1 << 63, u64::MAX] {
            let mut input = [&whole[..], &whole[..]].concat();
            put64(&mut input, whole.len() + at, length);
            ends.push((format!("a length of {length}"), input));
        }
    }
    ends
}

/// What a program prints for an input that comes in such parts.
fn output(program: &Path, input: Vec<u8>, step: usize) -> Verdict<Vec<u8>> {
    let text = |error: std::io::Error| format!("{}: {error}", program.display());
    let mut command = Command::new(program);
    let child = command.stdin(Stdio::piped()).stdout(Stdio::piped()).spawn();
    let mut child = child.map_err(text)?;
    let (stdin, stdout) = (child.stdin.take(), child.stdout.take());
    let writer = std::thread::spawn(move || {
        // A program that ends its run early takes no more.
        let taken =
            stdin.map(|mut stdin| input.chunks(step).all(|part| stdin.write_all(part).is_ok()));
        taken.unwrap_or(false)
    });
    let mut printed = Vec::new();
    let read = stdout.map(|mut stdout| stdout.read_to_end(&mut printed));
    read.transpose().map_err(text)?;
    let status = child.wait().map_err(text)?;
    let _ = writer.join();
    demand(status.success(), || {
        format!("{}: {status}", program.display())
    })?;
    Ok(printed)
}
